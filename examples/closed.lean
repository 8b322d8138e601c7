example : 5#8 + 251#8 = 0#8 := by bv_decide
example : 12#4 &&& 10#4 = 8#4 := by bv_decide
example : 12#4 &&& 10#4 = 9#4 := by bv_decide
example : 1#1 + 1#1 = 0#1 := by bv_decide
example : 1#1 &&& 1#1 = 0#1 := by bv_decide

example : 300#8 = 44#8 := by bv_decide
example : 65535#16 + 1#16 = 0#16 := by bv_decide
example : 240#8 &&& 60#8 = 32#8 + 16#8 := by bv_decide
example : 4294967295#32 + 4294967295#32 = 4294967294#32 := by bv_decide
example : 18446744073709551615#64 &&& 4294967296#64 = 4294967296#64 := by bv_decide
example : 18446744073709551615#64 + 1#64 = 1#64 := by bv_decide
example : 340282366920938463463374607431768211455#128 + 1#128 = 0#128 := by bv_decide
example : 170141183460469231731687303715884105728#128 &&& 1#128 = 0#128 := by bv_decide
