example : 5#8 + 251#8 = 0#8 := by bv_decide
