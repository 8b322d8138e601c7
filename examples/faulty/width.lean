-- A width is 1 to 128.
theorem wide (x : BitVec 129) : x = x := by bv_decide
