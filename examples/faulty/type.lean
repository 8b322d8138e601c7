-- The widths differ.
theorem widths (x : BitVec 8) (y : BitVec 9) : x + y = y + x := by bv_decide
