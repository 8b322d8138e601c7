import Std.Tactic.BVDecide

open BitVec

/- masks -/
theorem mask_le (x m : BitVec 32) : x &&& m ≤ x := by bv_decide

theorem swap_xor (a b : BitVec 16) (h : a ≠ b) : (a ^^^ b) != 0 := by bv_decide

theorem half_lt (x : BitVec 8) (h : 0 < x) : x >>> 1 < x := by
  bv_decide -- one line
