/- Each operator and method of bit vectors once, in theorems that hold but for the last three. -/

-- arithmetic
theorem add_sub (x y : BitVec 16) : x + y - y = x := by bv_decide
theorem neg_is_not_plus_one (x : BitVec 32) : -x = ~~~x + 1 := by bv_decide
theorem mul_two (x : BitVec 8) : x * 2 = x <<< 1 := by bv_decide
theorem div_mod (x y : BitVec 4) : x / y * y + x % y = x := by bv_decide
theorem udiv_is_div (x y : BitVec 4) : x.udiv y = x / y ∧ x.umod y = x % y := by bv_decide
theorem div_zero (x : BitVec 8) : x / 0 = 0 := by bv_decide
theorem signed (x y : BitVec 4) : (x.sdiv y) * y + x.srem y = x := by bv_decide
theorem smod_one (x : BitVec 4) : x.smod 1 = 0 := by bv_decide

-- bits
theorem de_morgan (x y : BitVec 32) : ~~~(x &&& y) = ~~~x ||| ~~~y := by bv_decide
theorem xor_self (x : BitVec 64) : x ^^^ x = 0 := by bv_decide
theorem shift_back (x : BitVec 16) : x >>> 3 <<< 3 = x &&& 0xfff8 := by bv_decide
theorem shift_by_vector (x : BitVec 8) (n : BitVec 3) : (x >>> n) ≤ x := by bv_decide
theorem arithmetic_shift (x : BitVec 8) : (x.sshiftRight 7 = 0) ∨ (x.sshiftRight 7 = 0xff) := by bv_decide
theorem arithmetic_shift_by (x n : BitVec 4) : (x.sshiftRight' n).msb = x.msb := by bv_decide
theorem rotate (x : BitVec 8) : (x.rotateLeft 3).rotateRight 3 = x := by bv_decide
theorem halves (x : BitVec 16) : x.extractLsb' 8 8 ++ x.extractLsb 7 0 = x := by bv_decide
theorem widths (x : BitVec 8) : (x.setWidth 16).truncate 8 = x ∧ x.zeroExtend 16 = x.setWidth 16 := by bv_decide
theorem sign (x : BitVec 8) : (x.signExtend 16).slt 0 = x.msb := by bv_decide
theorem low_bit (x : BitVec 8) : x.getLsbD 0 = (x % 2 = 1) := by bv_decide

-- comparisons and truths
theorem at_most (x y : BitVec 8) : (x ≤ y) ↔ ¬ (y < x) := by bv_decide
theorem signed_order (x y : BitVec 8) : x.sle y = !(y.slt x) := by bv_decide
theorem by_method (x y : BitVec 8) : x.ult y = (x < y) ∧ x.ule y = (x ≤ y) := by bv_decide
theorem greatest (x y : BitVec 8) : (if x < y then y else x) ≥ x := by bv_decide
theorem exclusive (a b : Bool) : (a ^^ b) = (a != b) := by bv_decide
theorem implication (a b : Bool) (h : a → b) (k : ¬b) : ¬a := by bv_decide
theorem bare (x : BitVec 8) : (x + (1 : BitVec 8)) * 2 = 2 + x * 2 := by bv_decide

-- and three that don't
theorem no_overflow (x y : BitVec 8) : x ≤ x + y := by bv_decide
theorem average (x y : BitVec 8) (h : x ≤ y) : x ≤ (x + y) / 2 := by bv_decide
theorem absolute (x : BitVec 8) : (if x.slt 0 then -x else x).sle 127 ∧ ¬ (if x.slt 0 then -x else x).slt 0 := by bv_decide
