import Std.Tactic.BVDecide

open BitVec

/- Identities as Lean users prove them by `bv_decide`. -/
theorem bitwise_unit_1 {x y : BitVec 64} : ~~~(x &&& y) = (~~~x ||| ~~~y) := by
  bv_decide

theorem bitwise_unit_3 (x y : BitVec 64) : ~~~(x ^^^ y) = ((x &&& y) ||| (~~~x &&& ~~~y)) := by bv_decide

theorem substructure_unit_1 (x y z : BitVec 8) : ((x = y) ∧ (y = z)) ↔ ¬(¬(x =y) ∨ (¬(y = z))) := by
  bv_decide

theorem substructure_unit_1' (x y z : BitVec 8) : ((x == y) && (y == z)) ↔ ¬(¬(x == y) || (¬(y == z))) := by
  bv_decide

theorem substructure_unit_3 (x y : BitVec 8) : (x = y) ↔ ((!(x != y)) == true)  := by
  bv_decide

theorem shift_unit_2 {x y : BitVec 32} : x <<< 32 = y <<< 32 := by
  bv_decide

theorem neg_eq_not_add_one (x : BitVec 64) : -x = ~~~ x + 1 := by bv_decide

theorem add_eq_xor_add_mul_and (x y : BitVec 64) : x + y = (x ^^^ y) + 2 * (x &&& y) := by bv_decide

theorem xor_eq_or_sub_and (x y : BitVec 32) : x ^^^ y = (x ||| y) - (x &&& y) := by bv_decide

theorem not_sub_one_eq_not_add_one (x : BitVec 64) : ~~~ (x - 1#64) = - x := by bv_decide

example (a b : BitVec 64) : (a &&& b) + (a ^^^ b) = a ||| b := by
  bv_decide

