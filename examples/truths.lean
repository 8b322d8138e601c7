theorem andAssoc (a b c : Bool) : (a && (b && c)) = ((a && b) && c) := by bv_decide
theorem deMorgan (a b : Bool) : (!(a && b)) = ((!a) || (!b)) := by bv_decide
theorem orIsAnd (a b : Bool) : (a || b) = (a && b) := by bv_decide
theorem xorCancels (a b : Bool) : ((a ^^ b) ^^ b) = a := by bv_decide
theorem xorIsNe (a b : Bool) : (a ^^ b) = (a != b) := by bv_decide
theorem distributes (a b c : Bool) : (a && (b || c)) = ((a && b) || (a && c)) := by bv_decide
theorem groups (a b c : Bool) : (a || (b && c)) = ((a || b) && c) := by bv_decide
theorem majority (a b c : Bool) : (((a && b) || (a && c)) || (b && c)) = ((a && (b || c)) || (b && c)) := by bv_decide
theorem excludedMiddle (a : Bool) : a || (!a) := by bv_decide
example : (true && false) = false := by bv_decide
