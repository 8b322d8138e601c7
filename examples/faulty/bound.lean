-- A name is bound once.
theorem twice (a b a : Bool) : a = a := by bv_decide
