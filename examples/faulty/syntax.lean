-- Comparisons do not chain: the second `=` can not stand there.
theorem chained (a b c : Bool) : a = b = c := by bv_decide
