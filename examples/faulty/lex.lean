theorem unclosed (x : BitVec 8) : x = x := by bv_decide
/- this comment is opened /- twice -/ and closed once
