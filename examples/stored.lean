-- A theorem that names the file of its certificate, which `bvd check` replays from there.
theorem comm (x y : BitVec 4) : x &&& y = y &&& x := by
  bv_check "comm.lrat"
