"""How ./build builds programs: what they are made of, with a proof, and without one."""
