cnf(a,axiom,p). cnf(b,axiom,$false). cnf(c,axiom,q).
