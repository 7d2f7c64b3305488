cnf(a,axiom,a = b). cnf(b,axiom,f(a) = c). cnf(c,axiom,f(b) != c).
