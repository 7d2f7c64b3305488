cnf(a,axiom,X != X).
