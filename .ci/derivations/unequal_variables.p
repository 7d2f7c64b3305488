cnf(a,axiom,X != Y).
