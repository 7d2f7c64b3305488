cnf(a,axiom,p | p). cnf(b,axiom,~p).
