cnf(a,axiom,p(a)). cnf(b,axiom,~p(a)).
