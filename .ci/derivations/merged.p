cnf(a,axiom,p(X) | p(a)). cnf(b,axiom,~p(a)).
