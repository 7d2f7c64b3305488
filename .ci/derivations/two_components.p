cnf(a,axiom,p(X) | q(Y)). cnf(b,axiom,~p(a)). cnf(c,axiom,~q(b)).
