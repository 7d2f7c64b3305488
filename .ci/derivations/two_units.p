cnf(a,axiom,p). cnf(b,negated_conjecture,~p).
