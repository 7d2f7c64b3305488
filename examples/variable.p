cnf(all,axiom,p(X)).
cnf(one,negated_conjecture,~p(a)).
