cnf(a,axiom,p | q). cnf(b,axiom,~p | q). cnf(c,axiom,p | ~q). cnf(d,axiom,~p | ~q).
