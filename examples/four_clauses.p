cnf(one_of_them,axiom,p | q).
cnf(p_brings_q,axiom,~p | q).
cnf(q_brings_p,axiom,p | ~q).
cnf(not_both,negated_conjecture,~p | ~q).
