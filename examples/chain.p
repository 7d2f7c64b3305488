cnf(start,axiom,reached(a)).
cnf(step_b,axiom,~reached(a) | reached(b)).
cnf(step_c,axiom,~reached(b) | reached(c) | reached(d)).
cnf(closed_road,axiom,~reached(d)).
cnf(goal,negated_conjecture,~reached(e)).
