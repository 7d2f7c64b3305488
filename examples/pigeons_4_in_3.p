cnf(pigeon1,axiom,in(p1,h1) | in(p1,h2) | in(p1,h3)).
cnf(pigeon2,axiom,in(p2,h1) | in(p2,h2) | in(p2,h3)).
cnf(pigeon3,axiom,in(p3,h1) | in(p3,h2) | in(p3,h3)).
cnf(pigeon4,axiom,in(p4,h1) | in(p4,h2) | in(p4,h3)).
cnf(hole1_1_2,axiom,~in(p1,h1) | ~in(p2,h1)).
cnf(hole1_1_3,axiom,~in(p1,h1) | ~in(p3,h1)).
cnf(hole1_1_4,axiom,~in(p1,h1) | ~in(p4,h1)).
cnf(hole1_2_3,axiom,~in(p2,h1) | ~in(p3,h1)).
cnf(hole1_2_4,axiom,~in(p2,h1) | ~in(p4,h1)).
cnf(hole1_3_4,axiom,~in(p3,h1) | ~in(p4,h1)).
cnf(hole2_1_2,axiom,~in(p1,h2) | ~in(p2,h2)).
cnf(hole2_1_3,axiom,~in(p1,h2) | ~in(p3,h2)).
cnf(hole2_1_4,axiom,~in(p1,h2) | ~in(p4,h2)).
cnf(hole2_2_3,axiom,~in(p2,h2) | ~in(p3,h2)).
cnf(hole2_2_4,axiom,~in(p2,h2) | ~in(p4,h2)).
cnf(hole2_3_4,axiom,~in(p3,h2) | ~in(p4,h2)).
cnf(hole3_1_2,axiom,~in(p1,h3) | ~in(p2,h3)).
cnf(hole3_1_3,axiom,~in(p1,h3) | ~in(p3,h3)).
cnf(hole3_1_4,axiom,~in(p1,h3) | ~in(p4,h3)).
cnf(hole3_2_3,axiom,~in(p2,h3) | ~in(p3,h3)).
cnf(hole3_2_4,axiom,~in(p2,h3) | ~in(p4,h3)).
cnf(hole3_3_4,axiom,~in(p3,h3) | ~in(p4,h3)).
