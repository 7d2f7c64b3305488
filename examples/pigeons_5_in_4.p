cnf(pigeon1,axiom,in(p1,h1) | in(p1,h2) | in(p1,h3) | in(p1,h4)).
cnf(pigeon2,axiom,in(p2,h1) | in(p2,h2) | in(p2,h3) | in(p2,h4)).
cnf(pigeon3,axiom,in(p3,h1) | in(p3,h2) | in(p3,h3) | in(p3,h4)).
cnf(pigeon4,axiom,in(p4,h1) | in(p4,h2) | in(p4,h3) | in(p4,h4)).
cnf(pigeon5,axiom,in(p5,h1) | in(p5,h2) | in(p5,h3) | in(p5,h4)).
cnf(hole1_1_2,axiom,~in(p1,h1) | ~in(p2,h1)).
cnf(hole1_1_3,axiom,~in(p1,h1) | ~in(p3,h1)).
cnf(hole1_1_4,axiom,~in(p1,h1) | ~in(p4,h1)).
cnf(hole1_1_5,axiom,~in(p1,h1) | ~in(p5,h1)).
cnf(hole1_2_3,axiom,~in(p2,h1) | ~in(p3,h1)).
cnf(hole1_2_4,axiom,~in(p2,h1) | ~in(p4,h1)).
cnf(hole1_2_5,axiom,~in(p2,h1) | ~in(p5,h1)).
cnf(hole1_3_4,axiom,~in(p3,h1) | ~in(p4,h1)).
cnf(hole1_3_5,axiom,~in(p3,h1) | ~in(p5,h1)).
cnf(hole1_4_5,axiom,~in(p4,h1) | ~in(p5,h1)).
cnf(hole2_1_2,axiom,~in(p1,h2) | ~in(p2,h2)).
cnf(hole2_1_3,axiom,~in(p1,h2) | ~in(p3,h2)).
cnf(hole2_1_4,axiom,~in(p1,h2) | ~in(p4,h2)).
cnf(hole2_1_5,axiom,~in(p1,h2) | ~in(p5,h2)).
cnf(hole2_2_3,axiom,~in(p2,h2) | ~in(p3,h2)).
cnf(hole2_2_4,axiom,~in(p2,h2) | ~in(p4,h2)).
cnf(hole2_2_5,axiom,~in(p2,h2) | ~in(p5,h2)).
cnf(hole2_3_4,axiom,~in(p3,h2) | ~in(p4,h2)).
cnf(hole2_3_5,axiom,~in(p3,h2) | ~in(p5,h2)).
cnf(hole2_4_5,axiom,~in(p4,h2) | ~in(p5,h2)).
cnf(hole3_1_2,axiom,~in(p1,h3) | ~in(p2,h3)).
cnf(hole3_1_3,axiom,~in(p1,h3) | ~in(p3,h3)).
cnf(hole3_1_4,axiom,~in(p1,h3) | ~in(p4,h3)).
cnf(hole3_1_5,axiom,~in(p1,h3) | ~in(p5,h3)).
cnf(hole3_2_3,axiom,~in(p2,h3) | ~in(p3,h3)).
cnf(hole3_2_4,axiom,~in(p2,h3) | ~in(p4,h3)).
cnf(hole3_2_5,axiom,~in(p2,h3) | ~in(p5,h3)).
cnf(hole3_3_4,axiom,~in(p3,h3) | ~in(p4,h3)).
cnf(hole3_3_5,axiom,~in(p3,h3) | ~in(p5,h3)).
cnf(hole3_4_5,axiom,~in(p4,h3) | ~in(p5,h3)).
cnf(hole4_1_2,axiom,~in(p1,h4) | ~in(p2,h4)).
cnf(hole4_1_3,axiom,~in(p1,h4) | ~in(p3,h4)).
cnf(hole4_1_4,axiom,~in(p1,h4) | ~in(p4,h4)).
cnf(hole4_1_5,axiom,~in(p1,h4) | ~in(p5,h4)).
cnf(hole4_2_3,axiom,~in(p2,h4) | ~in(p3,h4)).
cnf(hole4_2_4,axiom,~in(p2,h4) | ~in(p4,h4)).
cnf(hole4_2_5,axiom,~in(p2,h4) | ~in(p5,h4)).
cnf(hole4_3_4,axiom,~in(p3,h4) | ~in(p4,h4)).
cnf(hole4_3_5,axiom,~in(p3,h4) | ~in(p5,h4)).
cnf(hole4_4_5,axiom,~in(p4,h4) | ~in(p5,h4)).
