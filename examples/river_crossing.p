cnf(start,axiom,reached(here,here,here,here)).
cnf(from_here,axiom,across(here) = there).
cnf(from_there,axiom,across(there) = here).
cnf(alone_to_the_goat,axiom,~reached(F,W,across(F),C) | reached(across(F),W,across(F),C)).
cnf(alone_from_the_goat,axiom,~reached(F,across(F),F,across(F)) | reached(across(F),across(F),F,across(F))).
cnf(with_the_goat,axiom,~reached(F,W,F,C) | reached(across(F),W,across(F),C)).
cnf(with_the_wolf,axiom,~reached(F,F,G,across(G)) | reached(across(F),across(F),G,across(G))).
cnf(with_the_cabbage,axiom,~reached(F,across(G),G,F) | reached(across(F),across(G),G,across(F))).
cnf(goal,negated_conjecture,~reached(there,there,there,there)).
