cnf(anna_is_one,axiom,holds(knight(anna)) | holds(knave(anna))).
cnf(anna_is_not_both,axiom,~holds(knight(anna)) | ~holds(knave(anna))).
cnf(ben_is_one,axiom,holds(knight(ben)) | holds(knave(ben))).
cnf(ben_is_not_both,axiom,~holds(knight(ben)) | ~holds(knave(ben))).
cnf(both_says_first,axiom,~holds(both(knave(anna),knave(ben))) | holds(knave(anna))).
cnf(both_says_second,axiom,~holds(both(knave(anna),knave(ben))) | holds(knave(ben))).
cnf(both_is_said_so,axiom,holds(both(knave(anna),knave(ben))) | ~holds(knave(anna)) | ~holds(knave(ben))).
cnf(a_knight_says_so,axiom,~holds(knight(anna)) | holds(both(knave(anna),knave(ben)))).
cnf(a_knave_denies_it,axiom,~holds(knave(anna)) | ~holds(both(knave(anna),knave(ben)))).
cnf(goal,negated_conjecture,holds(knight(anna)) | ~holds(knight(ben))).
