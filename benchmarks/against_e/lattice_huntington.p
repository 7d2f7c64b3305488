% A lattice with unique complements and one more equation: Huntington's law is asked for.
cnf(meet_idempotent, axiom, meet(X,X) = X).
cnf(join_idempotent, axiom, join(X,X) = X).
cnf(absorption_meet, axiom, meet(X,join(X,Y)) = X).
cnf(absorption_join, axiom, join(X,meet(X,Y)) = X).
cnf(meet_commutative, axiom, meet(X,Y) = meet(Y,X)).
cnf(join_commutative, axiom, join(X,Y) = join(Y,X)).
cnf(meet_associative, axiom, meet(meet(X,Y),Z) = meet(X,meet(Y,Z))).
cnf(join_associative, axiom, join(join(X,Y),Z) = join(X,join(Y,Z))).
cnf(equation, axiom, meet(X,join(Y,meet(X,Z))) = meet(X,join(Y,meet(Z,join(meet(X,join(Y,Z)),meet(Y,Z)))))).
cnf(goal, negated_conjecture, meet(a,join(b,meet(a,c))) != meet(a,join(b,meet(c,join(a,meet(b,c)))))).
