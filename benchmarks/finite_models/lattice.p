% The two sides of the law of distribution stand under names, so that no clause has many terms.
cnf(meet_commutative,axiom,meet(X,Y) = meet(Y,X)).
cnf(join_commutative,axiom,join(X,Y) = join(Y,X)).
cnf(meet_associative,axiom,meet(meet(X,Y),Z) = meet(X,meet(Y,Z))).
cnf(join_associative,axiom,join(join(X,Y),Z) = join(X,join(Y,Z))).
cnf(meet_absorbs,axiom,meet(X,join(X,Y)) = X).
cnf(join_absorbs,axiom,join(X,meet(X,Y)) = X).
cnf(join_of_two,axiom,bc = join(b,c)).
cnf(first_meet,axiom,ab = meet(a,b)).
cnf(second_meet,axiom,ac = meet(a,c)).
cnf(one_side,axiom,left = meet(a,bc)).
cnf(other_side,axiom,right = join(ab,ac)).
cnf(not_distributive,axiom,left != right).
