% Robbins algebra: an associative and commutative operation with Robbins' equation; Huntington's equation is asked for.
cnf(commutative, axiom, add(X,Y) = add(Y,X)).
cnf(associative, axiom, add(add(X,Y),Z) = add(X,add(Y,Z))).
cnf(robbins, axiom, not(add(not(add(X,Y)),not(add(X,not(Y))))) = X).
cnf(goal, negated_conjecture, add(not(add(a,not(b))),not(add(not(a),not(b)))) != b).
