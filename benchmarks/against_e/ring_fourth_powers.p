% Rings in which the fourth power of each element is the element itself: multiplication commutes.
cnf(left_zero, axiom, add(zero,X) = X).
cnf(right_zero, axiom, add(X,zero) = X).
cnf(left_minus, axiom, add(minus(X),X) = zero).
cnf(right_minus, axiom, add(X,minus(X)) = zero).
cnf(add_associative, axiom, add(X,add(Y,Z)) = add(add(X,Y),Z)).
cnf(add_commutative, axiom, add(X,Y) = add(Y,X)).
cnf(times_associative, axiom, times(X,times(Y,Z)) = times(times(X,Y),Z)).
cnf(left_distributive, axiom, times(X,add(Y,Z)) = add(times(X,Y),times(X,Z))).
cnf(right_distributive, axiom, times(add(X,Y),Z) = add(times(X,Z),times(Y,Z))).
cnf(fourth_power, axiom, times(X,times(X,times(X,X))) = X).
cnf(product, negated_conjecture, times(a,b) = c).
cnf(goal, negated_conjecture, times(b,a) != c).
