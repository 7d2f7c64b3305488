% In a ring a product with zero is zero.
fof(plus_unit,axiom,! [X] : plus(zero,X) = X).
fof(plus_inverse,axiom,! [X] : plus(minus(X),X) = zero).
fof(plus_associative,axiom,! [X,Y,Z] : plus(plus(X,Y),Z) = plus(X,plus(Y,Z))).
fof(plus_commutative,axiom,! [X,Y] : plus(X,Y) = plus(Y,X)).
fof(times_associative,axiom,! [X,Y,Z] : times(times(X,Y),Z) = times(X,times(Y,Z))).
fof(left_distributive,axiom,! [X,Y,Z] : times(X,plus(Y,Z)) = plus(times(X,Y),times(X,Z))).
fof(right_distributive,axiom,! [X,Y,Z] : times(plus(X,Y),Z) = plus(times(X,Z),times(Y,Z))).
fof(product_with_zero,conjecture,! [X] : times(X,zero) = zero).
