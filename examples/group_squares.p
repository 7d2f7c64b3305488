fof(left_unit,axiom,! [X] : times(one,X) = X).
fof(left_inverse,axiom,! [X] : times(inverse(X),X) = one).
fof(associative,axiom,! [X,Y,Z] : times(times(X,Y),Z) = times(X,times(Y,Z))).
fof(square_is_one,axiom,! [X] : times(X,X) = one).
fof(commutative,conjecture,! [X,Y] : times(X,Y) = times(Y,X)).
