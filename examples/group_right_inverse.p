fof(left_unit,axiom,! [X] : times(one,X) = X).
fof(left_inverse,axiom,! [X] : times(inverse(X),X) = one).
fof(associative,axiom,! [X,Y,Z] : times(times(X,Y),Z) = times(X,times(Y,Z))).
fof(right_inverse,conjecture,! [X] : times(X,inverse(X)) = one).
