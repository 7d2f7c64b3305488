% Ten equations of groups. With sizes first in the order, the inverse of a product is smaller than the product of inverses, so that they go on and on.
cnf(left_unit,axiom,times(one,X) = X).
cnf(right_unit,axiom,times(X,one) = X).
cnf(left_inverse,axiom,times(inverse(X),X) = one).
cnf(right_inverse,axiom,times(X,inverse(X)) = one).
cnf(left_cancels,axiom,times(inverse(X),times(X,Y)) = Y).
cnf(right_cancels,axiom,times(X,times(inverse(X),Y)) = Y).
cnf(inverse_of_one,axiom,inverse(one) = one).
cnf(inverse_twice,axiom,inverse(inverse(X)) = X).
cnf(inverse_of_product,axiom,inverse(times(X,Y)) = times(inverse(Y),inverse(X))).
cnf(associative,axiom,times(times(X,Y),Z) = times(X,times(Y,Z))).
cnf(different,negated_conjecture,times(a,b) != times(b,a)).
