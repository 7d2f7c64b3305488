% Sums and products of numbers. Three times three is nine.
cnf(sum_with_zero,axiom,plus(zero,X) = X).
cnf(sum_with_next,axiom,plus(s(X),Y) = s(plus(X,Y))).
cnf(product_with_zero,axiom,times(zero,X) = zero).
cnf(product_with_next,axiom,times(s(X),Y) = plus(Y,times(X,Y))).
cnf(nine,negated_conjecture,times(s(s(s(zero))),s(s(s(zero)))) != s(s(s(s(s(s(s(s(s(zero)))))))))).
