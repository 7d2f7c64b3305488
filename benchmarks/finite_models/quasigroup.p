cnf(idempotent,axiom,m(X,X) = X).
cnf(left_cancelled,axiom,l(X,m(X,Y)) = Y).
cnf(left_divided,axiom,m(X,l(X,Y)) = Y).
cnf(right_cancelled,axiom,r(m(X,Y),Y) = X).
cnf(right_divided,axiom,m(r(X,Y),Y) = X).
cnf(not_commutative,axiom,m(a,b) != m(b,a)).
% Five elements, since there is one of order 4.
cnf(different,axiom,a != b).
cnf(different,axiom,a != c).
cnf(different,axiom,a != d).
cnf(different,axiom,a != e).
cnf(different,axiom,b != c).
cnf(different,axiom,b != d).
cnf(different,axiom,b != e).
cnf(different,axiom,c != d).
cnf(different,axiom,c != e).
cnf(different,axiom,d != e).
