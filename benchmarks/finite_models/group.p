cnf(unit_left,axiom,m(e,X) = X).
cnf(inverse_left,axiom,m(i(X),X) = e).
cnf(associative,axiom,m(m(X,Y),Z) = m(X,m(Y,Z))).
cnf(not_abelian,axiom,m(a,b) != m(b,a)).
