cnf(a1,axiom,or(X,Y) = or(Y,X)). cnf(a2,axiom,or(or(X,Y),Z) = or(X,or(Y,Z))). cnf(a3,axiom,not(or(not(or(X,Y)),not(or(X,not(Y))))) = X).
cnf(g,negated_conjecture,or(not(or(a,not(b))),not(or(not(a),not(b)))) != b).
