cnf(a1,axiom,add(zero,X) = X). cnf(a2,axiom,add(neg(X),X) = zero). cnf(a3,axiom,add(add(X,Y),Z) = add(X,add(Y,Z))). cnf(a4,axiom,add(X,Y) = add(Y,X)).
cnf(a5,axiom,mul(mul(X,Y),Z) = mul(X,mul(Y,Z))). cnf(a6,axiom,mul(X,add(Y,Z)) = add(mul(X,Y),mul(X,Z))). cnf(a7,axiom,mul(add(X,Y),Z) = add(mul(X,Z),mul(Y,Z))).
cnf(a8,axiom,mul(X,mul(X,X)) = X). cnf(g,negated_conjecture,mul(a,b) != mul(b,a)).
