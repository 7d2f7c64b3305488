cnf(a1,axiom,mul(e,X) = X). cnf(a2,axiom,mul(inv(X),X) = e). cnf(a3,axiom,mul(mul(X,Y),Z) = mul(X,mul(Y,Z))). cnf(a4,axiom,mul(X,mul(X,mul(X,X))) = e).
cnf(g,negated_conjecture,mul(a,b) != mul(b,a)).
