% Condensed detachment: from one axiom of implication, that implication is transitive. It isn't to be expected that this is found.
cnf(detachment,axiom,~holds(implies(X,Y)) | ~holds(X) | holds(Y)).
cnf(one_axiom,axiom,holds(implies(implies(implies(X,Y),Z),implies(implies(Z,X),implies(U,X))))).
cnf(syllogism,negated_conjecture,~holds(implies(implies(a,b),implies(implies(b,c),implies(a,c))))).
