% Condensed detachment: from two axioms of implication, that a implies a.
cnf(detachment,axiom,~holds(implies(X,Y)) | ~holds(X) | holds(Y)).
cnf(weaker,axiom,holds(implies(X,implies(Y,X)))).
cnf(distributes,axiom,holds(implies(implies(X,implies(Y,Z)),implies(implies(X,Y),implies(X,Z))))).
cnf(identity,negated_conjecture,~holds(implies(a,a))).
