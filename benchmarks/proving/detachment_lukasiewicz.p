% Condensed detachment: from Lukasiewicz' three axioms, that a follows from its double negation.
cnf(detachment,axiom,~holds(implies(X,Y)) | ~holds(X) | holds(Y)).
cnf(syllogism,axiom,holds(implies(implies(X,Y),implies(implies(Y,Z),implies(X,Z))))).
cnf(of_itself,axiom,holds(implies(implies(not(X),X),X))).
cnf(from_falsity,axiom,holds(implies(X,implies(not(X),Y)))).
cnf(twice,negated_conjecture,~holds(implies(not(not(a)),a))).
