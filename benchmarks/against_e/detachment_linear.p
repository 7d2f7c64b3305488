% Lukasiewicz's many-valued logic by condensed detachment: the linearity axiom from the other four.
cnf(detachment, axiom, ~ theorem(implies(X,Y)) | ~ theorem(X) | theorem(Y)).
cnf(first, axiom, theorem(implies(X,implies(Y,X)))).
cnf(second, axiom, theorem(implies(implies(X,Y),implies(implies(Y,Z),implies(X,Z))))).
cnf(third, axiom, theorem(implies(implies(implies(X,Y),Y),implies(implies(Y,X),X)))).
cnf(fourth, axiom, theorem(implies(implies(not(X),not(Y)),implies(Y,X)))).
cnf(goal, negated_conjecture, ~ theorem(implies(implies(implies(a,b),implies(b,a)),implies(b,a)))).
