% In a lattice X is below Y by the meet exactly where it is below by the join.
fof(meet_commutative,axiom,! [X,Y] : meet(X,Y) = meet(Y,X)).
fof(join_commutative,axiom,! [X,Y] : join(X,Y) = join(Y,X)).
fof(meet_associative,axiom,! [X,Y,Z] : meet(meet(X,Y),Z) = meet(X,meet(Y,Z))).
fof(join_associative,axiom,! [X,Y,Z] : join(join(X,Y),Z) = join(X,join(Y,Z))).
fof(meet_absorbs,axiom,! [X,Y] : meet(X,join(X,Y)) = X).
fof(join_absorbs,axiom,! [X,Y] : join(X,meet(X,Y)) = X).
fof(same_order,conjecture,! [X,Y] : (meet(X,Y) = X <=> join(X,Y) = Y)).
