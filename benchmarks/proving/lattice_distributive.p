% In a lattice where meet distributes over join, join distributes over meet.
fof(meet_commutative,axiom,! [X,Y] : meet(X,Y) = meet(Y,X)).
fof(join_commutative,axiom,! [X,Y] : join(X,Y) = join(Y,X)).
fof(meet_associative,axiom,! [X,Y,Z] : meet(meet(X,Y),Z) = meet(X,meet(Y,Z))).
fof(join_associative,axiom,! [X,Y,Z] : join(join(X,Y),Z) = join(X,join(Y,Z))).
fof(meet_absorbs,axiom,! [X,Y] : meet(X,join(X,Y)) = X).
fof(join_absorbs,axiom,! [X,Y] : join(X,meet(X,Y)) = X).
fof(meet_distributes,axiom,! [X,Y,Z] : meet(X,join(Y,Z)) = join(meet(X,Y),meet(X,Z))).
fof(join_distributes,conjecture,! [X,Y,Z] : join(X,meet(Y,Z)) = meet(join(X,Y),join(X,Z))).
