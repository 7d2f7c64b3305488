% Sets with extensionality: the power set of an intersection is the intersection of the power sets.
fof(subset, axiom, ! [X,Y] : (subset(X,Y) <=> ! [U] : (member(U,X) => member(U,Y)))).
fof(extensionality, axiom, ! [X,Y] : (! [U] : (member(U,X) <=> member(U,Y)) => X = Y)).
fof(intersection, axiom, ! [X,Y,U] : (member(U,intersection(X,Y)) <=> (member(U,X) & member(U,Y)))).
fof(union, axiom, ! [X,Y,U] : (member(U,union(X,Y)) <=> (member(U,X) | member(U,Y)))).
fof(difference, axiom, ! [X,Y,U] : (member(U,difference(X,Y)) <=> (member(U,X) & ~ member(U,Y)))).
fof(power, axiom, ! [X,U] : (member(U,power(X)) <=> subset(U,X))).
fof(empty, axiom, ! [U] : ~ member(U,empty)).
fof(pair, axiom, ! [X,Y,U] : (member(U,pair(X,Y)) <=> (U = X | U = Y))).
fof(sum, axiom, ! [X,U] : (member(U,sum(X)) <=> ? [Y] : (member(Y,X) & member(U,Y)))).
fof(goal, conjecture, ! [X,Y] : power(union(intersection(X,Y),difference(X,Y))) = union(power(intersection(X,Y)),intersection(power(X),power(X)))).
