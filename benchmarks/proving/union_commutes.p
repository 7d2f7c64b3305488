% The union of two sets doesn't depend on their order, since sets with the same members are equal.
fof(union,definition,! [X,A,B] : (in(X,union(A,B)) <=> (in(X,A) | in(X,B)))).
fof(extensional,axiom,! [A,B] : (! [X] : (in(X,A) <=> in(X,B)) => A = B)).
fof(commutes,conjecture,! [A,B] : union(A,B) = union(B,A)).
