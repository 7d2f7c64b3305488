% The union of two sets doesn't depend on their order, since sets that are parts of each other are equal.
fof(subset,definition,! [A,B] : (subset(A,B) <=> ! [X] : (in(X,A) => in(X,B)))).
fof(union,definition,! [X,A,B] : (in(X,union(A,B)) <=> (in(X,A) | in(X,B)))).
fof(equal,axiom,! [A,B] : ((subset(A,B) & subset(B,A)) => A = B)).
fof(commutes,conjecture,! [A,B] : union(A,B) = union(B,A)).
