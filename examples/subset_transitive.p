fof(subset,definition,! [A,B] : (subset(A,B) <=> ! [X] : (in(X,A) => in(X,B)))).
fof(transitive,conjecture,! [A,B,C] : ((subset(A,B) & subset(B,C)) => subset(A,C))).
