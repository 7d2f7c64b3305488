% The part that two sets have in common doesn't depend on their order: one such part is a part of the other.
fof(subset,definition,! [A,B] : (subset(A,B) <=> ! [X] : (in(X,A) => in(X,B)))).
fof(intersection,definition,! [X,A,B] : (in(X,intersection(A,B)) <=> (in(X,A) & in(X,B)))).
fof(commutes,conjecture,! [A,B] : subset(intersection(A,B),intersection(B,A))).
