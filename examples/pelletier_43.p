fof(same,definition,! [X,Y] : (same(X,Y) <=> ! [Z] : (in(Z,X) <=> in(Z,Y)))).
fof(symmetric,conjecture,! [X,Y] : (same(X,Y) <=> same(Y,X))).
