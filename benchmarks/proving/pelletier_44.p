% The 44th of Pelletier's problems.
fof(some_and_some_not,axiom,! [X] : (f(X) => ((? [Y] : (g(Y) & h(X,Y))) & (? [Y] : (g(Y) & ~ h(X,Y)))))).
fof(all,axiom,? [X] : (j(X) & ! [Y] : (g(Y) => h(X,Y)))).
fof(other,conjecture,? [X] : (j(X) & ~ f(X))).
