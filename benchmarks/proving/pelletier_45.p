% The 45th of Pelletier's problems.
fof(first,axiom,! [X] : ((f(X) & ! [Y] : ((g(Y) & h(X,Y)) => j(X,Y))) => ! [Y] : ((g(Y) & h(X,Y)) => k(Y)))).
fof(second,axiom,~ ? [Y] : (l(Y) & k(Y))).
fof(third,axiom,? [X] : (f(X) & (! [Y] : (h(X,Y) => l(Y))) & (! [Y] : ((g(Y) & h(X,Y)) => j(X,Y))))).
fof(none,conjecture,? [X] : (f(X) & ~ ? [Y] : (g(Y) & h(X,Y)))).
