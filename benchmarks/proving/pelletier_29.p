% The 29th of Pelletier's problems: two implications at once and one over pairs.
fof(some,axiom,(? [X] : f(X)) & (? [X] : g(X))).
fof(pairs,conjecture,((! [X] : (f(X) => h(X))) & (! [X] : (g(X) => j(X)))) <=> (! [X,Y] : ((f(X) & g(Y)) => (h(X) & j(Y))))).
