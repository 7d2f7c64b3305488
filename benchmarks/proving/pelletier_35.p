% The 35th of Pelletier's problems: some pair implies all pairs.
fof(some_pair,conjecture,? [X,Y] : (p(X,Y) => (! [X,Y] : p(X,Y)))).
