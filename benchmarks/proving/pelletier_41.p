% The 41st of Pelletier's problems: where parts of sets are told by properties, no set has all as members.
fof(parts,axiom,! [Z] : ? [Y] : ! [X] : (in(X,Y) <=> (in(X,Z) & ~ in(X,X)))).
fof(no_universe,conjecture,~ ? [Z] : ! [X] : in(X,Z)).
