% The 40th of Pelletier's problems: where there is a set of those that have themselves as members, not each set has a complement.
fof(complement,conjecture,(? [Y] : ! [X] : (in(X,Y) <=> in(X,X))) => ~ ! [X] : ? [Y] : ! [Z] : (in(Z,Y) <=> ~ in(Z,X))).
