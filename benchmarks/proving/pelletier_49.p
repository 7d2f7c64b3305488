% The 49th of Pelletier's problems: where there are two things at most, what two different ones have, each has.
fof(two,axiom,? [X,Y] : ! [Z] : (Z = X | Z = Y)).
fof(both,axiom,p(a) & p(b)).
fof(different,axiom,a != b).
fof(all,conjecture,! [X] : p(X)).
