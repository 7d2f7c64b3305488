% The 42nd of Pelletier's problems: no set has as members just those that aren't members of one of their own members.
fof(no_circle,conjecture,~ ? [Y] : ! [X] : (in(X,Y) <=> ~ ? [Z] : (in(X,Z) & in(Z,X)))).
