% The 34th of Pelletier's problems, which is Andrews' challenge: equivalences of equivalences under quantifiers.
fof(andrews,conjecture,
  ((? [X] : ! [Y] : (p(X) <=> p(Y))) <=> ((? [X] : q(X)) <=> (! [Y] : q(Y))))
  <=>
  ((? [X] : ! [Y] : (q(X) <=> q(Y))) <=> ((? [X] : p(X)) <=> (! [Y] : p(Y))))).
