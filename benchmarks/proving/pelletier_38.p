% The 38th of Pelletier's problems: an implication with quantifiers in it and its conjunctive form.
fof(form,conjecture,
  (! [X] : ((p(a) & (p(X) => (? [Y] : (p(Y) & r(X,Y))))) => (? [Z,W] : (p(Z) & r(X,W) & r(W,Z)))))
  <=>
  (! [X] : ((~ p(a) | p(X) | (? [Z,W] : (p(Z) & r(X,W) & r(W,Z))))
    & (~ p(a) | (~ ? [Y] : (p(Y) & r(X,Y))) | (? [Z,W] : (p(Z) & r(X,W) & r(W,Z))))))).
