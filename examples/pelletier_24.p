fof(apart,axiom,~ ? [X] : (s(X) & q(X))).
fof(covered,axiom,! [X] : (p(X) => (q(X) | r(X)))).
fof(some,axiom,(~ ? [X] : p(X)) => ? [X] : q(X)).
fof(included,axiom,! [X] : ((q(X) | r(X)) => s(X))).
fof(both,conjecture,? [X] : (p(X) & r(X))).
