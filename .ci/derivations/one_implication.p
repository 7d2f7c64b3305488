fof(a,axiom,! [X] : (p(X) => q(X))). fof(b,axiom,p(a)). fof(c,conjecture,q(a)).
