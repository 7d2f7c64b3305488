fof(first,axiom,! [X] : ((f(X) & ! [Y] : ((f(Y) & h(Y,X)) => g(Y))) => g(X))).
fof(second,axiom,(? [X] : (f(X) & ~ g(X))) => (? [X] : (f(X) & ~ g(X) & ! [Y] : ((f(Y) & ~ g(Y)) => j(X,Y))))).
fof(third,axiom,! [X,Y] : ((f(X) & f(Y) & h(X,Y)) => ~ j(Y,X))).
fof(all,conjecture,! [X] : (f(X) => g(X))).
