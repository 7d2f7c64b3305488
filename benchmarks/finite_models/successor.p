% A function that takes no value twice and never the value of a: there is no finite model. By sizes it is the problem of pigeonholes.
cnf(not_first,axiom,f(X) != a).
cnf(different,axiom,f(X) != f(Y) | X = Y).
