fof(a,axiom,(p & p) | (p & p) | (p & p) | (p & p) | (p & p) | (p & p) | (p & p)). cnf(b,axiom,~p).
