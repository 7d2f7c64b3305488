fof(a,axiom,p <=> q).
fof(b,axiom,p).
fof(c,conjecture,q).
