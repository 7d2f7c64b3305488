fof(somebody,axiom,? [X] : (lives(X) & killed(X,agatha))).
fof(inhabitants,axiom,! [X] : (lives(X) <=> (X = agatha | X = butler | X = charles))).
fof(killers_hate,axiom,! [X,Y] : (killed(X,Y) => hates(X,Y))).
fof(killers_are_not_richer,axiom,! [X,Y] : (killed(X,Y) => ~ richer(X,Y))).
fof(charles_hates_others,axiom,! [X] : (hates(agatha,X) => ~ hates(charles,X))).
fof(agatha_hates,axiom,! [X] : (X != butler => hates(agatha,X))).
fof(butler_hates_the_poorer,axiom,! [X] : (~ richer(X,agatha) => hates(butler,X))).
fof(butler_hates_alike,axiom,! [X] : (hates(agatha,X) => hates(butler,X))).
fof(nobody_hates_all,axiom,! [X] : ? [Y] : ~ hates(X,Y)).
fof(two_persons,axiom,agatha != butler).
fof(herself,conjecture,killed(agatha,agatha)).
