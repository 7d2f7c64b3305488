fof(start,axiom,possible(door,window,begin)).
fof(walks,axiom,! [X,Y,Z,S] : (possible(X,Y,S) => possible(Z,Y,walk(X,Z,S)))).
fof(pushes,axiom,! [X,Y,S] : (possible(X,X,S) => possible(Y,Y,push(X,Y,S)))).
fof(climbs,axiom,! [X,S] : (possible(X,X,S) => stands(X,climb(S)))).
fof(reaches,axiom,! [S] : (stands(middle,S) => reaches(bananas,reach(S)))).
fof(plan,conjecture,? [S] : reaches(bananas,S)).
