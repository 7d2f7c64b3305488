fof(mortal,axiom, ! [X] : (human(X) => mortal(X))).
fof(human,axiom, human(socrates)).
fof(goal,conjecture, mortal(socrates)).
