% Of many axioms few are about the goal: aunts are sisters of parents. Those about numbers and colours aren't reached from its symbols.
fof(mothers_are_parents,axiom, ! [X,Y] : (mother(X,Y) => parent(X,Y))).
fof(fathers_are_parents,axiom, ! [X,Y] : (father(X,Y) => parent(X,Y))).
fof(aunts,axiom, ! [X,Y,Z] : ((sister(X,Y) & parent(Y,Z)) => aunt(X,Z))).
fof(ruth,axiom, sister(ruth,eva)).
fof(eva,axiom, mother(eva,tom)).
fof(next,axiom, ! [X] : (number(X) => number(succ(X)))).
fof(zero,axiom, number(zero)).
fof(even,axiom, ! [X] : (even(X) => ~even(succ(X)))).
fof(odd,axiom, ! [X] : (~even(X) => even(succ(X)))).
fof(zero_is_even,axiom, even(zero)).
fof(colours,axiom, ! [X] : (red(X) | green(X))).
fof(no_two_colours,axiom, ! [X] : ~(red(X) & green(X))).
fof(signal,axiom, ! [X] : (green(X) => red(after(X)))).
fof(goal,conjecture, aunt(ruth,tom)).
