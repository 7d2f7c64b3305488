fof(russell,conjecture,~ ? [X] : ! [Y] : (in(Y,X) <=> ~ in(Y,Y))).
