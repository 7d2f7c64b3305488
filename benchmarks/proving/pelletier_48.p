% The 48th of Pelletier's problems: equations of four things, two of which follow from two others.
fof(first,axiom,a = b | c = d).
fof(second,axiom,a = c | b = d).
fof(one,conjecture,a = d | b = c).
