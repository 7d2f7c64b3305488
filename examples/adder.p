% Both circuits have the same output.
include('gates.ax').
fof(same_carry,conjecture,on(first) <=> on(second)).
