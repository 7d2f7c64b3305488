# Writes a problem with two wide clauses of which one doesn't subsume the other: python3 subsuming.py WIDTH FILE. That is told as soon as the last
# variable is bound, but a search that places the other literals first meets all orders of them.
import sys

width = int(sys.argv[1])
general = [f"p(X{i})" for i in range(width)] + [f"q(X{width - 1})"]
special = [f"p(a{i})" for i in range(width)] + ["q(b)"]
with open(sys.argv[2], "w") as out:
    out.write(f"cnf(general,axiom,{' | '.join(general)}).\n")
    out.write(f"cnf(special,axiom,{' | '.join(special)}).\n")
    out.write("cnf(goal,negated_conjecture,~q(c)).\n")
