#!/usr/bin/env python3
"""flat.py KIND COUNT: prints a problem of COUNT clauses that share next to nothing, so that there is nothing to infer. What a prover then does is to
keep them and to look each up among all others; a time that grows faster than COUNT shows an index that doesn't tell them apart.

KIND is one of
  equations   f(a1) = b1
  atoms       p1
  facts       p(a1)
  relations   p1(a1)
  clauses     p(a1) | q(b1) | r(c1)
  rules       ~ p1(X) | ~ q1(X) | r1(X)
  haystack    rules and equations, and five clauses besides that are all a proof needs
"""
import sys

LINES = {
    "equations": "f(a{0}) = b{0}",
    "atoms": "p{0}",
    "facts": "p(a{0})",
    "relations": "p{0}(a{0})",
    "clauses": "p(a{0}) | q(b{0}) | r(c{0})",
    "rules": "~ p{0}(X) | ~ q{0}(X) | r{0}(X)",
}
NEEDLE = [
    ("axiom", "start(zero)"),
    ("axiom", "~ start(X) | next(X)"),
    ("axiom", "~ next(X) | more(X)"),
    ("axiom", "~ more(X) | goal(X)"),
    ("negated_conjecture", "~ goal(zero)"),
]


def problem(kind, count):
    """The lines of a problem."""
    for number in range(1, count + 1):
        line = LINES["rules" if number % 2 else "equations"] if kind == "haystack" else LINES[kind]
        yield f"cnf(c{number}, axiom, {line.format(number)})."
    if kind == "haystack":
        for number, (role, line) in enumerate(NEEDLE, 1):
            yield f"cnf(n{number}, {role}, {line})."


if __name__ == "__main__":
    if len(sys.argv) != 3 or sys.argv[1] not in [*LINES, "haystack"] or not sys.argv[2].isdigit():
        sys.exit(__doc__)
    for line in problem(sys.argv[1], int(sys.argv[2])):
        print(line)
