"""Problems with long derivations, for measuring how fast derivations are checked.

    python3 derivations.py FAMILY NUMBER [WIDTH] NAME

writes the problem NAME.p and the derivation NAME.d, each line of which is right. Then, with the built program:

    time crates/prover_main/out/prover_main check NAME.p NAME.d

The families:

    chain     NUMBER rewriting lines, each from the one before
    wide      the same with clauses of WIDTH literals
    names     a problem of NUMBER clauses, all of one name and shape, each with its input line and its clausify line
    equal     a problem of NUMBER clauses that are all equal, with a clausify line for each that cites one input line
    pivots    NUMBER clauses of WIDTH propositions are split; one chain unites all their names, another has a pivot for each
    split     a line with NUMBER literals, each with a variable of its own, is split into as many parts
    after     the lines of `chain`, behind a line with WIDTH variables
"""

import sys


class Derivation:
    """The lines of a derivation, with names that count."""

    def __init__(self, path, problem):
        self.file = open(path, "w")
        self.problem = problem
        self.count = 0

    def line(self, role, clause, source):
        name = f"c{self.count}"
        self.file.write(f"cnf({name},{role},{clause},{source}).\n")
        self.count += 1
        return name

    def input(self, name, clause):
        return self.line("axiom", clause, f"file('{self.problem}',{name})")

    def clausify(self, index, parent, clause):
        return self.line("plain", clause, f"inference(clausify,[status(esa),index({index})],[{parent}])")

    def para(self, side, place, first, second, clause):
        items = f"status(thm),from(0,{side}),into(0,left,{place}),bind([]),bind([])"
        return self.line("plain", clause, f"inference(para,[{items}],[{first},{second}])")

    def component(self, name, clause):
        return self.line("plain", f"{clause} | ~{name}", f"introduced(definition,[component({name})])")

    def opposite(self, name, clause):
        return self.line("plain", f"{clause} | {name}", f"introduced(definition,[opposite({name})])")

    def split(self, parent, definitions, clause):
        parts = ",".join(f"[{place}]" for place in range(len(definitions)))
        return self.line("plain", clause, f"inference(split,[status(esa),parts([{parts}])],[{','.join([parent] + definitions)}])")

    def chain(self, parents, pivots, clause):
        return self.line("plain", clause, f"inference(chain,[status(thm),pivots([{','.join(pivots)}])],[{','.join(parents)}])")

    def refl(self, parent, clause):
        return self.line("plain", clause, f"inference(refl,[status(thm),lit(0),bind([])],[{parent}])")


def close(derivation, index):
    """The end of each derivation: the clauses q and ~q, which are the form's from an index on."""
    positive = derivation.input("positive", "q")
    negative = derivation.input("negative", "~q")
    first = derivation.clausify(index, positive, "q")
    second = derivation.clausify(index + 1, negative, "~q")
    derivation.refl(derivation.para("left", "[]", first, second, "~$true"), "$false")


def rewriting(problem, derivation, number, width, index=0):
    """NUMBER lines that rewrite a to b and back in a clause's first literal; the rest of the clause is as wide as asked. The form's
    clauses begin at an index."""
    rest = "".join(f" | p(d{place})" for place in range(1, width))
    problem.write(f"cnf(equation,axiom,a = b).\ncnf(clause,axiom,p(a){rest}).\n")
    equation = derivation.clausify(index, derivation.input("equation", "a = b"), "a = b")
    last = derivation.clausify(index + 1, derivation.input("clause", f"p(a){rest}"), f"p(a){rest}")
    for step in range(number):
        side, constant = ("left", "b") if step % 2 == 0 else ("right", "a")
        last = derivation.para(side, "[0]", equation, last, f"p({constant}){rest}")
    return 2


def one_name(problem, derivation, number):
    """NUMBER clauses of one name and shape."""
    for index in range(number):
        problem.write(f"cnf(same,axiom,p(d{index})).\n")
    for index in range(number):
        derivation.clausify(index, derivation.input("same", f"p(d{index})"), f"p(d{index})")
    return number


def one_formula(problem, derivation, number):
    """NUMBER clauses that are equal."""
    problem.write("cnf(same,axiom,p(a)).\n" * number)
    parent = derivation.input("same", "p(a)")
    for index in range(number):
        derivation.clausify(index, parent, "p(a)")
    return number


def many_pivots(problem, derivation, number, width):
    """NUMBER clauses of WIDTH propositions, each linked to the next by one more; and that none of the propositions holds."""
    def name(clause, place):
        return f"spl{clause * (width + 1) + place}"

    splits, parts = [], []
    for clause in range(number):
        literals = [f"p{clause}_{place}" for place in range(width)]
        names = [name(clause, place) for place in range(width)]
        before, behind = clause > 0, clause < number - 1
        whole = ([f"~t{clause - 1}"] if before else []) + literals + ([f"t{clause}"] if behind else [])
        problem.write(f"cnf(some{clause},axiom,{' | '.join(whole)}).\n")
        parent = derivation.clausify(clause, derivation.input(f"some{clause}", " | ".join(whole)), " | ".join(whole))
        components = [derivation.component(n, l) for n, l in zip(names, literals)]
        definitions = ([opposite] if before else []) + components
        left = ([f"~{name(clause - 1, width)}"] if before else []) + names
        if behind:
            definitions.append(derivation.component(name(clause, width), f"t{clause}"))
            opposite = derivation.opposite(name(clause, width), f"~t{clause}")
            left.append(name(clause, width))
        splits.append(derivation.split(parent, definitions, " | ".join(left)))
        parts += zip(names, literals, components)
    names = [part[0] for part in parts]
    all_of = derivation.chain(splits, [name(clause, width) for clause in range(number - 1)], " | ".join(names))
    units = []
    for index, (part_name, literal, component) in enumerate(parts):
        problem.write(f"cnf(none{index},axiom,~{literal}).\n")
        unit = derivation.clausify(number + index, derivation.input(f"none{index}", f"~{literal}"), f"~{literal}")
        units.append(derivation.refl(derivation.para("left", "[]", component, unit, f"~$true | ~{part_name}"), f"~{part_name}"))
    derivation.chain([all_of] + units, names, "$false")
    return number + len(parts)


def wide_component(problem, derivation, number, name):
    """A line that introduces a name for NUMBER literals with a variable each."""
    problem.write("cnf(some,axiom,p(d)).\n")
    return derivation.component(name, " | ".join(f"p(X{index})" for index in range(number)))


def many_parts(problem, derivation, number):
    """A line with NUMBER literals, each with a variable of its own, split into as many parts of one definition."""
    parent = wide_component(problem, derivation, number, "spl0")
    definition = derivation.component("spl1", "p(X0)")
    derivation.split(parent, [definition] * number, "~spl0 | spl1")
    return 1


def behind_a_wide_line(problem, derivation, number, width):
    """The lines of `chain` behind a line with WIDTH variables."""
    wide_component(problem, derivation, width, "spl0")
    return 1 + rewriting(problem, derivation, number, 1, 1)


def main():
    if len(sys.argv) not in (4, 5):
        sys.exit(__doc__)
    family, number, name = sys.argv[1], int(sys.argv[2]), sys.argv[-1]
    width = int(sys.argv[3]) if len(sys.argv) == 5 else 1
    derivation = Derivation(f"{name}.d", f"{name}.p")
    with open(f"{name}.p", "w") as problem:
        families = {
            "chain": lambda: rewriting(problem, derivation, number, 1),
            "wide": lambda: rewriting(problem, derivation, number, width),
            "names": lambda: one_name(problem, derivation, number),
            "equal": lambda: one_formula(problem, derivation, number),
            "pivots": lambda: many_pivots(problem, derivation, number, width),
            "split": lambda: many_parts(problem, derivation, number),
            "after": lambda: behind_a_wide_line(problem, derivation, number, width),
        }
        if family not in families:
            sys.exit(__doc__)
        clauses = families[family]()
        problem.write("cnf(positive,axiom,q).\ncnf(negative,axiom,~q).\n")
    close(derivation, clauses)
    derivation.file.close()


main()
