# Writes the problems of the benchmark of the clausal form into the current folder.


def write(name, formulas):
    with open(name, "w") as out:
        for number, formula in enumerate(formulas):
            out.write(f"{formula.format(number)}.\n")


def units(count):
    """Unit clauses with a variable and two constants that take turns."""
    for number in range(count):
        yield f"cnf(c{{0}},axiom,p{number % 100}(X,f(a{number % 50}),X))"


def implications(count):
    """Implications with quantifiers, each with a Skolem symbol of its own."""
    for number in range(count):
        p, q = number % 100, number % 70
        yield f"fof(a{{0}},axiom,! [X] : (p{p}(X) => ? [Y] : (r(X,Y) & q{q}(Y))))"


def conjunctions(count, predicates):
    """A disjunction of conjunctions of two atoms each, over one variable."""
    members = " | ".join(f"(p{i % predicates}(X) & q{i % predicates}(X))" for i in range(count))
    yield "fof(a{0},axiom,! [X] : (" + members + "))"


def clauses(size):
    """Clauses of three literals, together of about so many bytes."""
    written = 0
    number = 0
    while written < size:
        a, b, c = number % 97, number % 89, number % 83
        clause = f"cnf(c{{0}},axiom,~p{a}(X,Y) | ~p{b}(Y,Z) | p{c}(X,f(Z)))"
        written += len(clause.format(number)) + 2
        number += 1
        yield clause


write("units_100000.p", units(100_000))
write("implications_10000.p", implications(10_000))
write("products_7.p", conjunctions(7, 7))
write("products_13.p", conjunctions(13, 13))
write("products_10000.p", conjunctions(10_000, 100))
write("clauses_50.p", clauses(50_000_000))
write("clauses_64.p", clauses(67_000_000))
