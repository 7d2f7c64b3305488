#!/usr/bin/env python3
"""Writes the clauses that sat_core and MiniSat are timed on, as DIMACS files in the folder where it runs.

Random clauses have three literals, 4.26 clauses a name, each literal's name and sign drawn by itself. Sums: two sums modulo 2 of the same inputs, in the same or
in falling order, are told to differ. A chain is a list of implications, with a model, or refuted by its first name and the opposite of its last.
"""


def write(name, names, clauses):
    with open(name, "w") as out:
        out.write(f"p cnf {names} {len(clauses)}\n")
        for clause in clauses:
            out.write(" ".join(map(str, clause)) + " 0\n")


def random_clauses(names, seed):
    state = seed * 104729
    def below(bound):
        nonlocal state
        state ^= state << 13 & 2**64 - 1
        state ^= state >> 7
        state ^= state << 17 & 2**64 - 1
        return state % bound
    def literal():
        positive, name = below(2) == 0, below(names) + 1
        return name if positive else -name
    return names, [[literal() for _ in range(3)] for _ in range(names * 426 // 100)]


def pigeons(p, h):
    clauses = []
    for i in range(p):
        clauses.append([h * i + j + 1 for j in range(h)])
        clauses += [[-(h * i + j + 1), -(h * k + j + 1)] for k in range(i) for j in range(h)]
    return p * h, clauses


def sums(n, falling):
    clauses = []
    for base in (n, 2 * n):
        for i in range(n):
            x, s = (n - i if base > n and falling else i + 1), base + i + 1
            if i == 0:
                clauses += [[-s, x], [s, -x]]
            else:
                a = s - 1
                clauses += [[-a, x, s], [a, -x, s], [a, x, -s], [-a, -x, -s]]
    return 3 * n, clauses + [[2 * n, 3 * n], [-2 * n, -3 * n]]


def chain(n, refuted):
    clauses = [[-i, i + 1] for i in range(1, n)]
    return n, clauses + ([[1], [-n]] if refuted else [])


for names in (100, 150, 200):
    for seed in range(1, 61):
        write(f"random_{names}_{seed}.cnf", *random_clauses(names, seed))
for p in (6, 7, 8, 9):
    write(f"pigeons_{p}_in_{p - 1}.cnf", *pigeons(p, p - 1))
for n in (20, 80, 320):
    write(f"sums_{n}.cnf", *sums(n, False))
for n in (8, 10, 12, 14):
    write(f"sums_falling_{n}.cnf", *sums(n, True))
for n in (25_000, 50_000, 100_000, 200_000):
    write(f"chain_{n}.cnf", *chain(n, False))
    write(f"chain_refuted_{n}.cnf", *chain(n, True))
