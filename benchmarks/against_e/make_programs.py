#!/usr/bin/env python3
"""make_programs.py: prints a clause set of some 150 KB as it comes from program verification: records, arrays and lists with their laws for thirty types,
facts on states, and a goal that is too far for ten seconds. The same bytes at each run."""
import random

TYPES = 30
STATES = 12


def laws(kind):
    """The laws of arrays, of records with three fields and of lists over one type of elements."""
    array = [
        f"cnf(read_same_{kind}, axiom, select_{kind}(store_{kind}(A,I,V),I) = V).",
        f"cnf(read_other_{kind}, axiom, I = J | select_{kind}(store_{kind}(A,I,V),J) = select_{kind}(A,J)).",
        f"cnf(equal_arrays_{kind}, axiom, A = B | select_{kind}(A,differ_{kind}(A,B)) != select_{kind}(B,differ_{kind}(A,B))).",
    ]
    record = []
    for field in "xyz":
        record.append(f"cnf(set_{field}_{kind}, axiom, {field}_of_{kind}(with_{field}_{kind}(R,V)) = V).")
        for other in "xyz".replace(field, ""):
            record.append(f"cnf(keep_{other}_{field}_{kind}, axiom, {other}_of_{kind}(with_{field}_{kind}(R,V)) = {other}_of_{kind}(R)).")
    lists = [
        f"cnf(head_{kind}, axiom, head_{kind}(cons_{kind}(X,Y)) = X).",
        f"cnf(tail_{kind}, axiom, tail_{kind}(cons_{kind}(X,Y)) = Y).",
        f"cnf(no_nil_{kind}, axiom, cons_{kind}(X,Y) != nil_{kind}).",
        f"cnf(member_head_{kind}, axiom, in_{kind}(X,cons_{kind}(X,Y))).",
        f"cnf(member_tail_{kind}, axiom, ~ in_{kind}(X,Y) | in_{kind}(X,cons_{kind}(Z,Y))).",
        f"cnf(member_of_{kind}, axiom, ~ in_{kind}(X,cons_{kind}(Y,Z)) | X = Y | in_{kind}(X,Z)).",
        f"cnf(append_nil_{kind}, axiom, append_{kind}(nil_{kind},X) = X).",
        f"cnf(append_cons_{kind}, axiom, append_{kind}(cons_{kind}(X,Y),Z) = cons_{kind}(X,append_{kind}(Y,Z))).",
        f"cnf(reach_{kind}, axiom, ~ step_{kind}(X,Y) | reaches_{kind}(X,Y)).",
        f"cnf(reach_on_{kind}, axiom, ~ step_{kind}(X,Y) | ~ reaches_{kind}(Y,Z) | reaches_{kind}(X,Z)).",
    ]
    return array + record + lists


def states(kind, numbers):
    """A run of a program on one type: each state stores, sets a field or extends a list of the one before it."""
    lines = []
    for state in range(STATES):
        before, now = f"s{state}_{kind}", f"s{state + 1}_{kind}"
        key, value = numbers.randrange(6), numbers.randrange(9)
        lines.append(f"cnf(store_{state}_{kind}, axiom, heap_{kind}({now}) = store_{kind}(heap_{kind}({before}),k{key},v{value}_{kind})).")
        lines.append(f"cnf(field_{state}_{kind}, axiom, frame_{kind}({now}) = with_{numbers.choice('xyz')}_{kind}(frame_{kind}({before}),v{value}_{kind})).")
        lines.append(f"cnf(step_{state}_{kind}, axiom, ~ in_{kind}(v{value}_{kind},trace_{kind}({before})) | step_{kind}({before},{now})).")
        lines.append(f"cnf(trace_{state}_{kind}, axiom, trace_{kind}({now}) = cons_{kind}(v{value}_{kind},trace_{kind}({before}))).")
    return lines


def main():
    numbers = random.Random(7)
    print("% Laws of arrays, records and lists for thirty types, and a run of a program on each. Made by make_programs.py.")
    for number in range(TYPES):
        print("\n".join(laws(f"t{number}") + states(f"t{number}", numbers)))
    print("cnf(keys, axiom, k0 != k1).")
    print(f"cnf(goal, negated_conjecture, ~ reaches_t0(s0_t0,s{STATES}_t0) | select_t1(heap_t1(s{STATES}_t1),k1) = heap_t2(s0_t2)).")


main()
