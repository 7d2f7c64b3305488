"""The steps of a derivation for people: numbered from 1, each with its reason in words and the numbers of its parents. For `draw` and `explain`.

A derivation resolves two clauses in two lines: `para` puts `$true` for an atom, which leaves the literal `~$true`, and `refl` drops that literal. The
two are one step here, a resolution, where nothing else uses the first of them. Every other line is a step of its own.
"""
import re

import derivation

VARIABLE = re.compile(r"[A-Z]\w*$")


class Step:
    """A step: its number, its line, the names of the lines that it stands for, the numbers of its parents, its rule in a word or two (`rule`), and
    the reason in words, in which parents are numbers."""

    def __init__(self, number, line, names, parents, rule, reason):
        self.number, self.line, self.names, self.parents, self.rule, self.reason = number, line, names, parents, rule, reason


def variables_of(formula):
    """The variables of a clause by first occurrence, which is how bindings number them."""
    return list(dict.fromkeys(it for it in derivation.tokens_of(formula) if VARIABLE.match(it)))


def applied(term, variables, terms):
    """A term with terms in the place of variables."""
    bound = dict(zip(variables, terms))
    return derivation.text_of(bound.get(it, it) for it in derivation.tokens_of(term))


def where(parents, bindings):
    """What stands for the variables of parents, in words; nothing where each stands for itself. `parents` are pairs of a number and a line."""
    told = []
    for (number, line), terms in zip(parents, bindings):
        changed = [f"{name} is {term}" for name, term in zip(variables_of(line.formula), terms) if name != term]
        if changed:
            told.append(f"{', '.join(changed)} in {number}")
    return f", where {' and '.join(told)}" if told else ""


def listed(numbers):
    """Numbers in words: `1`, `1 and 2`, `1, 2 and 3`."""
    words = [str(it) for it in numbers]
    return words[0] if len(words) == 1 else f"{', '.join(words[:-1])} and {words[-1]}" if words else "nothing"


def sides(literal):
    """The two sides of an equation; `$true` is the right one of an atom."""
    parts = derivation.split_at(derivation.tokens_of(literal), "=")
    return [derivation.text_of(it) for it in parts] if len(parts) == 2 else [literal, "$true"]


def replacement(line, parents, bindings):
    """The two terms of a `para` line: the one that is put and the one that it replaces. None where its items don't say."""
    place = line.arguments("from")
    literals = parents[0].literals() if parents else []
    if len(place) != 2 or not place[0].isdigit() or int(place[0]) >= len(literals):
        return None
    old, new = sides(literals[int(place[0])])
    if place[1] == "right":
        old, new = new, old
    variables = variables_of(parents[0].formula)
    terms = bindings[0] if bindings else []
    return applied(new, variables, terms), applied(old, variables, terms)


def rewritten(line, numbers, parents):
    """The rule and the reason of a `para` line."""
    bindings = line.bindings()
    terms = replacement(line, parents, bindings)
    reason = f"superposition of {numbers[0]} into {numbers[-1]}"
    if terms:
        reason += f": {terms[0]} for {terms[1]}"
    return "superposition", reason + where(list(zip(numbers, parents)), bindings)


def in_words(line, numbers, parents):
    """The rule and the reason of a line that is a step of its own."""
    told = where(list(zip(numbers, parents)), line.bindings())
    of = listed(numbers)
    name = derivation.unquoted(line.arguments(line.rule, ["a name"])[0])
    words = {
        "input": (line.role.replace("_", " "), f"{line.role.replace('_', ' ')} {line.formula_name}"),
        "negate": ("negation", f"negation of {of}"),
        "clausify": ("clause", f"clause of {of}"),
        "refl": ("equality resolution", f"equality resolution on {of}{told}"),
        "factor": ("equality factoring", f"equality factoring on {of}{told}"),
        "merge": ("merging", f"merging of equal literals in {of}{told}"),
        "component": (f"component {name}", f"definition: {name} stands for this component"),
        "opposite": (f"opposite of {name}", f"definition: the opposite of the component {name}"),
        "split": ("split", f"split of {listed(numbers[:1])} into {listed(numbers[1:])}"),
        "chain": ("resolution of names", f"resolution of the names in {of}"),
    }
    if line.rule == "para":
        return rewritten(line, numbers, parents)
    return words.get(line.rule, (line.rule, f"{line.rule} of {of}{told}"))


def cut_atom(line, parents, users):
    """Whether a `refl` line drops what a `para` line left of an atom, and is its only user."""
    if line.rule != "refl" or len(parents) != 1 or parents[0].rule != "para" or users[parents[0].name] != 1 or len(parents[0].parents) != 2:
        return False
    place, literals = line.arguments("lit"), parents[0].literals()
    return len(place) == 1 and place[0].isdigit() and int(place[0]) < len(literals) and literals[int(place[0])] == derivation.CUT_LITERAL


def resolved(cut, line, numbers, parents):
    """The rule and the reason of a resolution, which is the line `cut` and then `line`."""
    variables, terms = variables_of(cut.formula), (line.bindings() or [[]])[0]
    bindings = [[applied(it, variables, terms) for it in found] for found in cut.bindings()]
    return "resolution", f"resolution of {listed(numbers)}{where(list(zip(numbers, parents)), bindings)}"


def steps_of(lines, is_joined=True):
    """The steps of the lines of a derivation."""
    by_name = {it.name: it for it in lines}
    users = dict.fromkeys(by_name, 0)
    for line in lines:
        for parent in line.parents:
            users[parent] += 1
    cuts = {it.parents[0]: it for it in lines if is_joined and cut_atom(it, [by_name[name] for name in it.parents], users)}
    steps, numbers = [], {}
    for line in lines:
        if line.name in cuts:
            continue
        cut = by_name[line.parents[0]] if line.parents and cuts.get(line.parents[0]) is line else None
        above = cut.parents if cut else line.parents
        found, parents = [numbers[it] for it in above], [by_name[it] for it in above]
        rule, reason = resolved(cut, line, found, parents) if cut else in_words(line, found, parents)
        numbers[line.name] = len(steps) + 1
        steps.append(Step(len(steps) + 1, line, [cut.name, line.name] if cut else [line.name], found, rule, reason))
    return steps


def depths_of(steps):
    """For each step the length of the longest way to it from an input."""
    depths = []
    for it in steps:
        depths.append(1 + max((depths[number - 1] for number in it.parents), default=-1))
    return depths
