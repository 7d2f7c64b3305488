"""Reads a derivation as `prove` prints it, or as `check` takes it: any names, any layout, comments. For `draw` and `explain`, which check nothing.

A derivation is a list of annotated formulas, each with a source: `file(FILE,NAME)`, `inference(RULE,[ITEMS],[PARENTS])` or
`introduced(definition,[ITEM])`. docs/FORMATS.md has the rules. What stands around a derivation in a report are comments.
"""
import re

# Blanks and comments, quoted words, other words, connectives, and any other byte alone.
TOKEN = re.compile(r"(?:\s|%[^\n]*|/\*.*?\*/)+|'(?:[^'\\]|\\.)*'|\"(?:[^\"\\]|\\.)*\"|[\w$]+|<=>|<~>|=>|<=|~\||~&|!=|.", re.S)
STATUS = re.compile(r"(?m)^% SZS status (\w+) for (.*)$")
OPENING = {"(": ")", "[": "]", "{": "}"}
CLOSING = {it: opening for opening, it in OPENING.items()}
EMPTY_CLAUSE = "$false"
# What an atom that was cut leaves of its literal; a step of reflexivity drops it.
CUT_LITERAL = "~$true"


class Unreadable(Exception):
    """The text isn't a derivation: why, and at which line of the file."""


class Line:
    """A line: its name, kind (`fof` or `cnf`), role, formula and source.

    `rule` is the rule's word: `input` for a formula of the problem, and for a definition its item's word. `items` are the rule's items in order,
    each a word and its arguments; `parents` are names of lines. An input has the file and the name of its formula.
    """

    def __init__(self, name, kind, role, formula):
        self.name, self.kind, self.role, self.formula = name, kind, role, formula
        self.rule, self.items, self.parents = "", [], []
        self.file = self.formula_name = None

    def arguments(self, word, default=()):
        """The arguments of the first item of that word."""
        return next((found for it, found in self.items if it == word), list(default))

    def bindings(self):
        """For each parent the terms that stand for its variables."""
        return [inside_list(arguments[0]) for word, arguments in self.items if word == "bind" and arguments]

    def literals(self):
        """The literals of a clause; none of the empty one."""
        if self.formula == EMPTY_CLAUSE:
            return []
        tokens = tokens_of(self.formula)
        if tokens and tokens[0] == "(" and closes_at(tokens, 0) == len(tokens) - 1:
            tokens = tokens[1:-1]
        return [text_of(it) for it in split_at(tokens, "|")]


def tokens_of(text):
    """The tokens of a text; a run of blanks and comments is one blank."""
    return [" " if it[0].isspace() or it[0] == "%" or it.startswith("/*") else it for it in TOKEN.findall(text)]


def text_of(tokens):
    return "".join(tokens).strip()


def closes_at(tokens, start):
    """Where the bracket that opens at a place is closed."""
    depth = 0
    for at in range(start, len(tokens)):
        if tokens[at] in OPENING:
            depth += 1
        elif tokens[at] in CLOSING:
            depth -= 1
            if depth == 0:
                return at
    return -1


def split_at(tokens, mark):
    """The parts between the marks that stand outside all brackets."""
    parts, depth = [[]], 0
    for it in tokens:
        depth += (it in OPENING) - (it in CLOSING)
        if it == mark and depth == 0:
            parts.append([])
        else:
            parts[-1].append(it)
    return parts


def inside_list(text):
    """The members of a list in square brackets."""
    inside = text.strip()[1:-1]
    return [text_of(it) for it in split_at(tokens_of(inside), ",")] if inside.strip() else []


def called(text):
    """A word and its arguments."""
    tokens = [it for it in tokens_of(text) if it != " "]
    if len(tokens) < 2 or tokens[1] != "(":
        return text.strip(), []
    inside = tokens[2:closes_at(tokens, 1)]
    return tokens[0], [text_of(it) for it in split_at(inside, ",")] if inside else []


def unquoted(name):
    """A name without its quotes."""
    return re.sub(r"\\(.)", r"\1", name[1:-1]) if name.startswith("'") else name


def read_source(line, source):
    """Reads the source of a line, and tells whether it has one of the three shapes."""
    shape, arguments = called(source)
    if shape == "file" and len(arguments) == 2:
        line.rule, line.file, line.formula_name = "input", unquoted(arguments[0]), unquoted(arguments[1])
    elif shape == "inference" and len(arguments) == 3:
        line.rule, line.items, line.parents = arguments[0], [called(it) for it in inside_list(arguments[1])], inside_list(arguments[2])
    elif shape == "introduced" and len(arguments) == 2:
        line.items = [called(it) for it in inside_list(arguments[1])]
        line.rule = line.items[0][0] if line.items else ""
    return line.rule != ""


def entries(text):
    """The annotated formulas and includes of a text: for each the number of its line, its word and its arguments."""
    tokens, number, start = [], 1, 1
    depth = 0
    for found in TOKEN.finditer(text):
        it = found[0]
        if it == "." and depth == 0:
            yield start, called_entry(tokens, start)
            tokens = []
        elif tokens or not (it[0].isspace() or it[0] == "%" or it.startswith("/*")):
            if not tokens:
                start = number
            depth += (it in OPENING) - (it in CLOSING)
            tokens.append(it)
        number += it.count("\n")
    if tokens:
        raise Unreadable(f"{start}: an entry that has no end")


def called_entry(tokens, start):
    tokens = [" " if it[0].isspace() or it[0] == "%" or it.startswith("/*") else it for it in tokens]
    while " " in tokens[:2]:
        tokens.remove(" ")
    while tokens[-1] == " ":
        tokens.pop()
    if len(tokens) < 3 or tokens[1] != "(" or closes_at(tokens, 1) != len(tokens) - 1:
        raise Unreadable(f"{start}: no annotated formula")
    return tokens[0], [text_of(it) for it in split_at(tokens[2:-1], ",")]


def read(text):
    """The lines of a derivation, in order. Each parent is an earlier line."""
    lines, known = [], set()
    for number, (kind, arguments) in entries(text):
        if kind not in ("fof", "cnf") or len(arguments) < 3:
            raise Unreadable(f"{number}: no annotated formula in FOF or CNF")
        if len(arguments) < 4:
            raise Unreadable(f"{number}: {arguments[0]} has no source, so this is no line of a derivation")
        line = Line(unquoted(arguments[0]), kind, arguments[1], arguments[2])
        if len(arguments) > 4 or not read_source(line, arguments[3]):
            raise Unreadable(f"{number}: {line.name} has a source that isn't file, inference or introduced")
        line.parents = [unquoted(it) for it in line.parents]
        for parent in line.parents:
            if parent not in known:
                raise Unreadable(f"{number}: {line.name} has the parent {parent}, which is no earlier line")
        if line.name in known:
            raise Unreadable(f"{number}: {line.name} is the name of an earlier line")
        known.add(line.name)
        lines.append(line)
    return lines


def status_of(text):
    """The SZS status of a report and the problem's name; none where it has no such line."""
    found = STATUS.search(text)
    return (found[1], found[2]) if found else (None, None)
