#!/usr/bin/env python3
"""statement: makes the lists of definitions in docs/STATEMENT.md, or checks them.

    docs/statement.py           writes the lists into the document
    docs/statement.py --check   prints what differs from the document; its status is 1 where anything does

Each list has the names of what its roots rest on: the definitions in `specs/` that are reached from a root through names in scope (a file's own and those of its
`use` lines), and the types and constants of the sources that these speak of. A definition that an earlier list has isn't repeated. The files of a list
stand in reading order, each after those that it uses, and a file's definitions in the order of the file. The toolchain's own library isn't followed.
"""
import os
import re
import sys

TOP = os.path.join(os.path.dirname(os.path.abspath(__file__)), "..")
DOCUMENT = os.path.join(TOP, "docs", "STATEMENT.md")

# The lists, by the word in the document's marks, with the definitions from which each begins.
LISTS = [
    ("truth", ["ConjectureFollows", "AxiomsUnsatisfiable"]),
    ("problem", ["SpellsProblem"]),
    ("herbrand", ["IsHerbrandRefuted"]),
    ("accepted", ["IsAcceptedDerivation"]),
    ("saturated", ["IsSaturated"]),
    ("selection", ["kept_places", "part_clauses"]),
    ("model", ["IsProblemModel", "HasNoModelBelow", "model_text", "form_measure"]),
    ("ground", ["IsGroundListOf", "IsGroundRefuted", "IsGroundTrue"]),
    ("bench", ["bench_formulas"]),
]

# A list of more definitions has how many of each file are in it, and the names of those from which it begins.
MOST_NAMES = 200

WORD = r"[^\s(){}\[\],;]+"


class Fault(Exception):
    """Something in the sources that this program can't follow."""


class Item:
    """A definition: a group of names that are defined together."""

    def __init__(self, path, place, names, body, constructors=()):
        self.path, self.place, self.names, self.body = path, place, names, body
        self.constructors = set(constructors)


class Spec:
    """A file of definitions: its items and what its `use` lines bring into scope."""

    def __init__(self, path):
        self.path = path
        self.items = {}
        self.imported = {}
        self.aliases = {}
        self.shown = {}
        with open(os.path.join(TOP, path), encoding="utf-8") as file:
            lines = file.read().split("\n")
        at = 0
        while at < len(lines):
            line = lines[at]
            if re.match(r"(pub )?use ", line):
                self.read_use(line)
            if not line.strip() or re.match(r"--|(pub )?use |pub mod ", line):
                at += 1
                continue
            end = at + 1
            while end < len(lines) and lines[end].strip() and not starts_definition(lines[end]):
                end += 1
            if line.startswith(("abbrev mutual", "mutual")):
                while end < len(lines) and (not lines[end].strip() or lines[end].startswith((" ", "--  "))):
                    end += 1
            self.add(lines[at:end], at)
            at = end

    def add(self, lines, at):
        names, constructors = [], []
        is_data = False
        for line in lines:
            found = re.match(rf"\s*(?:abbrev |unfoldable )*(?:pub )?(record|data) ({WORD})", line)
            if found:
                names.append(found[2])
                is_data = found[1] == "data"
                continue
            found = re.match(rf"(?:abbrev |unfoldable |pub )+({WORD}) :", line) or re.match(rf"  pub ({WORD}) :", line)
            if found and (not line.startswith("  ") or lines[0].startswith(("abbrev mutual", "mutual"))):
                names.append(found[1])
                is_data = False
                continue
            found = re.match(rf"\s+({WORD}) :", line)
            if is_data and found:
                constructors.append(found[1])
            elif is_data and re.match(rf"\s+({WORD}) ?:?$", line):
                constructors.append(line.split()[0])
        if not names:
            return
        item = Item(self.path, at, names, "\n".join(lines), constructors)
        for name in names + constructors:
            self.items[name] = item

    def read_use(self, line):
        found = re.match(rf"(pub )?use ([\w.]+?)(?:\.\{{(.*)\}}| as ({WORD}))?$", line)
        if not found:
            raise Fault(f"{self.path}: {line}")
        path = found[2]
        if found[4]:
            self.aliases[found[4]] = path
        elif found[3] is not None:
            for part in found[3].split(","):
                words = part.split()
                if words:
                    self.imported[words[-1]] = (path, words[0])
                    if found[1]:
                        self.shown[words[-1]] = (path, words[0])


def starts_definition(line):
    return bool(re.match(r"(abbrev|pub|mutual|unfoldable|use|--)\b|--", line))


class Sources:
    """All definitions of the repository, by file and name."""

    def __init__(self):
        self.specs = {}
        self.declared = {}

    def spec(self, path):
        if path not in self.specs:
            self.specs[path] = Spec(path)
        return self.specs[path]

    def named(self, name):
        """The one definition of that name in all `specs/`."""
        found = set()
        for crate in sorted(os.listdir(os.path.join(TOP, "crates"))):
            for folder, _, files in os.walk(os.path.join(TOP, "crates", crate, "specs")):
                for file in files:
                    if file.endswith(".antt"):
                        spec = self.spec(os.path.relpath(os.path.join(folder, file), TOP))
                        if name in spec.items:
                            found.add(spec.items[name])
        if len(found) != 1:
            raise Fault(f"{len(found)} definitions of {name}")
        return found.pop()

    def resolve(self, path, name):
        """The definition of a name under a path of a `use` line, or None for the toolchain's."""
        parts = path.split(".")
        if parts[0] != "Rattle" or not os.path.isdir(os.path.join(TOP, "crates", parts[1])):
            return None
        if parts[2:4] == ["specs", "declared"]:
            return self.type_or_constant(parts[1], parts[4:], name)
        file = "/".join(["crates", parts[1]] + parts[2:]) + ".antt"
        if not os.path.exists(os.path.join(TOP, file)):
            raise Fault(f"no file {file} for {path}")
        spec = self.spec(file)
        if name in spec.items:
            return spec.items[name]
        if name in spec.shown:
            return self.resolve(*spec.shown[name])
        raise Fault(f"no {name} in {file}")

    def type_or_constant(self, crate, parts, name):
        """What `specs.declared` shows of the sources: a type, a variant of one, or a constant."""
        if parts[-1] == "TheVariants":
            name = parts[-2]
            module = parts[:-2]
        elif parts[-1] == "TheConstants":
            module = parts[:-1]
        else:
            name = parts[-1]
            module = parts[:-1]
        base = "/".join(["crates", crate, "src"] + module)
        for path in (base + ".rt", base + "/mod.rt", "/".join(["crates", crate, "src", "lib.rt"])):
            if os.path.exists(os.path.join(TOP, path)):
                item = self.in_source(path, name)
                if item:
                    return item
        raise Fault(f"no {name} in {base}.rt")

    def in_source(self, path, name):
        if (path, name) in self.declared:
            return self.declared[path, name]
        with open(os.path.join(TOP, path), encoding="utf-8") as file:
            lines = file.read().split("\n")
        for at, line in enumerate(lines):
            if re.match(rf"\s*pub(?:\([^)]*\))? (?:struct|enum|const|type) {name}\b", line):
                self.declared[path, name] = Item(path, at, [name], "")
                return self.declared[path, name]
        return None

    def used_by(self, item):
        """The definitions whose names stand in an item."""
        if not item.path.endswith(".antt"):
            return set()
        spec = self.spec(item.path)
        text = re.sub(r'"[^"]*"', " ", item.body)
        text = re.sub(r"(?m)(^|\s)--( .*)?$", "", text)
        bound = bound_names(text)
        found = set()
        for word in re.findall(WORD, text):
            whole, head = word, word.split(".")[0]
            if whole in spec.aliases or head in spec.aliases:
                path = spec.aliases[head]
                part = word.split(".")[1] if "." in word else ""
                used = self.resolve(path, part) if part else None
                if used:
                    found.add(used)
                continue
            for name in (whole, head):
                used = self.in_scope(spec, name)
                if used and not (name in bound and name not in used.constructors and name not in self.variants(spec, name)):
                    if used is not item:
                        found.add(used)
                    break
        # The arguments of a clause may hide a definition of the same name, but not a constructor.
        return found

    def in_scope(self, spec, name):
        if name in spec.items:
            return spec.items[name]
        if name in spec.imported:
            return self.resolve(*spec.imported[name])
        return None

    def variants(self, spec, name):
        path, original = spec.imported.get(name, ("", ""))
        return {name} if path.endswith("TheVariants") or original in self.constructors_of(path) else set()

    def constructors_of(self, path):
        parts = path.split(".")
        if parts[0] != "Rattle" or parts[2:4] == ["specs", "declared"] or not os.path.isdir(os.path.join(TOP, "crates", parts[1])):
            return set()
        file = "/".join(["crates", parts[1]] + parts[2:]) + ".antt"
        if not os.path.exists(os.path.join(TOP, file)):
            return set()
        return {name for item in self.spec(file).items.values() for name in item.constructors}


def bound_names(text):
    """Names that a text binds itself: of parameters, of fields, after `λ`, in clauses before `=`."""
    bound = set()
    for found in re.findall(r"λ ([^.]*)\.", text):
        bound.update(re.findall(WORD, found.split(":")[0]))
    for found in re.findall(r"[({]([^(){}:]+) : ", text):
        bound.update(found.split())
    bound.update(re.findall(rf"(?m)^\s*pub ({WORD}) :", text))
    bound.update(re.findall(rf"\blet ({WORD}) :", text))
    for found in re.findall(r"(?m)^(?:  )?[^\s:].*?(?==)(?<= )= ?", text):
        if " : " not in found and "record" not in found:
            bound.update(re.findall(WORD, found)[1:-1])
    for braces in re.findall(r"record \{(.*?)\}", text, re.S):
        bound.update(re.findall(rf"(?:^|;)\s*({WORD}) =", braces))
    return bound


def closure(sources, roots):
    """All items that the roots reach, and the roots."""
    reached, left = set(), list(roots)
    while left:
        item = left.pop()
        if item in reached:
            continue
        reached.add(item)
        left.extend(sources.used_by(item))
    return reached


def in_reading_order(sources, items, roots):
    """The files of the items, each after those that it uses, with their items."""
    files = {}
    for item in items:
        files.setdefault(item.path, set()).add(item)
    order, seen = [], set()

    def visit(path):
        if path in seen or path not in files:
            return
        seen.add(path)
        used = {it.path for item in files[path] for it in sources.used_by(item)}
        for other in sorted(used):
            visit(other)
        order.append(path)

    for root in roots:
        visit(root.path)
    for path in sorted(files):
        visit(path)
    return [(path, sorted(files[path], key=lambda it: it.place)) for path in order]


def printed(sources, items, roots):
    """A bullet for each file, in reading order, with its definitions by name, or in a long list their number."""
    bullets = []
    count = sum(len(item.names) for item in items)
    for path, of_file in in_reading_order(sources, items, roots):
        crate, rest = path.split("/")[1], "/".join(path.split("/")[2:])
        names = [f"**`{name}`**" if item in roots else f"`{name}`" for item in of_file for name in item.names]
        if count > MOST_NAMES:
            names = [str(len(names))] + [name for name in names if name.startswith("*")]
        bullets.append(f"- [`{crate}/{rest}`](../{path}): {', '.join(names)}")
    return count, "\n".join(bullets)


def lists(sources):
    """The text of each list, by its word."""
    earlier = set()
    texts = {}
    for word, names in LISTS:
        roots = [sources.named(name) for name in names]
        items = closure(sources, roots) - earlier
        earlier |= items
        count, text = printed(sources, items, roots)
        files = len({it.path for it in items})
        texts[word] = f"{count} definitions in {files} {'file' if files == 1 else 'files'}.\n\n{text}"
    return texts


def main():
    sources = Sources()
    texts = lists(sources)
    with open(DOCUMENT, encoding="utf-8") as file:
        before = file.read()
    after = before
    for word, text in texts.items():
        begin, end = f"<!-- list {word} -->", f"<!-- end of list {word} -->"
        if begin not in after or end not in after:
            raise Fault(f"no marks {begin} and {end} in docs/STATEMENT.md")
        after = after[: after.index(begin) + len(begin)] + "\n" + text + "\n" + after[after.index(end) :]
    if sys.argv[1:] == ["--check"]:
        if after != before:
            at = next(i for i, (a, b) in enumerate(zip(before.split("\n"), after.split("\n"))) if a != b)
            print(f"docs/STATEMENT.md:{at + 1}: not what docs/statement.py makes now: {after.split(chr(10))[at]}")
            return 1
        return 0
    if after != before:
        with open(DOCUMENT, "w", encoding="utf-8") as file:
            file.write(after)
    return 0


if __name__ == "__main__":
    try:
        sys.exit(main())
    except Fault as fault:
        print(f"docs/statement.py: {fault}")
        sys.exit(1)
