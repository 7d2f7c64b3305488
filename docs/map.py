#!/usr/bin/env python3
"""map.py [--check]: fills the column of sizes in the tables of crates in ARCHITECTURE.md, and their sum.

Rows and their other columns are written by hand: `| crate | what it does | size | open first |`. A size is in thousands of lines: code with its contracts,
definitions (`specs/`), proofs. With --check nothing is written: each row that is wrong is told as FILE:LINE, a size only where it is off by more than a fifth
and 200 lines; the status is then 1."""
import glob
import os
import re
import sys

os.chdir(os.path.join(os.path.dirname(os.path.abspath(__file__)), ".."))
DOCUMENT = "docs/ARCHITECTURE.md"
ROW = re.compile(r"\| `(\w+)` \| ([^|]*) \| ([^|]*) \| ([^|]*) \|$")
PARTS = [("src", ".rt"), ("specs", ".antt"), ("proofs", ".antt")]
TOTAL = re.compile(r"All crates together have [\d./ ]+ thousand lines\.")
ALLOWED_SHARE, ALLOWED_LINES = 0.2, 200


def read(path):
    with open(path, encoding="utf-8") as it:
        return it.read()


def crates():
    return [it.split(":")[0].split()[0] for it in read("crates.txt").split("\n") if ":" in it and not it.startswith("#")]


CRATES = crates()


def lines_of(crate):
    """Lines of code, of definitions and of proofs."""
    return [sum(read(path).count("\n") for path in glob.glob(f"crates/{crate}/{part}/**/*{end}", recursive=True)) for part, end in PARTS]


def size_text(lines):
    return "/".join(f"{it / 1000:.1f}" for it in lines)


def is_near(text, lines):
    """Whether a size that is written is near enough."""
    written = [float(it) * 1000 for it in re.findall(r"\d+\.\d+", text)]
    if len(written) != len(lines):
        return False
    return all(abs(one - other) <= max(ALLOWED_SHARE * other, ALLOWED_LINES) for one, other in zip(written, lines))


def main():
    is_check = sys.argv[1:] == ["--check"]
    faults = 0
    totals = [sum(it) for it in zip(*map(lines_of, CRATES))]
    text = read(DOCUMENT)
    total = TOTAL.search(text)
    if is_check and not (total and is_near(total[0], totals)):
        faults += 1
        print(f"{DOCUMENT}:1: all crates together have {size_text(totals)} thousand lines")
    if total and not is_near(total[0], totals):
        text = text.replace(total[0], f"All crates together have {size_text(totals)} thousand lines.")
    lines = text.split("\n")
    for at, line in enumerate(lines):
        row = ROW.match(line)
        if not row or row[1] not in CRATES:
            continue
        crate, does, size, first = row.groups()
        counted = lines_of(crate)
        if is_check and not is_near(size, counted):
            faults += 1
            print(f"{DOCUMENT}:{at + 1}: {crate} has {size_text(counted)} thousand lines")
        if is_check and not all(os.path.exists(f"crates/{crate}/{it}") for it in re.findall(r"`([\w/]+\.\w+)`", first)):
            faults += 1
            print(f"{DOCUMENT}:{at + 1}: {crate} has no file {first}")
        if not is_near(size, counted):
            size = size_text(counted)
        lines[at] = f"| `{crate}` | {does} | {size} | {first} |"
    if not is_check:
        with open(DOCUMENT, "w", encoding="utf-8") as out:
            out.write("\n".join(lines))
    return 1 if faults else 0


sys.exit(main())
