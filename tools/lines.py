#!/usr/bin/env python3
"""Counts lines, comments included: code, specifications, laws, answers (Answers.antt, Invariants.antt, Proof.antt), must-fail edits; of each crate and in all. Then how many
lines of code have more than 140 characters, and how many functions have 40 lines or more with their contract.

    tools/lines.py [FOLDER]      FOLDER: a checkout of the repository, this one if none is named
"""
import re
import sys
from pathlib import Path

ANSWERS = ("Answers.antt", "Invariants.antt", "Proof.antt")
COLUMNS = ("code", "spec", "laws", "answers", "edits")


def lines(files):
    return sum(len(f.read_text().splitlines()) for f in files)


def counts(crate):
    proofs = list(crate.glob("proofs/**/*.antt"))
    return (
        lines(crate.glob("src/**/*.rt")),
        lines(crate.glob("specs/*.antt")),
        lines(f for f in proofs if f.name not in ANSWERS),
        lines(f for f in proofs if f.name in ANSWERS),
        len(list(crate.glob("must-fail/*.edit"))),
    )


def long_functions(source):
    """The functions of a file with 40 lines or more, from `fn` to the brace that ends it."""
    start = None
    for number, line in enumerate(source.read_text().splitlines()):
        if re.match(r'\s*(pub )?(extern "C" )?fn ', line):
            start = number
        if re.match(r"( {4})?}$", line) and start is not None:
            if number - start + 1 >= 40:
                yield start + 1, number - start + 1
            start = None


def main():
    root = Path(sys.argv[1] if len(sys.argv) > 1 else Path(__file__).parent.parent)
    crates = sorted(p for p in (root / "crates").iterdir() if (p / "src").is_dir())
    total = [0] * len(COLUMNS)
    print("crate", *COLUMNS)
    for crate in crates:
        row = counts(crate)
        total = [a + b for a, b in zip(total, row)]
        print(crate.name, *row)
    print("all", *total)
    sources = sorted((root / "crates").glob("*/src/**/*.rt"))
    wide = [(f, n) for f in sources for n, l in enumerate(f.read_text().splitlines(), 1) if len(l) > 140]
    long = [(f, n) for f in sources for n, _ in long_functions(f)]
    print(f"lines of code over 140 characters: {len(wide)}; functions of 40 lines or more: {len(long)}")
    for f, n in wide + long:
        print(f"    {f.relative_to(root)}:{n}")


main()
