#!/usr/bin/env python3
"""Writes the contracts' words for the two moments of a loan as today's projections.

usage: python3 tools/projections.py [FOLDER]     FOLDER has crates/; the repository itself if none is given

In the clauses of a function `(old s)` becomes `s.now` where s is lent to read and `s.old` where it is lent to write, and `(final s)` becomes `s.new`. The words
that take several loans at once (`given`, `before`, `after`, `run_of`, `old_inputs`, `given_inputs`) take what is lent to read as the list that it is. Run it
once, after respell.py.
"""

import glob
import os
import re
import sys

FUNCTION = re.compile(r'((?:pub )?(?:unsafe )?(?:extern "C" )?fn \w+(?:<[^>]*>)?)\(([^)]*)\)(.*?)\n(\s*)\{(?=\n)', re.S)


def turned(m):
    parameters, clauses = m.group(2), m.group(3)
    kinds = {name: kind.strip() for name, kind in re.findall(r"(\w+)\s*:\s*(&(?:'\w+ )?(?:mut )?)?", parameters)}

    def before(name):
        return name + (".old" if "mut" in kinds.get(name, "mut") else ".now")

    def first(m):
        word, name = m.group(1), m.group(2)
        if name not in kinds:
            return m.group(0)
        return f"{word} {name}.new" if word == "after" and "mut" in kinds[name] else f"{word} {before(name)}"

    clauses = re.sub(r"\(old (\w+)\)", lambda m: before(m.group(1)), clauses)
    clauses = re.sub(r"(?<![\w.])old (\w+)\b", lambda m: before(m.group(1)), clauses)
    clauses = re.sub(r"\(final (\w+)\)", r"\1.new", clauses)
    clauses = re.sub(r"(?<![\w.])final (\w+)\b", r"\1.new", clauses)
    clauses = re.sub(r"\b(given|before|after|run_of) (\w+)\b(?!\.)", first, clauses)
    clauses = re.sub(r"\b(old_inputs|given_inputs) (\w+) (\w+) (\w+)\b(?!\.)", r"\1 \2.now \3.now \4.now", clauses)
    return f"{m.group(1)}({parameters}){clauses}\n{m.group(4)}{{"


def main(argv):
    root = argv[0] if argv else os.path.join(os.path.dirname(os.path.abspath(__file__)), "..")
    changed = 0
    for path in sorted(glob.glob(os.path.join(root, "crates/*/src/**/*.rt"), recursive=True)):
        with open(path, encoding="utf-8") as f:
            text = f.read()
        to = re.sub(r"ghost use Rattle\.contract\.specs\.Moments\.\{[^}]*\};\n", "", FUNCTION.sub(turned, text))
        if to != text:
            changed += 1
            with open(path, "w", encoding="utf-8") as f:
                f.write(to)
    print(f"projections: {changed} files")
    return 0


if __name__ == "__main__":
    raise SystemExit(main(sys.argv[1:]))
