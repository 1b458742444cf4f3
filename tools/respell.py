#!/usr/bin/env python3
"""Brings the repository's own definitions and lemmas to snake case.

usage: python3 tools/respell.py [FOLDER]     FOLDER has crates/; the repository itself if none is given

A name that an .antt file of specs/ or proofs/ declares, a field, a constructor or a local law included, is respelled wherever it stands: in .antt and .rt
files, in the texts of must-fail edits and, where it is written in camel case or in backquotes, in comments. Types and modules keep their names, strings and
the functions of src/ too. Where the new spelling would meet another name, the law gets _lem. Run it once, on files as port.py leaves them.
"""

import collections
import os
import re
import sys

SEPARATORS = r"[\s(){}\[\],;.«»]"
TOKEN = re.compile(r"[^\s(){}\[\],;.«»]+")
# A law whose name would be that of a definition which stands in the same file: the files, the name, the new one.
MEETING = [
    ("compound_rules/proofs/", "struct_kind", "struct_kind_lem"),
    ("relations/proofs/", "told_of", "told_of_lem"),
    ("relations/proofs/", "target_fits", "target_fits_lem"),
    ("slot_places/proofs/", "slots_at", "slots_at_lem"),
    ("slot_places/proofs/Change.antt", "field_fits", "field_fits_lem"),
    ("type_check/proofs/Whole.antt", "bothPasses", "effect_of_both"),
]


def snake(name):
    if not re.match(r"[a-z]", name):
        return name
    name = re.sub(r"(?<=-)[A-Z]+$", lambda m: m.group().lower(), name)
    return re.sub(r"(?<=[a-zA-Z0-9])([A-Z])", lambda m: "_" + m.group(1).lower(), name).replace("-", "_")


def files_of(root):
    for folder, folders, names in os.walk(os.path.join(root, "crates")):
        folders[:] = sorted(x for x in folders if x != "out")
        for name in sorted(names):
            if name.endswith((".antt", ".rt", ".edit")):
                path = os.path.join(folder, name)
                yield os.path.relpath(path, os.path.join(root, "crates")), path


def without_comments(path, text):
    return re.sub(r"(?m)(^|\s)--\s.*$" if path.endswith(".antt") else r"(?m)//.*$", "", text)


def declared(texts):
    found = set()
    for rel, text in texts.items():
        parts = rel.split("/")
        if not rel.endswith(".antt") or (parts[1] == "proofs" and len(parts) > 3):
            continue
        for line in without_comments(rel, text).split("\n"):
            if line.startswith("use "):
                continue
            m = re.match(r"((?:(?:abbrev|unfoldable|pub|record|data|opaque|fact) )*)([^\s(){}:,.]+)(?=\s|$)", line)
            if m and re.match(r"[a-zA-Z]", m.group(2)):
                found.add(m.group(2))
            for inner in (r"\s+(?:(?:abbrev|unfoldable|pub) )*([^\s(){}:,.]+) : ", r"\s+\| ?(?:pub )?([^\s(){}:,.]+)(?=\s)"):
                m = re.match(inner, line)
                if m and re.match(r"[a-z]", m.group(1)):
                    found.add(m.group(1))
    return found


def table(texts):
    """The new spelling of each declared name, and no two names to one."""
    names = declared(texts) - {old for _, old, _ in MEETING if snake(old) != old}
    words = {rel: set(re.split(SEPARATORS + "+", without_comments(rel, t))) for rel, t in texts.items() if not rel.endswith(".edit")}
    meets = set()
    for rel, there in words.items():
        if rel.endswith(".antt"):
            meets |= {n for n in there & names if snake(n) != n and snake(n) in there}
    groups = collections.defaultdict(set)
    for n in names:
        groups[snake(n)].add(n)
    new = {}
    for n in names:
        to = snake(n)
        if to != n:
            new[n] = to + "_lem" if "-" in n and (len(groups[to]) > 1 or n in meets) else to
    return new


def foreign(text, crates):
    """The names that a file takes from a library that is not the repository's."""
    found = set()
    for m in re.finditer(r"\buse ([\w.+'-]+)\.\{([^}]*)\}", text):
        parts = m.group(1).split(".")
        if parts[0] != "Rattle" or parts[1] not in crates:
            found |= {n.strip().split(" ")[0] for n in m.group(2).split(",")}
    return found


def respelled(rel, text, new, crates):
    own = dict(new)
    for name in foreign(text, crates):
        own.pop(name, None)
    for where, old, to in MEETING:
        if rel.startswith(where):
            own[old] = to

    def word(m):
        return own.get(m.group(), m.group())

    def comment(line):
        line = re.sub(r"`([^`]*)`", lambda m: "`" + TOKEN.sub(word, m.group(1)) + "`", line)
        return TOKEN.sub(lambda m: own.get(m.group(), m.group()) if "-" not in m.group() and re.match(r"[a-z]\w*[A-Z]", m.group()) else m.group(), line)

    out = []
    for line in text.split("\n"):
        if rel.endswith(".rt"):
            pieces = re.split(r'("(?:[^"\\]|\\.)*"|//.*$)', line)
            line = "".join(comment(p) if p.startswith("//") else p if p.startswith('"') else re.sub(r"[A-Za-z_][\w'′]*", word, p) for p in pieces)
        elif rel.endswith(".edit") and re.search(r"(?m)^file: src/", text):
            line = re.sub(r"[A-Za-z_][\w'′]*", lambda m: own.get(m.group(), m.group()) if re.match(r"[a-z]\w*[A-Z]", m.group()) else m.group(), line)
        else:
            m = re.match(r"(.*?)((?:^|\s)--\s.*)?$", line)
            line = TOKEN.sub(word, m.group(1)) + (comment(m.group(2)) if m.group(2) else "")
        out.append(line)
    return "\n".join(out)


def main(argv):
    root = argv[0] if argv else os.path.join(os.path.dirname(os.path.abspath(__file__)), "..")
    texts, paths = {}, {}
    for rel, path in files_of(root):
        with open(path, encoding="utf-8") as f:
            texts[rel], paths[rel] = f.read(), path
    new = table(texts)
    crates = {rel.split("/")[0] for rel in texts}
    changed = 0
    for rel, text in texts.items():
        to = respelled(rel, text, new, crates)
        if to != text:
            changed += 1
            with open(paths[rel], "w", encoding="utf-8") as f:
                f.write(to)
    print(f"respelled: {len(new)} names in {changed} files")
    return 0


if __name__ == "__main__":
    raise SystemExit(main(sys.argv[1:]))
