#!/usr/bin/env python3
"""Counts the places of docs/DESIGN-PASS.md in the sources of a commit: tools/design_counts.py COMMIT [-v]

-v prints each place. Without a commit the files of the work tree are read.
"""
import re
import subprocess
import sys

args = [a for a in sys.argv[1:] if a != "-v"]
verbose = "-v" in sys.argv


def run(*command):
    return subprocess.run(command, capture_output=True, text=True, check=True).stdout


def sources():
    if args:
        names = run("git", "ls-tree", "-r", "--name-only", args[0]).split("\n")
    else:
        names = run("git", "ls-files").split("\n")
    for name in names:
        if re.fullmatch(r"crates/\w+/src/.*\.rt", name):
            text = run("git", "show", f"{args[0]}:{name}") if args else open(name).read()
            yield name[len("crates/"):], text


FUNCTION = re.compile(
    r"^(?P<lead> *)(?:pub(?:\(crate\))? )?(?:extern \"C\" )?fn (?P<name>\w+)(?P<generics><[^(]*>)?"
    r"\((?P<parameters>.*?)\)(?P<result> -> [^\n{]+?)?(?P<clauses>\n.*?)?(?:\n(?P=lead)| )\{\n(?P<body>.*?)^(?P=lead)\}",
    re.S | re.M)


def functions(text):
    return list(FUNCTION.finditer(text))


def blocks(body):
    """The loops of a body: head and text."""
    lines = body.split("\n")
    for i, line in enumerate(lines):
        found = re.match(r"( *)(while\b.*|loop) \{$", line)
        if found:
            inner = []
            for other in lines[i + 1:]:
                if other == found[1] + "}":
                    break
                inner.append(other)
            yield found[2], "\n".join(inner)


KEYWORDS = set("if else match while loop for in return let mut break continue as true false".split())


def skeleton(body):
    """A body without its names, numbers and texts."""
    body = re.sub(r"//[^\n]*", "", body)
    body = re.sub(r'b?"[^"]*"|b?\'[^\']*\'', "0", body)
    body = re.sub(r"[A-Za-z_][\w:]*", lambda m: m[0] if m[0] in KEYWORDS else "x", body)
    return re.sub(r"\s+|\d+", "", body)


places = {key: [] for key in (
    "1 enums of the shape of Option or Result", "1 refusals by number", "1 none as a number", "1 kinds by number",
    "2 functions alike but for names and numbers", "3 loops with an index counted by hand",
    "3 loops from record to record", "4 copies, fills, swaps, comparisons and bytes by hand",
    "5 the five buffers of a walk", "5 the module, its names and the rows of messages", "5 a table and its count",
    "6 a buffer and how much of it is used")}
seen = {}
for file, text in sources():
    for found in re.finditer(r"^ *(?:pub(?:\(crate\))? )?enum (\w+) \{\n(.*?)^ *\}", text, re.S | re.M):
        variants = [v.strip() for v in re.findall(r"^ +(\w+[^\n]*)$", re.sub(r"^ *//[^\n]*\n", "", found[2], flags=re.M), re.M)]
        bare = [v for v in variants if re.fullmatch(r"\w+,", v)]
        full = [v for v in variants if re.match(r"\w+(\(| \{)", v)]
        if full and len(variants) <= 4 and found[1] != "Base":
            places["1 enums of the shape of Option or Result"].append(f"{file}: {found[1]}")
    for n, line in enumerate(text.split("\n"), 1):
        where = f"{file}:{n}"
        if re.search(r"number: [0-9]|Refused\([0-9]|^ +8$", line):
            places["1 refusals by number"].append(where)
        if re.match(r"pub const [A-Z0-9_]+: u32 = (kinds::\w+|\d+);", line) and re.search(r"kinds\.rt|types/src|shape/src", file):
            places["1 kinds by number"].append(where)
        if re.search(r"/ 256 % 256\) as u8|\* 256\b|\* 65536\b", line):
            places["4 copies, fills, swaps, comparisons and bytes by hand"].append(where)
    for f in functions(text):
        name = f"{file}: {f['name']}"
        before = text[:f.start()].rstrip().split("\n")
        comment = []
        while before and (before[-1].lstrip().startswith("//") or before[-1].startswith("#[")):
            comment.insert(0, before.pop())
        if re.search(r"\bor 0\b|or else its stop|or the number of names|else `at`|number 0\.", " ".join(comment)) and "exports" not in file:
            places["1 none as a number"].append(name)
        body = f["body"]
        if body.count("\n") >= 4:
            seen.setdefault(skeleton(body), []).append(name)
        for head, inner in blocks(body):
            if re.search(r"= length_at\(|\+= length_at\(|= next_place\(|next_record\(|head\.next|stop - at", inner):
                places["3 loops from record to record"].append(name)
            elif re.search(r"\b(\w+) (\+|-)= (1|\w*WIDTH|4)\b", inner) and not re.search(r"types::|row\.(first|second)|\.part\(", inner):
                places["3 loops with an index counted by hand"].append(name)
                flat = re.sub(r"\s+", " ", inner).strip()
                if re.fullmatch(r"(let \w+ = [^;]*; )*\w+\[[^\]]*\] = [^;]*; \w+ \+= 1;", flat) or re.match(r"if \w+\[.\] != [^{]*\{ return false; \}", flat):
                    places["4 copies, fills, swaps, comparisons and bytes by hand"].append(name)
        if re.fullmatch(r"alike|same_bytes|exchange|least|or_else|copy_\w+|error_at", f["name"]) and name not in places["4 copies, fills, swaps, comparisons and bytes by hand"]:
            if not re.search(r"copy_from_slice|swap|==\s|\.min\(", body) or f["name"] == "alike":
                places["4 copies, fills, swaps, comparisons and bytes by hand"].append(name)
        given = re.findall(r"(\w+): ", f["parameters"])
        have = set(given)
        if len(have & {"output", "errors", "rows", "index", "state"}) >= 3 and "state" in have:
            places["5 the five buffers of a walk"].append(name)
        if {"built_in", "places"} <= have:
            places["5 the module, its names and the rows of messages"].append(name)
        if {"rows", "count"} <= have and "built_in" not in have:
            places["5 a table and its count"].append(name)
        if have & {"used", "many", "row_count", "error_count"} or {"text", "at"} <= have:
            places["6 a buffer and how much of it is used"].append(name)
for names in seen.values():
    if len(names) > 1:
        places["2 functions alike but for names and numbers"].append(" = ".join(names))
for key, found in places.items():
    print(f"{len(found):4} {key}")
    if verbose:
        for place in found:
            print("       ", place)
