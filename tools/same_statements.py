#!/usr/bin/env python3
"""Lists the laws and definitions that stand more than once in crates/*/specs and crates/*/proofs.

Usage:  python3 tools/same_statements.py
Two laws are the same if their statements are, two definitions if their clauses are too, both up to the names of bound variables. What would
be saved most comes first. The answers of functions are not read: their statements belong to one function each.
"""
import collections, glob, os, re
from dataclasses import dataclass, field

ROOT = os.path.join(os.path.dirname(os.path.abspath(__file__)), '..')
SECTION = re.compile(r'\s*module _ (.*)')
SIGNATURE = re.compile(r'\s*((?:abbrev |unfoldable )?(?:pub )?)([^\s(){}λ:=]+) : (.*)')
NO_STATEMENT = ('use ', 'pub record', 'pub data', 'record', 'data', 'let ')
TOKEN = re.compile(r'[^\s(){}.,;→×≡]+|[(){}.,;→×≡]')
# names of helpers that many laws have, and texts too short to say anything
LOCAL = ('go', 'is', 'here', 'A', 'B', 'C', 'D')
SHORTEST = 25
SHOWN = 230


@dataclass
class Statement:
    file: str
    line: int
    name: str
    indent: int
    marks: str  # `abbrev`, `unfoldable`, `pub`
    section: str  # the parameters of the sections around it
    signature: list
    clauses: list = field(default_factory=list)

    def begins_clause(self, line, indent):
        name = re.escape(self.name)
        return re.match(r'\s*(unfolding\b|%s\b.*=|%s$)' % (name, name), line) or (' = ' in line and indent <= self.indent)

    def takes(self, line, indent):
        """Whether the line is part of the statement, which it is added to."""
        if self.clauses or self.begins_clause(line, indent):
            self.clauses.append(line.strip())
        elif indent > self.indent:
            self.signature.append(line.strip())
        else:
            return False
        return True

    def is_definition(self):
        return '/specs/' in self.file or 'abbrev' in self.marks or 'unfoldable' in self.marks

    def text(self):
        """What has to be the same in another; of a definition, its clauses with their parameters as bound variables."""
        text = self.section + ' | ' + ' '.join(self.signature)
        if not self.is_definition():
            return text
        heads = [clause.split(' = ')[0] for clause in self.clauses if clause.startswith(self.name + ' ')]
        bound = ['(%s : _)' % word for head in heads for word in head.split()[1:] if word.isalnum()]
        return ' '.join(bound) + text + ' || ' + ' '.join(self.clauses)

    def length(self):
        return len(self.signature) + len(self.clauses)


def statements(file):
    found, now, sections = [], None, []
    with open(os.path.join(ROOT, file)) as f:
        lines = f.read().split('\n')
    for number, line in enumerate(lines, 1):
        bare = line.lstrip()
        indent = len(line) - len(bare)
        if not bare or bare.startswith('--'):
            continue
        while sections and indent <= sections[-1][0]:
            sections.pop()
        if section := SECTION.match(line):
            sections.append((indent, section[1].replace(' where', '')))
            now = None
        elif (opened := SIGNATURE.match(line)) and not bare.startswith(NO_STATEMENT):
            marks, name, signature = opened.groups()
            now = Statement(file, number, name, indent, marks, ' '.join(part for _, part in sections), [signature])
            found.append(now)
        elif now and not now.takes(line, indent):
            now = None
    return found


def key(text, name):
    """The text with its bound variables numbered and its own name left out."""
    bound = set()
    for names in re.findall(r'[({]([^(){}:]+) :', text) + re.findall(r'λ ([^.(]+)\.', text):
        bound.update(names.split())
    numbers, out = {}, []
    for token in TOKEN.findall(text):
        if token == name:
            token = '@self'
        elif token in bound:
            token = numbers.setdefault(token, 'v%d' % len(numbers))
        out.append(token)
    return ' '.join(out)


def groups():
    """The statements under what is the same in them."""
    out = collections.defaultdict(list)
    for part in ('proofs', 'specs'):
        for file in sorted(glob.glob('crates/*/%s/*.antt' % part, root_dir=ROOT)):
            for statement in statements(file):
                text = statement.text()
                if statement.name not in LOCAL and len(text) >= SHORTEST:
                    out[key(text, statement.name)].append(statement)
    return out


def main():
    again = {same: found for same, found in groups().items() if len(found) > 1}
    saved = {same: sum(statement.length() for statement in found[1:]) for same, found in again.items()}
    for same in sorted(again, key=lambda same: -saved[same]):
        places = ['%s:%d %s' % (s.file.removeprefix('crates/'), s.line, s.name) for s in again[same]]
        print('%d lines again: %s\n        %s' % (saved[same], '  '.join(places), same[:SHOWN]))
    print('groups %d, lines again %d' % (len(again), sum(saved.values())))


main()
