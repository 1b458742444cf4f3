#!/usr/bin/env python3
"""Tests the specification itself: what the definitions of specs/ compute for a module is held to the oracle's answer.

ORACLE is the program built from oracle/ (oracle/README.md). FOLDER, new or of an earlier call, gets a copy of the crates that `meaning`
needs and a crate `cases` whose theorems, four for each module, are closed by computation: the refusal of tests 1 to 4 or none; the counts;
every error in order, with its place in the file; the type of every slot in byte order. `rt check` there says whether they hold. It is no
part of the gate.
"""
import argparse, os, re, shutil, subprocess

ROOT = os.path.join(os.path.dirname(os.path.abspath(__file__)), '..')
PER_FILE = 20
# files of specs/ whose definitions no theorem here has to open
CLOSED = ('Lib.antt', 'BenchSheet.antt', 'JoiningOrder.antt', 'Inner.antt', 'Entry.antt')
HEAD = '''use Rattle.std.specs.Prelude.{ℕ, ◌≡◌, List, [], ◌∷◌, map, Option}
use mathlib.Core.Path.{refl}
use mathlib.Core.Option.{none, some}
use Rattle.types.specs.Ty.{Ty, end, node}
use Rattle.layout.specs.Layout.{layout_of, layout_refusal}
use Rattle.names.specs.Names.{repeated_name, name_refusal, items_of}
use Rattle.trees.specs.Record.{item_tree}
use Rattle.meaning.specs.TypeError.{TypeError, Operand, plain, row}
use Rattle.meaning.specs.Context.{each}
use Rattle.meaning.specs.Module.{item_types}
use Rattle.meaning.specs.Promise.{placed_errors_of, Counts, counts_of, context_of}
use Rattle.cases.proofs.Open.{opened}

abbrev told : (kind file line column : ℕ) → (first second third : Operand) → (place : ℕ) → TypeError
told k f l c x y z p = record { kind = k; file = f; line = l; column = c; first = x; second = y; third = z; place = p }

abbrev slots_of : List ℕ → List Ty
slots_of m = each (λ b. item_types (context_of m) (item_tree b)) (items_of m)
'''


def read(*path):
    with open(os.path.join(*path)) as f:
        return f.read()


def write(text, *path):
    with open(os.path.join(*path), 'w') as f:
        f.write(text)


def needed(crate):
    """The lines of crates.txt, in their order, of a crate and of all that it needs."""
    lines = [line for line in read(ROOT, 'crates.txt').splitlines(True) if re.match(r'\w+:', line)]
    wanted = {crate}
    for line in reversed(lines):
        name, needs = line.split(':')
        if name in wanted:
            wanted.update(needs.split())
    return [line for line in lines if line.split(':')[0] in wanted]


# --- the oracle's answers as terms

def answers(oracle, modules):
    """The lines that the oracle says of each module."""
    text = subprocess.run([oracle, 'check'] + modules, stdout=subprocess.PIPE, text=True, check=True).stdout
    if len(modules) == 1:
        return {modules[0]: text.splitlines()}
    said = {}
    for line in text.splitlines():
        if line.startswith('file '):
            said[line[5:]] = now = []
        else:
            now.append(line)
    return said


def listed(terms):
    return ' ∷ '.join(terms + ['[]'])


def parse(text):
    """The canonical text of a type as a nested list."""
    stack = [[]]
    for token in re.findall(r'[()]|\d+', text):
        if token == '(':
            stack.append([])
        elif token == ')':
            done = stack.pop()
            stack[-1].append(done)
        else:
            stack[-1].append(int(token))
    return stack[0][0]


def term(t):
    """A type as a term of antt."""
    if t == 0:
        return 'end'
    kind, rest = t[0], t[1:]
    first = second = 'end'
    size = name = 0
    if kind == 7:
        first, size = term(rest[0]), rest[1]
    elif kind in (6, 8):
        first = term(rest[0])
    elif kind in (9, 13):
        first, second = term(rest[0]), term(rest[1])
    elif kind in (10, 11):
        first, name = term(rest[0]), rest[1]
    elif kind == 12:
        first, second, name = term(rest[0]), term(rest[1]), rest[2]
    return '(node %d %s %s %d %d)' % (kind, first, second, size, name)


def words(line):
    """The words of a line; a type in parentheses is one word."""
    out, depth, now = [], 0, ''
    for c in line:
        if c == ' ' and depth == 0:
            out.append(now)
            now = ''
            continue
        depth += (c == '(') - (c == ')')
        now += c
    return out + [now]


def slot(line):
    return term(parse(' '.join(words(line)[2:])))


def operand(word):
    return '(row %s)' % term(parse(word)) if word.startswith('(') else '(plain %s)' % word


def error(line):
    said = words(line)
    return ' '.join(['told'] + said[1:5] + [operand(word) for word in said[5:8]] + said[8:])


# --- the theorems

def theorem(name, statement):
    return '\n%s : %s\nunfolding opened\n%s = refl\n' % (name, statement, name)


def refused(i, line):
    number, place = re.match(r'refused (\d+) at (\d+)', line).groups()
    which = 'layout_refusal (layout_of module_%d)' if number in '123' else 'name_refusal (repeated_name module_%d)'
    return theorem('refused_%d' % i, '%s ≡ some (%s, %s)' % (which % i, number, place))


def accepted(i, said):
    _, rows, _, errors = said[0].split()
    told = [error(line) for line in said if line.startswith('error ')]
    slots = [slot(line) for line in said if line.startswith('slot ')]
    return (
        theorem('passes_%d' % i, 'layout_refusal (layout_of module_%d) ≡ none' % i)
        + theorem('counts_%d' % i, 'counts_of module_%d ≡ record { rows = %s; errors = %s }' % (i, rows, errors))
        + theorem('errors_%d' % i, 'placed_errors_of module_%d ≡ %s' % (i, listed(told)))
        + theorem('slots_%d' % i, 'slots_of module_%d ≡ %s' % (i, listed(slots)))
    )


def theorems(i, data, said):
    """The module and what has to hold of it; nothing if a type is too long to be written out."""
    if said[0].startswith('refused'):
        facts = refused(i, said[0])
    elif said[0].startswith('rows') and '#' not in ''.join(said):
        facts = accepted(i, said)
    else:
        return None
    return '\nabbrev module_%d : List ℕ\nmodule_%d = %s\n' % (i, i, listed([str(byte) for byte in data])) + facts


def all_theorems(said, modules):
    out = []
    for path in modules:
        with open(path, 'rb') as f:
            text = theorems(len(out), f.read(), said[path])
        if text:
            out.append(text)
    return out


# --- the folder

def opening(crates):
    """A definition that opens all others: every one that unfolds, found in the specs."""
    text, names, seen = 'use Rattle.std.specs.Prelude.{ℕ}\n', [], set()
    for crate in crates:
        specs = os.path.join(ROOT, 'crates', crate, 'specs')
        files = sorted(os.listdir(specs)) if os.path.isdir(specs) else []
        for file in files:
            if not file.endswith('.antt') or file in CLOSED:
                continue
            used = []
            for name in re.findall(r'^unfoldable pub ([^\s:]+) :', read(specs, file), re.M):
                own = '%s_%s' % (name, crate) if name in seen else name
                used.append(name if own == name else '%s as %s' % (name, own))
                names.append(own)
                seen.add(name)
            if used:
                text += 'use Rattle.%s.specs.%s.{%s}\n' % (crate, file[:-5], ', '.join(used))
    return text + '\n-- Opens every definition\nunfoldable pub opened : ℕ\nunfolding %s\nopened = 0\n' % ' '.join(names)


def copy_crates(folder, lines):
    """The crates of these lines of crates.txt, and a crate `cases` above them that is still empty."""
    crates = [line.split(':')[0] for line in lines]
    shutil.rmtree(os.path.join(folder, 'crates'), ignore_errors=True)
    for part in ('src', 'proofs'):
        os.makedirs(os.path.join(folder, 'crates', 'cases', part))
    for crate in crates:
        left_out = shutil.ignore_patterns('must-fail', 'out')
        shutil.copytree(os.path.join(ROOT, 'crates', crate), os.path.join(folder, 'crates', crate), ignore=left_out)
    write(''.join(lines) + 'cases: ' + ' '.join(crates) + '\n', folder, 'crates.txt')
    write('// The theorems are in proofs/.\n#![tactic(auto)]\n', folder, 'crates', 'cases', 'src', 'lib.rt')
    return crates


def write_cases(folder, crates, texts):
    proofs = os.path.join(folder, 'crates', 'cases', 'proofs')
    write(opening(crates), proofs, 'Open.antt')
    files = ['Open']
    for at in range(0, len(texts), PER_FILE):
        files.append('Cases%d' % (at // PER_FILE + 1))
        write(HEAD + ''.join(texts[at:at + PER_FILE]), proofs, files[-1] + '.antt')
    write(''.join('pub mod %s\n' % file for file in files), proofs, 'Lib.antt')


def main():
    parser = argparse.ArgumentParser(description=__doc__, formatter_class=argparse.RawDescriptionHelpFormatter)
    parser.add_argument('oracle', metavar='ORACLE')
    parser.add_argument('folder', metavar='FOLDER')
    parser.add_argument('modules', metavar='MODULE', nargs='+')
    args = parser.parse_args()
    if not os.access(args.oracle, os.X_OK):
        parser.error('ORACLE names no program: ' + args.oracle)
    if os.path.exists(os.path.join(args.folder, 'crates')) and not os.path.exists(os.path.join(args.folder, 'crates', 'cases')):
        parser.error('FOLDER has crates of something else, which would be removed: ' + args.folder)
    texts = all_theorems(answers(args.oracle, args.modules), args.modules)
    write_cases(args.folder, copy_crates(args.folder, needed('meaning')), texts)
    print(len(texts), 'modules in', args.folder)


main()
