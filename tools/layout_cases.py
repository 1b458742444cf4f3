#!/usr/bin/env python3
"""Makes the cases of crates/layout_cases: `stdin`, the modules and the edits, and `stdout`, what the oracle says of each.

ORACLE is the program built from oracle/ (oracle/README.md). Its layout tests are written from document 01, apart from the Rattle code.

stdin is a list of commands, each judged by itself; numbers have four bytes, least byte first:
  M n bytes    a module of n bytes, the base of the commands after it
  T n          the base cut to n bytes
  B p v        the base with the byte at p set to v (one byte)
  P n          the base lengthened by n zero bytes, which stay
"""
import argparse, os, subprocess, tempfile

from module_file import module, record, word

parser = argparse.ArgumentParser(description=__doc__, formatter_class=argparse.RawDescriptionHelpFormatter)
parser.add_argument('oracle', metavar='ORACLE')
oracle = parser.parse_args().oracle
if not os.access(oracle, os.X_OK):
    parser.error('ORACLE names no program: ' + oracle)
out = os.path.join(os.path.dirname(os.path.abspath(__file__)), '..', 'crates', 'layout_cases')


def name_type(n):
    return record(16, 0, n)


def block_at(depth, statement):
    """A function whose body is a chain of blocks with a statement at this depth; the module is at 1."""
    for _ in range(depth - 3):
        statement = record(64, 0, statement)
    return module([b'x'], [record(80, 0, record(17, 0), statement)])


def nested(depth):
    """A variable whose type record, a chain of pointers, ends at this depth; the module is at 1."""
    t = name_type(0)
    for _ in range(depth - 3):
        t = record(18, 0, t)
    return module([b'x'], [record(83, 0, t)])


# one module with every kind of record
u16 = name_type(0)
e = record(34, 0, 1)
one = record(33, 0, 10, b'1')
x = record(32, 0, 1)
expressions = [
    x, one, e, record(35, 0, b'hi'), record(36, 0, x, one, e), record(37, 0, x, one), record(38, 0, one, u16),
    record(39, 0, x), record(40, 0, x), record(41, 0, 1, x), record(42, 0, one), record(43, 0, e),
    record(44, 0, e, e), record(45, 0, 8, one, one), record(46, 0, 5, one, one), record(47, 0, record(17, 0)),
]
array = record(48, one, one)
struct_ = record(49, record(50, 1, one))
statements = [record(65, s) for s in expressions] + [
    record(66, 1, u16), record(66, 1, u16, one), record(66, 1, u16, array), record(67, x, one), record(68, x, struct_), record(69),
    record(69, one), record(70, record(64, 0)), record(71, e, record(72)), record(73, e, record(72)), record(73, e, record(72), record(64, 1)),
    record(74, b'nop'),
]
fields = record(20, 0, record(21, 1, record(18, 0, u16)), record(21, 0, record(19, 0, 4, u16)))
every = module([b'u16', b'x', b''], [
    record(82, b'std'), record(84, b''), record(81, 1, 3, fields), record(83, 1, u16, struct_),
    record(80, 1, u16), record(80, 2, u16, record(85, 0, u16), record(85, 1, u16), record(64, 1, *statements)),
])
small = module([b'x', b'u17'], [record(83, 0, name_type(1))])

cases, commands = [], []


def judge(data, command):
    cases.append(data)
    commands.append(command)


def base(data):
    judge(data, b'M' + word(len(data)) + data)


def cut(data):
    for n in range(len(data)):
        judge(data[:n], b'T' + word(n))


def byte(data, p, v):
    judge(data[:p] + bytes([v]) + data[p + 1:], b'B' + word(p) + bytes([v]))


def each_byte(data, values):
    for p in range(len(data)):
        for v in values(data[p]):
            byte(data, p, v % 256)


base(small)
cut(small)
each_byte(small, lambda b: (b + 1, b - 1, b + 16, b + 64, b + 128))
base(every)
each_byte(every, lambda b: (b + 1, b - 1))
for names in ([], [b'a', b'b', b'a'], [b'', b'x', b''], [b'ab', b'a', b'b', b'ab', b'a'], [b'a', b'aa', b'aaa']):
    base(module(names, []))
for kind in range(100):
    base(module([b'x'], [record(kind)]))
    base(module([b'x'], [record(80, 0, record(17, 0), record(kind, 0))]))
for extra in range(1, 20):
    base(module([b'x'], []) + bytes(extra))
    base(module([b'x'], [record(72) + bytes(extra)]))
for depth in (63, 64, 65, 66):
    base(nested(depth))
for kind in range(64, 75):
    for body in (b'', word(0), x, word(0) + u16, bytes(3)):
        base(block_at(64, record(kind, body)))
base(module([b'ab', b'ac', b'bb', b''], []))
each_byte(module([b'ab', b'ac', b'bb', b''], []), lambda b: (b + 1, b - 1, 97, 98, 99))
body = 65536 - len(module([b'x'], [])) - 16
for more in (-1, 0, 1):
    big = module([b'x'], [record(82, bytes(body + more))])
    head = big[:len(big) - body - more]
    base(head)
    judge(big, b'P' + word(body + more))
base(b'')

with tempfile.TemporaryDirectory() as folder:
    files = []
    for i, data in enumerate(cases):
        files.append(os.path.join(folder, '%05d' % i))
        with open(files[-1], 'wb') as f:
            f.write(data)
    said = subprocess.run([oracle, 'check', '--model', folder], stdout=subprocess.PIPE, text=True, check=True).stdout
answers = {}
for line in said.splitlines():
    if line.startswith('file '):
        now = os.path.basename(line[5:])
    elif now not in answers:
        answers[now] = line if line.startswith('refused') else 'good'
os.makedirs(out, exist_ok=True)
with open(os.path.join(out, 'stdin'), 'wb') as f:
    f.write(b''.join(commands))
with open(os.path.join(out, 'stdout'), 'w') as f:
    for i in range(len(cases)):
        f.write(answers['%05d' % i] + '\n')
print(len(cases), 'cases')
