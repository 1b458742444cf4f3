#!/usr/bin/env python3
"""Makes the case of crates/shuffle: `stdin`, a module, and `stdout`, the module in the order that the number in `args` decides.

Usage:  python3 tools/shuffle_case.py
The module is the second of crates/layout_cases/stdin, which has every kind of record. The order is worked out here, apart from the Rattle code.
"""
import os

from module_file import items, read_word

crates = os.path.join(os.path.dirname(os.path.abspath(__file__)), '..', 'crates')


def shuffled(data, seed):
    start, parts = items(data)
    number = seed % 4294967291
    for left in range(len(parts), 1, -1):
        number = (number * 279470273 + 1) % 4294967291
        i, j = left - 1, number % left
        parts[i], parts[j] = parts[j], parts[i]
    return data[:start] + b''.join(parts)


def modules(commands):
    """The modules among the commands of crates/layout_cases/stdin (tools/layout_cases.py)."""
    at = 0
    while at < len(commands):
        command, n = commands[at:at + 1], read_word(commands, at + 1)
        at += 5
        if command == b'M':
            yield commands[at:at + n]
            at += n
        if command == b'B':
            at += 1


with open(os.path.join(crates, 'layout_cases', 'stdin'), 'rb') as f:
    module = list(modules(f.read()))[1]
with open(os.path.join(crates, 'shuffle', 'args')) as f:
    seed = int(f.read())
with open(os.path.join(crates, 'shuffle', 'stdin'), 'wb') as f:
    f.write(module)
with open(os.path.join(crates, 'shuffle', 'stdout'), 'wb') as f:
    f.write(shuffled(module, seed))
