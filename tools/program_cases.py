#!/usr/bin/env python3
"""Makes the modules that the programs report, messages and dump are run on: `stdin` of crates/report, crates/messages and crates/dump.

Usage:  python3 tools/program_cases.py
What report prints of its module is in document 01; messages and dump are run on the same module. What dump prints was compared with the
oracle (`oracle render` and `oracle check`), what messages prints too (`oracle messages`).
"""
import os

import module_file

crates = os.path.join(os.path.dirname(os.path.abspath(__file__)), '..', 'crates')
NAMES = ['u16', 'bool', 'Pair', 'left', 'right', 'sum', 'pair', 'Word', 'text', 'flag']


def record(kind, line, column, *parts):
    return module_file.record(kind, *parts, place=(0, line, column))


def module(names, items):
    return module_file.module([name.encode() for name in names], items, place=(0, 0, 0))


def write(crate, data):
    with open(os.path.join(crates, crate, 'stdin'), 'wb') as f:
        f.write(data)


def number(name):
    return NAMES.index(name)


def name_type(line, column, name):
    return record(16, line, column, 0, number(name))


def identifier(line, column, name):
    return record(32, line, column, 0, number(name))


def field(line, column, name):
    """(*pair).name"""
    pair = record(40, line, column, 0, identifier(line, column + 1, 'pair'))
    return record(41, line, column, 0, number(name), pair)


# var x: u17;
write('report', module(['x', 'u17'], [record(83, 0, 0, 0, record(16, 3, 8, 0, 1))]))

fields = [
    record(21, 2, 14, number('left'), name_type(2, 20, 'u16')),
    record(21, 2, 25, number('right'), name_type(2, 32, 'Word')),
]
# flag: bool = true && text; the second operand is an error
both = record(44, 6, 19, 0, record(34, 6, 19, 0, 1), identifier(6, 27, 'text'))
flag = record(66, 6, 5, number('flag'), name_type(6, 12, 'bool'), both)
# if flag return (*pair).left + (u16)(*pair).right;
total = record(45, 7, 22, 0, 1, field(7, 22, 'left'), record(38, 7, 33, 0, field(7, 37, 'right'), name_type(7, 35, 'u16')))
early = record(73, 7, 5, identifier(7, 8, 'flag'), record(69, 7, 15, total))
# return 65536; which is no u16
late = record(69, 8, 5, record(33, 8, 12, 0, 10, b'65536'))
pair = record(85, 5, 9, number('pair'), record(18, 5, 15, 0, name_type(5, 16, 'Pair')))

program = module(NAMES, [
    record(81, 1, 1, number('Word'), 1, name_type(1, 13, 'u16')),
    record(81, 2, 1, number('Pair'), 0, record(20, 2, 12, 0, *fields)),
    record(83, 3, 1, number('text'), record(18, 3, 11, 0, name_type(3, 12, 'u16')), record(35, 3, 18, 0, b'hi')),
    record(80, 5, 1, number('sum'), name_type(5, 24, 'u16'), pair, record(64, 5, 30, 0, flag, early, late)),
])
write('messages', program)
write('dump', program)
