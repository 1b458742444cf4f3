"""Module files of document 01, for the scripts that make cases: writing records, and taking a file apart.

A record is a head of 16 bytes (its length, its kind, the file, line and column of its place), its fields, and the records or bytes within
it. All numbers have their least byte first.
"""
import struct

HEAD = 16
FIRST = (0, 1, 1)  # file, line and column of a place that does not matter


def word(*numbers):
    """Words of four bytes."""
    return struct.pack('<%dI' % len(numbers), *numbers)


def read_word(data, at):
    return struct.unpack_from('<I', data, at)[0]


def record(kind, *parts, place=FIRST):
    """A record of these parts; a number among them is a field, bytes stand as they are."""
    body = b''.join(word(part) if isinstance(part, int) else part for part in parts)
    return struct.pack('<IHHII', HEAD + len(body), kind, *place) + body


def module(names, items, place=FIRST):
    """A module with this list of names, as bytes, and these items."""
    listed = [record(3, name, place=place) for name in names]
    return record(1, record(2, *listed, place=place), *items, place=place)


def items(data):
    """Where the items of a module begin, and the items."""
    start = at = HEAD + read_word(data, HEAD)
    found = []
    while at < len(data):
        end = at + read_word(data, at)
        found.append(data[at:end])
        at = end
    return start, found
