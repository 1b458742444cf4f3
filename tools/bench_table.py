#!/usr/bin/env python3
"""Turns what tools/bench.sh wrote into the tables of docs/PERFORMANCE.md:  python3 tools/bench_table.py RUN..

Each RUN is the output of one run. Times are the least of the runs, ratios their median. The sizes of a class become one line: the times of the
largest, and the other figures from the smallest to the largest.
"""
import re
import statistics
import sys

BYTES, PRODUCT, PER_BYTE, LAYOUT, WALK, REFERENCE, RATIO, _, DECODING = range(9)


def read(path):
    """The figures of a run, by class; `-` is None."""
    rows = {}
    for line in open(path):
        cells = [cell.strip() for cell in line.strip().strip('|').split('|')]
        if len(cells) == 10 and cells[1].isdigit():
            rows[cells[0]] = [None if cell == '-' else float(cell) for cell in cells[1:]]
    return rows


def joined(figures, digits):
    return ', '.join('-' if figure is None else f'{figure:,.{digits}f}' for figure in figures)


def middle(figures):
    return None if None in figures else statistics.median(figures)


def main():
    runs = [read(path) for path in sys.argv[1:]]
    classes = {}
    for name in runs[0]:
        sized = re.fullmatch(r'(.*) (\d+)', name)
        classes.setdefault(sized.group(1) if sized else name, []).append(name)
    for name, members in classes.items():
        last = [[run[member] for run in runs] for member in members]
        least = lambda column: None if last[-1][0][column] is None else min(row[column] for row in last[-1])
        times = [joined([least(column)], 0) for column in (BYTES, PRODUCT, LAYOUT, WALK, REFERENCE)]
        by_byte = joined([min(row[PRODUCT] for row in rows) / rows[0][BYTES] if rows[0][BYTES] else None for rows in last], 2)
        by_walk = joined([middle([row[PRODUCT] / row[WALK] for row in rows]) for rows in last], 1)
        ratios = [joined([middle([row[column] for row in rows]) for rows in last], 1) for column in (RATIO, DECODING)]
        print('| ' + ' | '.join([name, times[0], times[1], by_byte, by_walk, *times[2:], *ratios]) + ' |')


main()
