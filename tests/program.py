#!/usr/bin/env python3
# Sheets for the plan program and what it must print for them, tests/program/NAME.sheet and NAME.out. What
# document 01 prints, or what follows from one of its sentences, is written out below; the 64-train line and
# whatever else 01 doesn't print is taken from the independent reading in tests/plans.py, and all is compared
# with that reading.
#
#   python3 tests/program.py            writes the files
#   python3 tests/program.py --check    compares; ends with 1 if one differs

import sys

from plan_cases import C, D, refused_sheets
from plans import KEEP, answer, compare_or_write, usual_line
from sheet_cases import A, B, MOST, sheet


def printed(data):
    """What the program prints by the independent reading."""
    number, place, total, decisions, delays = answer(data)[0][:5]
    if number != 0:
        return 'refused %d %d\n' % (number, place)
    lines = ['total %d' % total, '1 - %d' % delays[0]]
    for train in range(2, data[0] // 2 + 1):
        choice = 'keep' if decisions[train - 1] == KEEP else 'go'
        lines.append('%d %s %d' % (train, choice, delays[train - 1]))
    return '\n'.join(lines) + '\n'


def by_hand():
    """Name, sheet and what document 01 prints."""
    yield 'a', sheet(A), 'total 21\n1 - 7\n'
    yield 'b4', sheet(B), 'total 176\n1 - 9\n2 go 3\n3 keep 0\n'
    # 202 is what keep, keep costs: with slacks 5 the delays are 9, 9 - 5 + 3 and 7 - 5 + 0
    yield 'b6', sheet(B, T=13), 'total 202\n1 - 9\n2 keep 7\n3 keep 2\n'
    # slack 0: train 2 takes the 5 minutes
    yield 'c', sheet(C), 'total 10\n1 - 5\n2 keep 5\n'
    yield 'd', sheet(D), 'total 10\n1 - 0\n2 keep 10\n'
    # one train: its delay is its source delay, and the total is its passengers times that
    yield 'A, T 1440', sheet(A, T=1440), 'total 21\n1 - 7\n'
    yield 'A, delay 1440', sheet(A, delays=[1440]), 'total 4320\n1 - 1440\n'
    yield 'A, passengers 10000', sheet(A, passengers=[10000]), 'total 70000\n1 - 7\n'
    for name, data, number, place in refused_sheets():
        yield name, data, 'refused %d %d\n' % (number, place)
    # what stands past 3,908 bytes is not read, and changes nothing: 64 trains demand 3,907
    yield 'far too long', sheet(MOST) + bytes(5000), 'refused 4 0\n'


def by_reading():
    """Name and sheet of lines whose plan 01 doesn't print."""
    yield 'B, train 2 at 25', sheet(B, departures=[10, 25, 55])
    yield '64 trains', usual_line(64).sheet()
    yield '64 trains, all at their most', sheet(MOST)


def sheets():
    for name, data, text in by_hand():
        assert printed(data) == text, (name, printed(data), text)
        yield name, data, text
    for name, data in by_reading():
        yield name, data, printed(data)


def files():
    for name, data, text in sheets():
        name = name.replace(' ', '_').replace(',', '')
        yield name + '.sheet', data
        yield name + '.out', text.encode('ascii')


def main(arguments):
    if arguments not in ([], ['--check']):
        print('usage: python3 tests/program.py [--check]', file=sys.stderr)
        return 2
    made = list(files())
    print('%d sheets for the plan program' % (len(made) // 2))
    return compare_or_write('tests/program', made, arguments == [], 'tests/program.py')


if __name__ == '__main__':
    sys.exit(main(sys.argv[1:]))
