#!/usr/bin/env python3
# The records of the program plan_cases, crates/plan_cases/stdin, and what it must print for them,
# crates/plan_cases/stdout: document 01's "Sums to check by hand" and "By program" for plan. The numbers
# below are those that document 01 prints, or follow from one of its sentences, which is then cited.
# FOUND marks what it doesn't print: there the numbers are taken from the independent reading in
# tests/plans.py, whose header gives the form of a record and of a line. Whatever is written out here
# is also compared with that reading.
#
#   python3 tests/plan_cases.py            writes the two files
#   python3 tests/plan_cases.py --check    compares; ends with 1 if one differs

import sys

from plans import GO, KEEP, LENGTHS, answer, compare_or_write, list_lines, listed, record, sum_line
from sheet_cases import A, B, MOST, named, sheet

FOUND = 'not printed in document 01'
C = dict(m=2, T=10, departures=[0, 10], driving=[10, 10], delays=[5, 0], passengers=[0, 1, 1])
D = dict(m=2, T=1, departures=[0, 10], driving=[10, 10], delays=[0, 10], passengers=[0, 1, 0])


def case(name, data, lengths, right, found):
    """A record 'L' and its lines, `right` being written out but for what is FOUND."""
    made = list_lines(found, data[0] // 2 if data else 0)
    assert len(right) == len(made), name
    lines = [there if here is FOUND else here for here, there in zip(right, made)]
    assert lines == made, (name, lines, made)
    return named(name + ':') + record(b'L', data, lengths), '%s: %s\n' % (name, '\n'.join(lines))


def planned(name, data, total, decisions, delays, rows):
    """An accepted line. The decisions are those of trains 2 to m: "decision byte 1 is 0, bytes 2 to m the
    plan, the rest 0; arrival delays, the rest 0". All m(m+1)/2 cells in use are filled, and "other places
    are never written"."""
    m = data[0] // 2
    found, _ = answer(data)
    right = [FOUND if total is FOUND else 'plan 0 0 %d' % total,
             FOUND if decisions is FOUND else listed('decisions', [0] + decisions + [0] * (64 - m)),
             FOUND if delays is FOUND else listed('delays', delays + [0] * (64 - m))]
    right += [FOUND] * m if rows is FOUND else [listed('row %d:' % k, row) for k, row in enumerate(rows, 1)]
    return case(name, data, LENGTHS, right + ['changed %d' % (m * (m + 1) // 2)], found)


def refused(name, data, number, place):
    """"Any other refused plan or report sets all 64 decision bytes to 2 and all delays to 0, and leaves
    sheet and cells unchanged.\""""
    right = ['plan %d %d 0' % (number, place), listed('decisions', [2] * 64), listed('delays', [0] * 64), 'changed 0']
    return case(name, data, LENGTHS, right, answer(data)[0])


def unlike(name, data, *lengths):
    """Buffers of other lengths: 10 at place 0, and "refusal 10 writes nothing but that list of three"."""
    right = ['plan 10 0 0', listed('decisions', [7] * lengths[1]), listed('delays', [77777] * lengths[2]), 'changed 0']
    return case(name, data, lengths, right, answer(data, lengths)[0])


def sums(name, data):
    """An accepted line with too many cells to print: a record 'P', its line FOUND."""
    found, _ = answer(data)
    assert found[:2] == (0, 0)
    return named(name + ':') + record(b'P', data), '%s: %s\n' % (name, sum_line(found))


def by_hand():
    return [
        # with one train its delay is the source delay, and there is one cell, which is the total
        planned('a', sheet(A), 21, [], [7], [[21]]),
        planned('b4', sheet(B), 176, [GO, KEEP], [9, 3, 0], [[176, 140, 54], [30, 0], [0]]),
        planned('b5', sheet(B, T=12), 198, [GO, KEEP], FOUND, FOUND),
        planned('b6', sheet(B, T=13), 202, [KEEP, KEEP], FOUND, FOUND),
        planned('c', sheet(C), 10, [KEEP], FOUND, FOUND),
        # "a station with excess 0 always shows keep"
        planned('d', sheet(D), 10, [KEEP], FOUND, FOUND),
    ]


def boundaries():
    return [
        # one train: its delay is its source delay, and the total is its passengers times that
        planned('A, T 1', sheet(A, T=1), 21, [], [7], [[21]]),
        planned('A, T 1440', sheet(A, T=1440), 21, [], [7], [[21]]),
        planned('A, delay 0', sheet(A, delays=[0]), 0, [], [0], [[0]]),
        planned('A, delay 1440', sheet(A, delays=[1440]), 3 * 1440, [], [1440], [[3 * 1440]]),
        planned('A, nobody', sheet(A, passengers=[0]), 0, [], [7], [[0]]),
        planned('A, passengers 10000', sheet(A, passengers=[10000]), 70000, [], [7], [[70000]]),
        planned('B, T 1', sheet(B, T=1), FOUND, FOUND, FOUND, FOUND),
        planned('B, T 1440', sheet(B, T=1440), FOUND, FOUND, FOUND, FOUND),
        planned('B, train 2 at 25', sheet(B, departures=[10, 25, 55]), FOUND, FOUND, FOUND, FOUND),
        # all totals are 0: keep at the first difference; with slacks 5 the delays are 9, 9 - 5 + 3 and 7 - 5 + 0
        planned('B, nobody', sheet(B, passengers=[0] * 6), 0, [KEEP, KEEP], [9, 7, 2], [[0, 0, 0], [0, 0], [0]]),
        # no excess: keep, and nobody is late
        planned('B, no delay', sheet(B, delays=[0, 0, 0]), 0, [KEEP, KEEP], [0, 0, 0], [[0, 0, 0], [0, 0], [0]]),
        sums('64 trains, all at their most', sheet(MOST)),
    ]


def refused_sheets():
    """Name, sheet, number and place of each."""
    a = sheet(A)
    assert a == bytes.fromhex('02 02 80 28 0F 00 E0 01 80'), 'sheet A as document 01 prints it'
    return [
        ('empty', b'', 1, 0),
        ('A, 2 bytes', a[:2], 1, 0),
        ('A without its last byte', a[:-1], 1, 0),
        ('A with another byte', a + b'\0', 4, 0),
        ('A ending in 81', a[:-1] + b'\x81', 9, 0),
        ('m 0', sheet(A, m=0), 2, 0),
        ('m 65', sheet(A, m=65), 2, 0),
        ('T 0', sheet(A, T=0), 3, 0),
        ('T 1441', sheet(A, T=1441), 3, 0),
        ('departure 2880', sheet(A, departures=[2880]), 5, 1),
        ('delay 1441', sheet(A, delays=[1441]), 6, 1),
        ('B, train 2 at 24', sheet(B, departures=[10, 24, 55]), 7, 2),
        ('passengers 10001', sheet(A, passengers=[10001]), 8, 1),
        ('B, field 6 10001', sheet(B, passengers=[4, 6, 5, 10, 2, 10001]), 8, 6),
    ]


def lengths():
    b = sheet(B)
    return [
        unlike('4095 cells', b, 4095, 64, 64),
        unlike('4097 cells', b, 4097, 64, 64),
        unlike('no cell', b, 0, 64, 64),
        unlike('63 decision bytes', b, 4096, 63, 64),
        unlike('65 decision bytes', b, 4096, 65, 64),
        unlike('no decision byte', b, 4096, 0, 64),
        unlike('63 delays', b, 4096, 64, 63),
        unlike('65 delays', b, 4096, 64, 65),
        unlike('no delay', b, 4096, 64, 0),
        unlike('3 of each', b, 3, 3, 3),
        # before anything of the sheet
        unlike('empty, 63 delays', b'', 4096, 64, 63),
        unlike('m 65, 4095 cells', sheet(A, m=65), 4095, 64, 64),
    ]


def main(arguments):
    if arguments not in ([], ['--check']):
        print('usage: python3 tests/plan_cases.py [--check]', file=sys.stderr)
        return 2
    made = by_hand() + boundaries() + [refused(*each) for each in refused_sheets()] + lengths()
    files = [('stdin', b''.join(data for data, _ in made)),
             ('stdout', ''.join(lines for _, lines in made).encode('ascii'))]
    wrong = compare_or_write('crates/plan_cases', files, arguments == [], 'tests/plan_cases.py')
    print('%d records of plan' % len(made))
    return wrong


if __name__ == '__main__':
    sys.exit(main(sys.argv[1:]))
