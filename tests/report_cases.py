#!/usr/bin/env python3
# The records of the program report_cases, crates/report_cases/stdin, and what it must print for them,
# crates/report_cases/stdout: document 01's b4, b7 and b8 and its table of refusals, for report. The
# numbers below are those that document 01 prints, or follow from its sentences as a comment says; all are
# also compared with the independent reading in tests/reports.py, whose header gives the form of a record
# and of a line. Only the sums of 64 trains are taken from that reading.
#
#   python3 tests/report_cases.py            writes the two files
#   python3 tests/report_cases.py --check    compares; ends with 1 if one differs

import sys

from plan_cases import refused_sheets
from plans import GO, KEEP, MOST_TOTAL, compare_or_write, listed, mark
from reports import REPORT, Plan, Report, Set, full_lines, name_of, place, record, sum_lines, worked_through
from sheet_cases import A, B, MOST, named, sheet

MOST_NUMBER = 2 ** 64 - 1


def run(name, data, *steps):
    """A record 'F' and its lines; a step is one that sets a cell, or a plan or report with its right lines."""
    asked = [step if isinstance(step, Set) else step[0] for step in steps]
    rights = [step[1] for step in steps if not isinstance(step, Set)]
    lines = []
    for right, (step, before, left) in zip(rights, worked_through(REPORT, data, asked)):
        made = full_lines(step, before, left)
        assert right == made, (name, step, right, made)
        lines += right
    return named(name + ':') + record(b'F', data, asked), '%s: %s\n' % (name, '\n'.join(lines))


def accepted(step, after, total, decisions, delays, rows, changed):
    """The decisions are those of trains 2 to m: "decision byte 1 is 0, bytes 2 to m the plan, the rest 0;
    arrival delays, the rest 0". `after` is the sheet then, `changed` how many cells got another value."""
    rest = [0] * (64 - after[0] // 2)
    right = ['%s 0 0 %d' % (name_of(step), total), listed('decisions', [0] + decisions + rest),
             listed('delays', delays + rest)]
    right += [listed('row %d:' % k, row) for k, row in enumerate(rows, 1)]
    return step, right + [listed('sheet', after), 'changed %d' % changed]


def refused(step, after, number, where):
    """"Any other refused plan or report sets all 64 decision bytes to 2 and all delays to 0, and leaves
    sheet and cells unchanged.\""""
    return step, ['%s %d %d 0' % (name_of(step), number, where), listed('decisions', [2] * 64),
                  listed('delays', [0] * 64), listed('sheet', after), 'changed 0']


def unlike(step, after):
    """Buffers of other lengths: 10 at place 0, and "refusal 10 writes nothing but that list of three"."""
    return step, ['%s 10 0 0' % name_of(step), listed('decisions', [7] * step.lengths[1]),
                  listed('delays', [77777] * step.lengths[2]), listed('sheet', after), 'changed 0']


def b(*delays):
    """Sheet B with other source delays."""
    return sheet(B, delays=list(delays))


# Document 01's three, each with the sheet it leaves. Of its six cells a plan changes all, b7 the three
# of row 1, b8 those of rows 1 and 2.
ROWS_B4 = [[176, 140, 54], [30, 0], [0]]
ROWS_B7 = [[68, 48, 0], [30, 0], [0]]
ROWS_B8 = [[143, 123, 27], [80, 20], [0]]
B4 = accepted(Plan(), b(9, 3, 0), 176, [GO, KEEP], [9, 3, 0], ROWS_B4, 6)
B8 = accepted(Report(2, 6), b(5, 6, 0), 143, [KEEP, KEEP], [5, 6, 1], ROWS_B8, 5)


def b7(later=ROWS_B7[1:]):
    """The later rows stay as they stand."""
    return accepted(Report(1, 5), b(5, 3, 0), 68, [KEEP, KEEP], [5, 3, 0], ROWS_B7[:1] + later, 3)


def by_hand():
    def again(train):
        """The delay that the train has already: all is as b4 left it."""
        return accepted(Report(train, [9, 3, 0][train - 1]), b(9, 3, 0), 176, [GO, KEEP], [9, 3, 0], ROWS_B4, 0)

    return [
        run('b4, b7, b8', b(9, 3, 0), B4, b7(), B8),
        run('b4, each train again', b(9, 3, 0), B4, again(1), again(2), again(3)),
        # without an excess all is kept, and the pairs that leave train 2, 1-3 and 2-3, are 3 late: 16 x 3
        run('b4, train 1 at 0', b(9, 3, 0), B4,
            accepted(Report(1, 0), b(0, 3, 0), 48, [KEEP, KEEP], [0, 3, 0], [[48, 48, 0], [30, 0], [0]], 3)),
        # train 2 on time: kept, it arrives 4 late, and 16 persons leave it, go would drop 11; without any delay
        # everything is 0; back again it's b4
        run('b4, all on time, back', b(9, 3, 0), B4,
            accepted(Report(2, 0), b(9, 0, 0), 100, [KEEP, KEEP], [9, 4, 0], [[100, 64, 0], [0, 0], [0]], 4),
            accepted(Report(1, 0), b(0, 0, 0), 0, [KEEP, KEEP], [0, 0, 0], [[0, 0, 0], [0, 0], [0]], 2),
            accepted(Report(2, 3), b(0, 3, 0), 48, [KEEP, KEEP], [0, 3, 0], [[48, 48, 0], [30, 0], [0]], 3),
            accepted(Report(1, 9), b(9, 3, 0), 176, [GO, KEEP], [9, 3, 0], ROWS_B4, 3)),
        # row 2 is b8's; row 1 is 70 by go, 110 + 80 by go, 36 more; then the line of b8
        run('b4, train 2 at 6, train 1 at 5', b(9, 3, 0), B4,
            accepted(Report(2, 6), b(9, 6, 0), 226, [GO, GO], [9, 6, 0], [[226, 190, 70], [80, 20], [0]], 5),
            accepted(Report(1, 5), b(5, 6, 0), 143, [KEEP, KEEP], [5, 6, 1], ROWS_B8, 3)),
        # all rows change: 20 x 7; 22 x 7, 10 x 3 more; 70 + 140 by go, 110 + 184 by go, 36 more
        run('b4, train 3 at 7, train 3 at 0', b(9, 3, 0), B4,
            accepted(Report(3, 7), b(9, 3, 7), 330, [GO, KEEP], [9, 3, 7], [[330, 294, 210], [184, 154], [140]], 6),
            accepted(Report(3, 0), b(9, 3, 0), 176, [GO, KEEP], [9, 3, 0], ROWS_B4, 6)),
        # a delay of 1440 passes: in row 1 70 by go, 110 + 30 by go, 4 x 1440 more
        run('b4, train 1 at 1440', b(9, 3, 0), B4,
            accepted(Report(1, 1440), b(1440, 3, 0), 5900, [GO, KEEP], [1440, 3, 0],
                     [[5900, 140, 70], [30, 0], [0]], 2)),
        # row 2: 20 by go, 10 x 1440 more; row 1: 70 by go, 110 + 14420 by go, 36 more
        run('b4, train 2 at 1440', b(9, 3, 0), B4,
            accepted(Report(2, 1440), b(9, 1440, 0), 14566, [GO, GO], [9, 1440, 0],
                     [[14566, 14530, 70], [14420, 20], [0]], 5)),
        # row 3: 20 x 1440; row 2: 22 x 1440, 10 x 3 more; row 1: 70 + 28800 by go, 16 x 7 more, 36 more
        run('b4, train 3 at 1440', b(9, 3, 0), B4,
            accepted(Report(3, 1440), b(9, 3, 1440), 29018, [KEEP, GO], [9, 7, 1440],
                     [[29018, 28982, 28870], [31710, 31680], [28800]], 6)),
        # one train: its delay is its source delay, and its 3 passengers count that
        run('a, then at 8, 0 and 1440', sheet(A),
            accepted(Plan(), sheet(A), 21, [], [7], [[21]], 1),
            accepted(Report(1, 8), sheet(A, delays=[8]), 24, [], [8], [[24]], 1),
            accepted(Report(1, 0), sheet(A, delays=[0]), 0, [], [0], [[0]], 1),
            accepted(Report(1, 1440), sheet(A, delays=[1440]), 4320, [], [1440], [[4320]], 1)),
    ]


def refusals():
    between = [
        refused(Report(0, 5), b(9, 3, 0), 11, 0),
        refused(Report(4, 5), b(9, 3, 0), 11, 0),
        refused(Report(4294967295, 5), b(9, 3, 0), 11, 0),
        refused(Report(1, 1441), b(9, 3, 0), 6, 1),
        refused(Report(3, 4294967295), b(9, 3, 0), 6, 3),
        # 11 before 6
        refused(Report(0, 1441), b(9, 3, 0), 11, 0),
        refused(Report(4, 1441), b(9, 3, 0), 11, 0),
    ]
    lengths = [
        unlike(Report(1, 5, lengths), b(9, 3, 0)) for lengths in (
            (4095, 64, 64), (4097, 64, 64), (0, 64, 64), (4096, 63, 64), (4096, 65, 64), (4096, 0, 64),
            (4096, 64, 63), (4096, 64, 65), (4096, 64, 0), (3, 3, 3))]
    return [
        run('b4, refused reports, b7, b8', b(9, 3, 0), B4, *between, b7(),
            refused(Report(2, 1441), b(5, 3, 0), 6, 2), B8),
        run('b4, other lengths, b7', b(9, 3, 0), B4, *lengths, b7()),
        # 10 before 11, 6 and the sheet
        run('10 before 11 and 6', b(9, 3, 0), unlike(Report(0, 1441, (4096, 64, 63)), b(9, 3, 0))),
        run('10 before an empty sheet', b'', unlike(Report(1, 5, (4095, 64, 64)), b'')),
        run('10 before m 65', sheet(A, m=65), unlike(Report(1, 5, (4096, 65, 64)), sheet(A, m=65))),
        run('a, train 2', sheet(A), refused(Report(2, 5), sheet(A), 11, 0)),
    ] + [
        # the sheet's own, for any train and delay
        run(name, data, refused(Report(1, 5), data, number, where), refused(Report(0, 1441), data, number, where))
        for name, data, number, where in refused_sheets()]


def over():
    """12, "a cell in use in a row after the train is over 1,916,928,000,000". With train 1 at 5 no train has an
    excess, so b7's row 1 stands whatever the later rows hold."""
    made = []
    for k, l in ((2, 2), (2, 3), (3, 3)):
        later = [list(row) for row in ROWS_B7[1:]]
        later[k - 2][l - k] = MOST_TOTAL
        made.append(run('cell (%d, %d) at the limit and over' % (k, l), b(9, 3, 0), B4,
                        Set(place(k, l), MOST_TOTAL + 1), refused(Report(1, 5), b(9, 3, 0), 12, k),
                        Set(place(k, l), MOST_NUMBER), refused(Report(1, 5), b(9, 3, 0), 12, k),
                        Set(place(k, l), MOST_TOTAL), b7(later)))
    return made + [
        # the first such row, and none once a report has worked it anew; then it's b4's line again
        run('rows 2 and 3 over', b(9, 3, 0), B4, Set(place(3, 3), MOST_TOTAL + 1), Set(place(2, 3), MOST_NUMBER),
            refused(Report(1, 5), b(9, 3, 0), 12, 2), refused(Report(2, 6), b(9, 3, 0), 12, 3),
            accepted(Report(3, 0), b(9, 3, 0), 176, [GO, KEEP], [9, 3, 0], ROWS_B4, 2), b7(), B8),
        # the train's own row, an earlier one, places not in use
        run('row 1 over, train 1', b(9, 3, 0), B4, *[Set(place(1, l), MOST_NUMBER) for l in (1, 2, 3)], b7()),
        run('rows 1 and 2 over, train 2', b(9, 3, 0), B4, b7(), *[Set(place(1, l), MOST_TOTAL + 1) for l in (1, 2, 3)],
            *[Set(place(2, l), MOST_NUMBER) for l in (2, 3)], B8),
        run('places not in use over', b(9, 3, 0), B4,
            *[Set(place(k, l), MOST_NUMBER) for k, l in (
                (1, 4), (1, 64), (2, 1), (2, 4), (3, 1), (3, 2), (3, 64), (4, 4), (64, 64))], b7()),
        # the last train has no row after it, and works all rows
        run('all over, train 3', b(9, 3, 0), *[Set(place(k, l), MOST_NUMBER) for k in (1, 2, 3) for l in range(k, 4)],
            accepted(Report(3, 0), b(9, 3, 0), 176, [GO, KEEP], [9, 3, 0], ROWS_B4, 6)),
        # 11 before 6 before 12, and the sheet before all three
        run('row 3 over, and more', b(9, 3, 0), B4, Set(place(3, 3), MOST_NUMBER),
            refused(Report(0, 1441), b(9, 3, 0), 11, 0), refused(Report(1, 1441), b(9, 3, 0), 6, 1),
            refused(Report(1, 1440), b(9, 3, 0), 12, 3),
            unlike(Report(1, 1440, (4096, 64, 65)), b(9, 3, 0)), refused(Report(2, 6), b(9, 3, 0), 12, 3)),
        run('B, train 2 at 24, row 3 over', sheet(B, departures=[10, 24, 55]), Set(place(3, 3), MOST_NUMBER),
            refused(Report(1, 5), sheet(B, departures=[10, 24, 55]), 7, 2)),
    ]


def other_cells():
    """Cells that no plan left. Row 1 of B: cell (1, 3) is 54 as in b4; cell (1, 2) is the lesser of keep,
    16 x 7 + 54 = 166, and go, 10 x 11 + cell (2, 2); cell (1, 1) is 4 x 9 more."""
    marks = [[mark(66), mark(67)], [mark(131)]]

    def with_first(value, total, decisions, delays, first, changed):
        """b4, then cell (2, 2) set, then train 1 reported again."""
        return run('b4, cell (2, 2) %d' % value, b(9, 3, 0), B4, Set(place(2, 2), value),
                   accepted(Report(1, 9), b(9, 3, 0), total, decisions, delays, [first, [value, 0], [0]], changed))

    return [
        # the marks are so large that all is kept: b7's row, and the total of b1
        run('no plan, train 1 at 5', b(9, 3, 0), b7(marks)),
        run('no plan, train 1 at 9', b(9, 3, 0),
            accepted(Report(1, 9), b(9, 3, 0), 202, [KEEP, KEEP], [9, 7, 2], [[202, 166, 54]] + marks, 3)),
        # all rows are worked
        run('no plan, train 3 at 0', b(9, 3, 0),
            accepted(Report(3, 0), b(9, 3, 0), 176, [GO, KEEP], [9, 3, 0], ROWS_B4, 6)),
        run('a, no plan', sheet(A), accepted(Report(1, 7), sheet(A), 21, [], [7], [[21]], 1)),
        # the total is cell (1, 1), though go with either has 176
        with_first(0, 146, [GO, KEEP], [9, 3, 0], [146, 110, 54], 2),
        with_first(55, 201, [GO, KEEP], [9, 3, 0], [201, 165, 54], 2),
        # keep when equal
        with_first(56, 202, [KEEP, KEEP], [9, 7, 2], [202, 166, 54], 2),
        with_first(57, 202, [KEEP, KEEP], [9, 7, 2], [202, 166, 54], 2),
        # in row 2, which stays, train 3 by keep comes to 22 x 1, and by go to 20 + 2; its cell (2, 3) isn't looked at
        run('train 2 at 6, cell (3, 3) 2', b(9, 6, 0),
            accepted(Plan(), b(9, 6, 0), 226, [GO, GO], [9, 6, 0], [[226, 190, 70], [80, 20], [0]], 6),
            Set(place(3, 3), 2),
            accepted(Report(1, 9), b(9, 6, 0), 226, [GO, KEEP], [9, 6, 1], [[226, 190, 72], [80, 20], [2]], 1)),
    ]


def sums():
    """64 trains, with too many cells to print: a record 'R', its lines from the independent reading."""
    data, steps = sheet(MOST), [Plan(), Report(64, 0), Report(1, 0), Report(33, 7), Report(1, 1440), Report(65, 0)]
    lines = sum_lines(data, steps)
    assert [line.split()[1] for line in lines] == ['0', '0', '0', '0', '0', '11']
    return [(named('64 trains:') + record(b'R', data, steps), '64 trains: %s\n' % '\n'.join(lines))]


def main(arguments):
    if arguments not in ([], ['--check']):
        print('usage: python3 tests/report_cases.py [--check]', file=sys.stderr)
        return 2
    made = by_hand() + refusals() + over() + other_cells() + sums()
    files = [('stdin', b''.join(data for data, _ in made)),
             ('stdout', ''.join(lines for _, lines in made).encode('ascii'))]
    wrong = compare_or_write('crates/report_cases', files, arguments == [], 'tests/report_cases.py')
    reports = sum(line.split(': ')[-1].startswith('report ') for _, lines in made for line in lines.splitlines())
    print('%d runs, %d reports' % (len(made), reports))
    return wrong


if __name__ == '__main__':
    sys.exit(main(sys.argv[1:]))
