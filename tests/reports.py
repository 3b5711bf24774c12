#!/usr/bin/env python3
# An independent reading of document 01 ("What to make and its exact rules") in Python: its operation
# Report, written from the paper's sentences alone. It makes the input of the program report_stream,
# crates/report_stream/stdin, and what that program must print for it, crates/report_stream/stdout.
#
#   python3 tests/reports.py            writes the two files, shows the counts
#   python3 tests/reports.py --check    makes them anew in memory and compares; ends with 1 if a file
#                                       differs or is missing
#   python3 tests/reports.py --wrong    works the stream by each of several wrong rules, and shows how
#                                       many runs would then print another line; ends with 1 if some
#                                       rule changes none
#
# What plan and report share is tests/plans.py's. On cells that a plan left, every accepted report must
# answer and leave what a fresh plan does on the sheet as it then stands; plans.py finds that plan by
# trying all policies up to 10 trains, and the cells by their meaning up to 6. On other cells there is
# the paper's rule alone.
#
# The stream is a sequence of runs, all numbers high byte first:
#   'R'  u16 n, then n bytes: a sheet; u16 s, then s steps on that sheet and on one set of 4,100 working
#        cells, both kept from step to step. Before the first step the cell at place p (from 1) holds
#        1000003 p. Before each plan and report every decision byte is 7 and every delay 77777.
#        'C'  u16 p, u64 v: the cell at place p (from 0) is set to v; where there is none, nothing is
#             done. Prints nothing.
#        'P'  u16 a, b, c: a plan with the first `a` cells, `b` decision bytes and `c` delays.
#        'D'  u32 train, u32 delay, u16 a, b, c: a report with these buffers.
#        A plan or report prints: plan or report, then NUMBER PLACE TOTAL S1 S2 S3 S4, the sums being of
#        the decision bytes, the delays, all 4,100 cells and the sheet's bytes afterwards.
#   'F'  the same; prints the lists themselves. The lines: plan or report, NUMBER PLACE TOTAL; decisions
#        and all the bytes; delays and all of them; if accepted, row K: and the cells in use of that row,
#        for each row; sheet and its bytes; changed and the number of cells that do not hold what they
#        held before the step.
# Sums and names are those of tests/plans.py. Cells that a step sets may be over the limit; then two different
# lists can have the same sum.

import struct
import sys
from collections import Counter, namedtuple
from functools import lru_cache

import plans
from plans import (GO, KEEP, LENGTHS, LINES, MOST_TOTAL, RULE, Day, answer_lines, changed_line, compare_or_write,
                   listed, mark, small_line, sum_line, usual_line)
from sheets import chance, field, filled, pack, pairs_of, read, text_of, with_faults

CELLS = 4100
MARKS = [mark(at) for at in range(1, CELLS + 1)]
MOST_DELAY = 1440

Set = namedtuple('Set', 'place value')
Plan = namedtuple('Plan', 'lengths', defaults=(LENGTHS,))
Report = namedtuple('Report', 'train delay lengths', defaults=(LENGTHS,))
Asked = namedtuple('Asked', 'm sheet cells train delay lengths')


def place(k, l):
    """Where cell (k, l) stands, from 0."""
    return 64 * (k - 1) + (l - 1)


@lru_cache(None)
def in_use(m):
    return [(k, l) for k in range(1, m + 1) for l in range(k, m + 1)]


def used(cells, m):
    """What the cells in use hold."""
    return [cells[place(k, l)] for k, l in in_use(m)]


@lru_cache(None)
def refusal(sheet):
    """Number and place of the sheet's own refusal."""
    return read(sheet)[:2]


def line_of(sheet, like):
    """The line of a sheet; sums of passengers are made once for sheets that differ in other things."""
    if sheet not in LINES and RULE.line(sheet).passengers == RULE.line(like).passengers:
        LINES[sheet].sums = LINES[like].sums
    return RULE.line(sheet)


# ---------------------------------------------------------------------------
# The paper: what report checks, answers and stores. A wrong rule changes one
# of the methods.
# ---------------------------------------------------------------------------

class Rule:
    """The paper's rule; each method is one of its sentences."""

    # "in the order of checking"
    order = ('lengths', 'sheet', 'train', 'delay', 'cells')

    def lengths(self, asked):
        return (10, 0) if asked.lengths != LENGTHS else (0, 0)

    def sheet(self, asked):
        return refusal(asked.sheet)

    def train(self, asked):
        """"train is 0 or over m\""""
        return (11, 0) if asked.train == 0 or asked.train > asked.m else (0, 0)

    def delay(self, asked):
        """"new delay over 1,440", its place the train"""
        return (6, asked.train) if asked.delay > MOST_DELAY else (0, 0)

    def rows_tested(self, m, train):
        """"in a row after the train\""""
        return range(train + 1, m + 1)

    def columns_tested(self, m, k):
        """"a cell in use\""""
        return range(k, m + 1)

    def over(self, value):
        return value > MOST_TOTAL

    def told(self, rows, train):
        """"first such row\""""
        return rows[0]

    def cells(self, asked):
        rows = [k for k in self.rows_tested(asked.m, asked.train)
                if any(self.over(asked.cells[place(k, l)]) for l in self.columns_tested(asked.m, k))]
        return (12, self.told(rows, asked.train)) if rows else (0, 0)

    def verdict(self, asked):
        """Number and place: of the checks in their order, the first that refuses."""
        for check in self.order:
            found = getattr(self, check)(asked)
            if found[0] != 0:
                return found
        return 0, 0

    def bits(self, delay):
        """A source delay has 11."""
        return field(delay, 11)

    def train_put(self, m, train):
        return train

    def written(self, asked):
        """"that field of the sheet is replaced": m and T in 7 and 11 bits, then for each train
        departure, driving time and source delay in 12, 10 and 11."""
        text, at = text_of(asked.sheet), 18 + 33 * (self.train_put(asked.m, asked.train) - 1) + 22
        text = (text[:at] + self.bits(asked.delay) + text[at + 11:])[:len(text)]
        return bytes(int(text[start:start + 8], 2) for start in range(0, len(text), 8))

    def rows_worked(self, m, train):
        """"rows 1 to that train", the last first, since a row needs the first cells of later ones"""
        return range(train, 0, -1)

    def worked(self, line, held, train):
        """"worked anew from the later rows as they stand\""""
        cells = dict(held)
        for k in self.rows_worked(line.m, train):
            run = RULE.run(line, k)
            for l in range(line.m, k - 1, -1):
                keep, go = RULE.choices(line, cells, k, l, run)
                cells[k, l] = keep if go is None else min(keep, go)
        return cells

    def read_from(self, held, cells):
        """The cells that decisions are read from."""
        return cells

    def decisions(self, line, cells):
        """"from train 2 by comparing the two choices in the cells (keep when equal)\""""
        return RULE.decisions(line, cells)

    def delays(self, old, line, policy):
        """"by following them\""""
        return RULE.delays(line, policy)

    def total(self, line, cells, policy):
        """"the total is cell (1, 1)\""""
        return cells[1, 1]

    def stored(self, asked):
        """Total, decision bytes, delays, cells and sheet of an accepted report."""
        sheet = self.written(asked)
        old, line = RULE.line(asked.sheet), line_of(sheet, asked.sheet)
        held = {(k, l): asked.cells[place(k, l)] for k, l in in_use(line.m)}
        cells = self.worked(line, held, asked.train)
        policy = self.decisions(line, self.read_from(held, cells))
        rest, after = [0] * (64 - line.m), list(asked.cells)
        for (k, l), value in cells.items():
            after[place(k, l)] = value
        return (self.total(line, cells, policy), [0] + [policy[train] for train in range(2, line.m + 1)] + rest,
                self.delays(old, line, policy) + rest, after, sheet)

    def blanks(self, number, before):
        """Decision bytes and delays of a refused one."""
        return before if number == 10 else ([2] * 64, [0] * 64)

    def left(self, asked, number):
        """Cells and sheet of a refused one."""
        return asked.cells, asked.sheet

    def answer(self, sheet, cells, train, delay, lengths):
        """Number, place, total; then decision bytes, delays, cells and sheet as they are left."""
        asked = Asked(sheet[0] // 2 if sheet else 0, sheet, cells, train, delay, lengths)
        number, where = self.verdict(asked)
        if number != 0:
            before = [7] * lengths[1], [77777] * lengths[2]
            return (number, where, 0) + tuple(self.blanks(number, before)) + tuple(self.left(asked, number))
        return (0, 0) + tuple(self.stored(asked))

    def planned(self, found):
        """Told of each accepted plan of a run; the paper's rule doesn't need it."""


def planned(sheet, cells, lengths):
    """What plan answers and leaves, in the form of report's answer."""
    before = [7] * lengths[1], [77777] * lengths[2], cells
    number, where = RULE.verdict(sheet, lengths)
    if number != 0:
        return (number, where, 0) + tuple(RULE.blanks(number, before)) + (sheet,)
    return (0, 0) + tuple(RULE.stored(RULE.line(sheet), before)) + (sheet,)


def worked_through(rule, sheet, steps):
    """For each plan and report of a run: the step, the sheet and the cells before, what is found."""
    cells = MARKS
    for step in steps:
        before = sheet, cells
        if isinstance(step, Set):
            if step.place < CELLS:
                cells = cells[:step.place] + [step.value] + cells[step.place + 1:]
            continue
        if isinstance(step, Plan):
            found = planned(sheet, cells, step.lengths)
            if found[0] == 0:
                rule.planned(found)
        else:
            found = rule.answer(sheet, cells, *step)
        cells, sheet = found[5:]
        yield step, before, found


def name_of(step):
    return 'plan' if isinstance(step, Plan) else 'report'


def sum_lines(sheet, steps):
    """Of a record 'R'."""
    return [sum_line(found, name_of(step)) for step, _, found in worked_through(REPORT, sheet, steps)]


def full_lines(step, before, found):
    """Of one step of a record 'F'."""
    sheet = found[6]
    return answer_lines(found, sheet[0] // 2 if sheet else 0, name_of(step)) + [
        listed('sheet', sheet), changed_line(before[1], found[5])]


REPORT = Rule()


# ---------------------------------------------------------------------------
# What is known of a report beside the rule
# ---------------------------------------------------------------------------

def check_accepted(step, before, found):
    """The sheet is the line with that delay, packed; outside rows 1 to the train no cell changes."""
    sheet, cells = before
    _, _, m, T, departures, driving, delays, passengers = read(sheet)
    delays[step.train - 1] = step.delay
    assert found[6] == pack(m, T, departures[:m], driving[:m], delays[:m], passengers[:pairs_of(m)])
    worked = {place(k, l) for k, l in in_use(m) if k <= step.train}
    assert all(cells[at] == found[5][at] for at in range(CELLS) if at not in worked)
    assert max(found[5][at] for at in worked) <= MOST_TOTAL


def check_fresh(found):
    """All that a fresh plan answers and leaves on the sheet as it stands; whether there was a tie."""
    fresh, tie = plans.answer(found[6])
    assert found[:5] == fresh[:5]
    m = found[6][0] // 2
    assert used(found[5], m) == used(fresh[5], m)
    return tie


def check_refused(step, before, found):
    """The blanks, and nothing else."""
    assert found[2] == 0 and found[5:] == (before[1], before[0])
    if found[0] == 10:
        assert found[3:5] == ([7] * step.lengths[1], [77777] * step.lengths[2])
    else:
        assert found[3:5] == ([2] * 64, [0] * 64)


def check_run(sheet, steps, seen):
    """Checks one run, counting what was seen; its lines."""
    lines, last, left_by_plan = [], None, False
    for step, before, found in worked_through(REPORT, sheet, steps):
        lines.append(sum_line(found, name_of(step)))
        if isinstance(step, Report):
            seen[answer_name(before[0], found[0])] += 1
        if left_by_plan and used(before[1], sheet[0] // 2) != used(last[5], sheet[0] // 2):
            left_by_plan = False        # a cell in use was set
        if found[0] != 0:
            check_refused(step, before, found)
            assert not (left_by_plan and (found[0] == 12 or refusal(before[0]) != (0, 0)))
        elif isinstance(step, Plan):
            left_by_plan = True
        else:
            check_accepted(step, before, found)
            seen['m', sheet[0] // 2] += 1
            if left_by_plan:
                seen['on cells of a plan'] += 1
                seen['tie'] += check_fresh(found)
                seen['decisions changed'] += last[3] != found[3]
            else:
                seen['on other cells'] += 1
                line = RULE.line(found[6])
                day = Day(line, dict(zip(range(2, line.m + 1), found[3][1:])))
                seen['total not of what is shown'] += day.total() != found[2]
        if found[0] == 0:
            last = found
    return lines


# ---------------------------------------------------------------------------
# The numbers that the paper prints
# ---------------------------------------------------------------------------

def self_check():
    b = pack(3, 10, [10, 30, 55], [15, 20, 12], [9, 3, 0], [4, 6, 5, 10, 2, 20])
    steps = [Plan(), Report(1, 5), Report(2, 6)]
    b4, b7, b8 = [found for _, _, found in worked_through(REPORT, b, steps)]
    rest = [0] * 61

    def held(*rows):
        cells = list(MARKS)
        for k, row in enumerate(rows, 1):
            cells[65 * (k - 1):65 * (k - 1) + len(row)] = row
        return cells

    assert b4 == (0, 0, 176, [0, GO, KEEP] + rest, [9, 3, 0] + rest, held([176, 140, 54], [30, 0], [0]), b)
    sheet = pack(3, 10, [10, 30, 55], [15, 20, 12], [5, 3, 0], [4, 6, 5, 10, 2, 20])
    assert b7 == (0, 0, 68, [0, KEEP, KEEP] + rest, [5, 3, 0] + rest, held([68, 48, 0], [30, 0], [0]), sheet)
    sheet = pack(3, 10, [10, 30, 55], [15, 20, 12], [5, 6, 0], [4, 6, 5, 10, 2, 20])
    assert b8 == (0, 0, 143, [0, KEEP, KEEP] + rest, [5, 6, 1] + rest, held([143, 123, 27], [80, 20], [0]), sheet)


# ---------------------------------------------------------------------------
# The runs
# ---------------------------------------------------------------------------

runs = []       # (sheet, steps)


def run(sheet, *steps):
    for step in steps:
        if not isinstance(step, Set):
            assert step.lengths[0] <= CELLS and max(step.lengths[1:]) <= 70
    runs.append((bytes(sheet), steps))


def some_delay(late):
    """A source delay that passes, mostly of a size like the others'."""
    return chance.one_of([0, chance.below(late + 1), chance.below(late + 1), chance.below(2 * late + 2),
                          chance.one_of([chance.below(60), chance.between(1024, 1440), 1440])])


def too_late():
    """A source delay that doesn't; some are small once cut to 11, 16 or fewer bits."""
    return chance.one_of([1441, 1442, 2047, 2048, 2048 + chance.below(9), 65536 + chance.below(9), 2 ** 31,
                          2 ** 32 - 1])


def no_train(m):
    """A train that isn't there; some are once cut to 6, 8 or 16 bits."""
    return chance.one_of([0, 0, m + 1, m + 1, m + 2, 64 + m, 256 + m, 65536 + m, 2 ** 31 + 1, 2 ** 32 - 1])


def other_lengths():
    lengths, which = list(LENGTHS), chance.below(3)
    lengths[which] = chance.one_of([0, 1, lengths[which] - 1, lengths[which] + 1, lengths[which] + 4])
    return tuple(lengths)


def some_report(m, late):
    """Mostly an accepted one."""
    train, delay, kind = chance.between(1, m), some_delay(late), chance.below(24)
    if kind == 0:
        return Report(no_train(m), delay)
    if kind == 1:
        return Report(train, too_late())
    if kind == 2:
        return Report(no_train(m), too_late())
    if kind == 3:
        return Report(train, delay, other_lengths())
    return Report(train, delay)


def some_reports(line, count):
    late = max(max(line.lists()[2]), 3)
    return [some_report(line.m, late) for _ in range(count)]


def followed():
    """A plan, then reports on the cells that it left."""
    for m in list(range(1, 7)) * 15 + list(range(7, 11)) * 5:
        line = chance.one_of([small_line, small_line, usual_line])(m)
        run(line.sheet(), Plan(), *some_reports(line, chance.between(3, 12)))
    for m in list(range(11, 25)) + [28, 31, 32, 33, 40, 48, 56, 63, 64]:
        line = chance.one_of([small_line, usual_line])(m)
        run(line.sheet(), Plan(), *some_reports(line, chance.between(3, 5)))
    # every train, up and down, to the delay that it has and to others
    for m in (1, 2, 3, 4, 5, 7):
        line = small_line(m)
        up = [Report(train, line.get(6, train)) for train in range(1, m + 1)]
        down = [Report(train, some_delay(8)) for train in range(m, 0, -1)]
        run(line.sheet(), Plan(), *up, *down)
    # plans between, also refused ones; a place behind the lent cells and one that is nowhere are set
    for m in (1, 2, 3, 4, 6, 64):
        line = small_line(m)
        run(line.sheet(), Plan(other_lengths()), Plan(), *some_reports(line, 2), Plan(other_lengths()),
            Set(4096 + chance.below(4), 2 ** 64 - 1), Set(CELLS + chance.below(2 ** 16 - CELLS), 5),
            *some_reports(line, 2), Plan(), *some_reports(line, 2))
    # a day on which each train in turn becomes as late as can be, then is on time again
    line = small_line(5)
    run(line.sheet(), Plan(), *[Report(train, delay) for delay in (1440, 0) for train in (3, 1, 5, 2, 4)])


def like(value):
    """Another value of the same size."""
    return chance.one_of([0, value + 1, max(0, value - 1), 2 * value, chance.below(2 * value + 2),
                          chance.below(2 * value + 2)])


def other_cells(line, least=1):
    """Sets some cells in use from row `least` on to values that pass."""
    cells = RULE.cells(RULE.line(line.sheet()))
    wanted = [(k, l) for k, l in in_use(line.m) if k >= least and chance.below(3) < 2]
    return [Set(place(k, l), like(cells[k, l])) for k, l in wanted]


def on_other_cells():
    """Reports on cells that no plan left: with no plan at all, and with cells set in between."""
    for m in (1, 2, 3, 5, 8, 13, 64):
        line = usual_line(m)
        run(line.sheet(), *some_reports(line, 3))
    for m in list(range(2, 8)) * 12 + [9, 10, 12, 16, 20]:
        line = chance.one_of([small_line, usual_line])(m)
        train = chance.between(1, m - 1)
        run(line.sheet(), *[Plan()] * chance.below(2), *other_cells(line), Report(train, some_delay(9)),
            *other_cells(line, train + 1), Report(chance.between(1, train), some_delay(9)), *some_reports(line, 2))


def too_much():
    return chance.one_of([MOST_TOTAL + 1, MOST_TOTAL + 1, 2 ** 41, 2 ** 53 + 1, 2 ** 63, 2 ** 64 - 1])


def over_the_limit():
    """Cells at the limit and over it: after the train, in its row, before, and not in use."""
    for m in (2, 3, 4, 5, 6, 9, 12, 63, 64):
        for _ in range(3 if m < 10 else 1):
            line = small_line(m)
            train = chance.between(1, m - 1)
            row = chance.between(train + 1, m)
            later = chance.between(min(row + 1, m), m)
            cell = place(row, chance.between(row, m))
            # the first bad row is told until a report on it or after it works it anew
            run(line.sheet(), Plan(), Set(cell, too_much()), Set(place(later, chance.between(later, m)), too_much()),
                *[Report(at, some_delay(9)) for at in (train, row, train, later, train, m, 1)])
            # the limit itself passes
            run(line.sheet(), Plan(), Set(cell, MOST_TOTAL), Report(train, some_delay(9)),
                Set(cell, MOST_TOTAL + 1), Report(train, some_delay(9)), Report(row, some_delay(9)))
            # in the train's row and before it anything may stand
            before = chance.between(1, train)
            run(line.sheet(), Plan(), Set(place(train, chance.between(train, m)), too_much()),
                Set(place(before, chance.between(before, m)), too_much()), Report(train, some_delay(9)),
                Report(1, some_delay(9)))
        at_limit = [Set(place(k, l), MOST_TOTAL) for k, l in in_use(min(m, 6))]
        run(line.sheet(), *at_limit, Report(1, some_delay(9)), Report(m, 3))
    for m in (1, 2, 3, 5, 7, 63):
        line = small_line(m)
        left = [Set(place(k, chance.between(1, k - 1)), too_much()) for k in range(2, m + 1)]
        right = [Set(place(k, chance.between(m + 1, 64)), too_much()) for k in range(1, m + 1)]
        under = [Set(place(chance.between(m + 1, 64), chance.between(1, 64)), too_much()), Set(4096, 2 ** 64 - 1)]
        for sets in (left, right, under, left + right + under):
            run(line.sheet(), Plan(), *sets, Report(1, some_delay(9)), Report(m, some_delay(9)))
    # the last train has no row after it
    for m in (1, 2, 4, 64):
        line = small_line(m)
        sets = [Set(place(k, l), too_much()) for k, l in in_use(min(m, 5))]
        run(line.sheet(), *sets, Report(m, some_delay(9)), Report(1, 0))


def several_at_once():
    """More than one check would refuse: 10, then the sheet's, 11, 6, 12."""
    for m in (2, 3, 5):
        line = small_line(m)
        bad = Set(place(m, m), too_much())
        whole = line.sheet()
        for sheet in (whole, whole[:-1], filled(whole, m, [1]), with_faults(line, [(8, 1)]).sheet()):
            run(sheet, bad, Report(1, 1441, (4095, 64, 64)), Report(0, 1441, (4096, 63, 64)), Report(m + 1, 1441),
                Report(0, 5), Report(1, 1441), Report(m - 1, 3, (4096, 64, 65)), Report(m - 1, 3))
    for m in (2, 3, 4, 6):
        line, row = small_line(m), chance.between(2, m)
        run(line.sheet(), Plan(), Set(place(row, m), too_much()), *[Report(*asked) for asked in (
            (0, 3), (0, 1441), (row, 1441), (row - 1, 1441), (row - 1, 1440), (row, 1440), (row - 1, 2))])


def damaged():
    """Sheets that are refused, whatever is reported."""
    for _ in range(3):
        for m in (1, 2, 4):
            line, whole = small_line(m), small_line(m).sheet()
            found = [with_faults(line, [fault]).sheet()
                     for fault in ((5, 1), (5, m), (6, 1), (6, m), (8, 1), (8, pairs_of(m)))]
            found += [with_faults(line, [(7, m)]).sheet()] if m > 1 else []
            found += [filled(line.sheet(), m, [1]), whole[:-1], whole[:3], whole[:2], b'', whole + b'\0',
                      line.with_head(m=chance.one_of([0, 65, 127])).sheet(),
                      line.with_head(T=chance.one_of([0, 1441, 2047])).sheet()]
            for sheet in found:
                run(sheet, *[Plan()] * chance.below(2), Report(chance.between(1, m), some_delay(9)),
                    some_report(m, 9), Report(no_train(m), too_late()))


def make_runs():
    chance.state = 1917     # another seed than tests/plans.py's
    followed()
    on_other_cells()
    over_the_limit()
    several_at_once()
    damaged()
    chance.mix(runs)


def survey():
    """The lines of each run, all checked, and how often things were seen."""
    seen = Counter()
    lines = [check_run(sheet, steps, seen) for sheet, steps in runs]
    for what, least in list(LEAST.items()) + [(name, 8) for name in NAMES]:
        assert seen[what] >= least, (what, seen[what])
    for m in list(range(1, 25)) + [32, 48, 63, 64]:
        assert seen['m', m] >= 2, m
    return lines, seen


NAMES = ('0', '10', '1 under 3', '2', '3', '1 shorter', '4', '5', '6 of a sheet', '7', '8', '9', '11', '6 reported',
         '12')
LEAST = {'on cells of a plan': 500, 'on other cells': 200, 'decisions changed': 100, 'tie': 40,
         'total not of what is shown': 30}


def answer_name(sheet, number):
    """1 and 6 arise at two places each."""
    if number == 1:
        return '1 under 3' if len(sheet) < 3 else '1 shorter'
    if number == 6:
        return '6 reported' if refusal(sheet) == (0, 0) else '6 of a sheet'
    return '%d' % number


# ---------------------------------------------------------------------------
# Wrong rules: each must change what some run prints
# ---------------------------------------------------------------------------

class RepeatsPlan(Rule):
    """the sheet changed, and the last plan's answer repeated"""
    last = None

    def planned(self, found):
        self.last = found

    def stored(self, asked):
        if self.last is None:
            return Rule.stored(self, asked)
        sheet = self.written(asked)
        return self.last[2:5] + (asked.cells, sheet)


class OwnRowKept(Rule):
    """the train's own row kept"""
    def rows_worked(self, m, train):
        return range(train - 1, 0, -1)


class OwnRowOnly(Rule):
    """the train's own row alone worked anew"""
    def rows_worked(self, m, train):
        return range(train, train - 1, -1)


class RowsFromTrain(Rule):
    """the rows from the train on worked anew, and not those before"""
    def rows_worked(self, m, train):
        return range(m, train - 1, -1)


class AllRows(Rule):
    """all rows worked anew, as by a fresh plan"""
    def rows_worked(self, m, train):
        return range(m, 0, -1)


class RowOneFirst(Rule):
    """rows worked from the first to the train's"""
    def rows_worked(self, m, train):
        return range(1, train + 1)


class RowsNotStored(Rule):
    """the rows worked, and not stored"""
    def stored(self, asked):
        total, decisions, delays, _, sheet = Rule.stored(self, asked)
        return total, decisions, delays, asked.cells, sheet


class OwnRowTested(Rule):
    """12 for the train's own row too"""
    def rows_tested(self, m, train):
        return range(train, m + 1)


class AllRowsTested(Rule):
    """12 for any row"""
    def rows_tested(self, m, train):
        return range(1, m + 1)


class NextRowSpared(Rule):
    """no 12 for the row right after the train"""
    def rows_tested(self, m, train):
        return range(train + 2, m + 1)


class NothingTested(Rule):
    """no 12 at all"""
    def rows_tested(self, m, train):
        return range(0)


class NotInUse(Rule):
    """12 for cells right of the last column too"""
    def columns_tested(self, m, k):
        return range(k, 65)


class LeftOfUse(Rule):
    """12 for cells left of the first column in use too"""
    def columns_tested(self, m, k):
        return range(1, m + 1)


class RowsBehind(Rule):
    """12 for rows after m too"""
    def rows_tested(self, m, train):
        return range(train + 1, 65)

    def columns_tested(self, m, k):
        return range(k, m + 1) if k <= m else range(1, 65)


class FirstCells(Rule):
    """12 for the first cell of a row alone"""
    def columns_tested(self, m, k):
        return range(k, k + 1)


class AtTheLimit(Rule):
    """12 at the limit itself"""
    def over(self, value):
        return value >= MOST_TOTAL


class OneOver(Rule):
    """no 12 at one over the limit"""
    def over(self, value):
        return value > MOST_TOTAL + 1


class LastRowTold(Rule):
    """the last bad row told"""
    def told(self, rows, train):
        return rows[-1]


class PlaceFromTrain(Rule):
    """the place of 12 counted from the train"""
    def told(self, rows, train):
        return rows[0] - train


class TrainTold(Rule):
    """the place of 12 is the train"""
    def told(self, rows, train):
        return train


class SheetBeforeTwelve(Rule):
    """the sheet written before 12 is tested"""
    def left(self, asked, number):
        return asked.cells, self.written(asked) if number == 12 else asked.sheet


class RowsBeforeTwelve(Rule):
    """the rows worked before 12 is tested"""
    def left(self, asked, number):
        return Rule.stored(self, asked)[3] if number == 12 else asked.cells, asked.sheet


class SheetThoughRefused(Rule):
    """the sheet written though the train or the delay is refused"""
    def left(self, asked, number):
        reported = number in (6, 11) and refusal(asked.sheet) == (0, 0)
        return asked.cells, self.written(asked) if reported else asked.sheet


class NextField(Rule):
    """the delay put at the next train's field"""
    def train_put(self, m, train):
        return min(train + 1, m)


class TenBits(Rule):
    """only 10 bits of the delay put"""
    def bits(self, delay):
        return field(delay % 1024, 11)


class SheetKept(Rule):
    """the sheet not written"""
    def stored(self, asked):
        return Rule.stored(self, asked)[:4] + (asked.sheet,)


class OldSheet(Rule):
    """the sheet written, and the rest worked by the old one"""
    def stored(self, asked):
        line = RULE.line(asked.sheet)
        return Rule.stored(self, asked._replace(delay=line.source[asked.train]))[:4] + (self.written(asked),)


class OldDelays(Rule):
    """delays by the source delay before the report"""
    def delays(self, old, line, policy):
        return RULE.delays(old, policy)


class SixBeforeEleven(Rule):
    """the delay checked before the train"""
    order = ('lengths', 'sheet', 'delay', 'train', 'cells')


class TwelveBeforeSix(Rule):
    """the cells checked before the delay"""
    order = ('lengths', 'sheet', 'train', 'cells', 'delay')


class ElevenBeforeSheet(Rule):
    """the train checked before the sheet"""
    order = ('lengths', 'train', 'sheet', 'delay', 'cells')


class LengthsLast(Rule):
    """the lengths of the buffers checked last"""
    order = ('sheet', 'train', 'delay', 'cells', 'lengths')


class SixAtZero(Rule):
    """the place of a reported 6 is 0"""
    def delay(self, asked):
        return Rule.delay(self, asked)[0], 0


class ElevenAtTrain(Rule):
    """the place of 11 is the train"""
    def train(self, asked):
        number = Rule.train(self, asked)[0]
        return number, asked.train if number else 0


class LastTrainRefused(Rule):
    """11 for the last train too"""
    def train(self, asked):
        return (11, 0) if asked.train >= asked.m else Rule.train(self, asked)


class MostDelayRefused(Rule):
    """6 for a delay of 1,440 too"""
    def delay(self, asked):
        return (6, asked.train) if asked.delay >= MOST_DELAY else (0, 0)


class DelayCut(Rule):
    """the delay cut to 16 bits"""
    def answer(self, sheet, cells, train, delay, lengths):
        return Rule.answer(self, sheet, cells, train, delay % 65536, lengths)


class TrainCut(Rule):
    """the train cut to 8 bits"""
    def answer(self, sheet, cells, train, delay, lengths):
        return Rule.answer(self, sheet, cells, train % 256, delay, lengths)


class LastInstead(Rule):
    """a train over m taken for the last one"""
    def answer(self, sheet, cells, train, delay, lengths):
        last = sheet[0] // 2 if refusal(sheet) == (0, 0) else train
        return Rule.answer(self, sheet, cells, min(train, last), delay, lengths)


class ShownTotal(Rule):
    """the total of the policy shown, in place of cell (1, 1)"""
    def total(self, line, cells, policy):
        return Day(line, policy).total()


class CellsBefore(Rule):
    """decisions read from the cells as they were before the rows were worked"""
    def read_from(self, held, cells):
        return held


class ByTheCell(Rule):
    """keep where the cell itself is not under keep, whatever go comes to"""
    def decisions(self, line, cells):
        policy, k = {}, 1
        for l in range(2, line.m + 1):
            keep, go = RULE.choices(line, cells, k, l, RULE.run(line, k))
            policy[l] = KEEP if go is None or keep <= cells[k, l] else GO
            k = l if policy[l] == GO else k
        return policy


class TieGoes(Rule):
    """of equal choices, go"""
    def decisions(self, line, cells):
        return plans.TieGoes().decisions(line, cells)


class NotBlanked(Rule):
    """a refusal leaves decisions and delays as they were"""
    def blanks(self, number, before):
        return before


class BlanksAtTen(Rule):
    """refusal 10 blanks as the others do"""
    def blanks(self, number, before):
        return [2] * len(before[0]), [0] * len(before[1])


WRONG = [RepeatsPlan, OwnRowKept, OwnRowOnly, RowsFromTrain, AllRows, RowOneFirst, RowsNotStored, OwnRowTested,
         AllRowsTested, NextRowSpared, NothingTested, NotInUse, LeftOfUse, RowsBehind, FirstCells, AtTheLimit,
         OneOver, LastRowTold, PlaceFromTrain, TrainTold, SheetBeforeTwelve, RowsBeforeTwelve, SheetThoughRefused,
         NextField, TenBits, SheetKept, OldSheet, OldDelays, SixBeforeEleven, TwelveBeforeSix, ElevenBeforeSheet,
         LengthsLast, SixAtZero, ElevenAtTrain, LastTrainRefused, MostDelayRefused, DelayCut, TrainCut, LastInstead,
         ShownTotal, CellsBefore, ByTheCell, TieGoes, NotBlanked, BlanksAtTen]


def differs(rule, sheet, steps, right):
    """Whether some line of the run is another one. The same results print the same line."""
    return any(found != there and sum_line(found, name_of(step)) != sum_line(there, name_of(step))
               for (step, _, found), there in zip(worked_through(rule, sheet, steps), right))


def try_wrong():
    right = [[found for _, _, found in worked_through(REPORT, sheet, steps)] for sheet, steps in runs]
    unseen = 0
    for wrong in WRONG:
        changed = sum(differs(wrong(), *each, there) for each, there in zip(runs, right))
        print('%4d of %d: %s' % (changed, len(runs), wrong.__doc__))
        unseen += changed == 0
    return 1 if unseen else 0


# ---------------------------------------------------------------------------
# The two files
# ---------------------------------------------------------------------------

def step_bytes(step):
    if isinstance(step, Set):
        return b'C' + struct.pack('>HQ', *step)
    if isinstance(step, Plan):
        return b'P' + struct.pack('>HHH', *step.lengths)
    return b'D' + struct.pack('>IIHHH', step.train, step.delay, *step.lengths)


def record(letter, sheet, steps):
    return (letter + struct.pack('>H', len(sheet)) + sheet + struct.pack('>H', len(steps))
            + b''.join(step_bytes(step) for step in steps))


def main(arguments):
    if arguments not in ([], ['--check'], ['--wrong']):
        print('usage: python3 tests/reports.py [--check | --wrong]', file=sys.stderr)
        return 2
    self_check()
    make_runs()
    if arguments == ['--wrong']:
        return try_wrong()
    lines, seen = survey()
    files = [('stdin', b''.join(record(b'R', sheet, steps) for sheet, steps in runs)),
             ('stdout', ''.join('%s\n' % line for each in lines for line in each).encode('ascii'))]
    assert sum(len(content) for _, content in files) < 400000
    wrong = compare_or_write('crates/report_stream', files, arguments == [], 'tests/reports.py')
    if wrong == 0:
        print('runs %d, reports %d: %s' % (len(runs), sum(seen[name] for name in NAMES),
                                           ', '.join('%s x%d' % (name, seen[name]) for name in NAMES)))
        print('accepted by m: %s' % ', '.join('%d x%d' % (m, seen['m', m]) for m in range(1, 65) if seen['m', m]))
        print('accepted: %s' % ', '.join('%s x%d' % (what, seen[what]) for what in LEAST))
    return wrong


if __name__ == '__main__':
    sys.exit(main(sys.argv[1:]))
