#!/usr/bin/env python3
# An independent reading of document 01 ("What to make and its exact rules") in Python: its operation
# Plan, written from the paper's sentences alone. It makes the input of the program plan_stream,
# crates/plan_stream/stdin, and what that program must print for it, crates/plan_stream/stdout.
#
#   python3 tests/plans.py            writes the two files, shows the counts
#   python3 tests/plans.py --check    makes them anew in memory and compares; ends with 1 if a file
#                                     differs or is missing
#   python3 tests/plans.py --wrong    works the stream by each of several wrong rules, and shows how
#                                     many records would then print another line; ends with 1 if
#                                     some rule changes none
#
# The plan of up to 10 trains is found by trying all policies, and the working cells of up to 6 by
# their meaning; both must agree with the paper's rule for the cells. Longer lines have the rule
# alone: there the total of the decisions shown, followed directly, must be cell (1, 1).
#
# Sheets and their damage come from tests/sheets.py. Its numbers come from a generator with a fixed
# seed, so every version of Python 3 makes the same bytes.
#
# The stream is a sequence of records, all numbers high byte first:
#   'N'  u16 n, then n bytes: a name. Prints it and a space.
#   'P'  u16 a, b, c, u16 n, then n bytes: a sheet to plan, with `a` working cells, `b` decision bytes
#        and `c` delays. Before, the cell at place p (from 1) holds 1000003 p, every decision byte 7
#        and every delay 77777.
#        Prints: plan NUMBER PLACE TOTAL S1 S2 S3, the sums being of the decision bytes, the delays
#        and the cells afterwards.
#   'L'  the same; prints the lists themselves. The lines: plan NUMBER PLACE TOTAL; decisions and all
#        the bytes; delays and all of them; if accepted, row K: and the cells in use of that row, for
#        each row; changed and the number of cells that do not hold what they held before.
# A sum is each place, from 1, times what stands there, modulo 10^18. Places are at most 4,100 and cells
# at most 1,916,928,000,000, so a cell that is wrong or two that are exchanged always change it.

import os
import struct
import sys
from collections import Counter
from itertools import product

import sheets
from sheets import Line, chance, faults, filled, pairs_of, read, some_line, text_of, unpack, weighed, with_faults

KEEP, GO = 1, 0
LENGTHS = (4096, 64, 64)
MOST_TOTAL = 1916928000000


def mark(place):
    """What a working cell holds before."""
    return 1000003 * place


# ---------------------------------------------------------------------------
# The paper: the line, following a policy, the plan
# ---------------------------------------------------------------------------

class Given:
    """A line as the paper has it: stations and trains are counted from 1."""

    def __init__(self, m, T, departures, driving, delays, passengers):
        self.m, self.T = m, T
        self.trains = range(1, m + 1)
        self.source = {train: delays[train - 1] for train in self.trains}
        self.slack = {i: departures[i - 1] - departures[i - 2] - driving[i - 2] for i in range(2, m + 1)}
        pairs = [(i, j) for i in range(1, m + 1) for j in range(i + 1, m + 2)]
        self.passengers = dict(zip(pairs, passengers))
        self.sums = {}

    def persons(self, boarding, leaving):
        """Those who board at one of these stations and leave at one of those (two ranges)."""
        if (boarding, leaving) not in self.sums:
            self.sums[boarding, leaving] = sum(self.passengers[i, j] for i in boarding for j in leaving if i < j)
        return self.sums[boarding, leaving]


class Day:
    """What happens under a policy {train: KEEP or GO}: departure and arrival delays by train, and the
    stations at which the transfer is missed."""

    def __init__(self, line, policy):
        self.line, self.missed = line, set()
        self.departs, self.arrives = {1: 0}, {1: line.source[1]}
        for train in range(2, line.m + 1):
            excess = max(0, self.arrives[train - 1] - line.slack[train])
            if policy[train] == KEEP:
                self.departs[train] = excess
            else:
                self.departs[train] = 0
                if excess > 0:
                    self.missed.add(train)
            self.arrives[train] = self.departs[train] + line.source[train]

    def minutes(self, i, j):
        """What each passenger of the pair counts."""
        if any(i < station < j for station in self.missed):
            return self.line.T
        return self.arrives[j - 1]

    def total(self, first=1, last=0):
        """Of the pairs that board at `first` or later and leave at a station after `last`."""
        return sum(persons * self.minutes(i, j) for (i, j), persons in self.line.passengers.items()
                   if i >= first and j > last)


def policies(m):
    """All of them, as {train: KEEP or GO}."""
    for choices in product((KEEP, GO), repeat=m - 1):
        yield dict(zip(range(2, m + 1), choices))


def plan_by_trying(line):
    """The policy of least total, at the first difference keep; and whether another one of least total
    misses other transfers."""
    found = [(Day(line, policy), policy) for policy in policies(line.m)]
    least = min(day.total() for day, _ in found)
    best = [(day, policy) for day, policy in found if day.total() == least]
    plan = max((policy for _, policy in best), key=lambda policy: list(policy.values()))
    tie = any(day.missed != best[0][0].missed for day, _ in best)
    return plan, least, tie


def cells_by_meaning(line):
    """Cell (k, l): the least total of the pairs that board at k or later and leave after l, of all
    policies under which train k departs with delay 0 and no transfer from k+1 to l-1 is missed."""
    cells = {}
    for policy in policies(line.m):
        day = Day(line, policy)
        for k in line.trains:
            if day.departs[k] == 0:
                for l in range(k, line.m + 1):
                    if not any(k + 1 <= station <= l - 1 for station in day.missed):
                        total = day.total(k, l)
                        cells[k, l] = min(total, cells.get((k, l), total))
    return cells


# ---------------------------------------------------------------------------
# The paper: the rule for the cells, and what plan stores. A wrong rule changes
# one of the methods.
# ---------------------------------------------------------------------------

class Rule:
    """The paper's rule; each method is one of its sentences."""

    def excess(self, line, station, arrival):
        return max(0, arrival - line.slack[station])

    def late(self, line, station, arrival):
        """The departure delay of a train that keeps."""
        return self.excess(line, station, arrival)

    def run(self, line, k):
        """Excess by station and arrival delay by train, train k departing with delay 0, all later ones
        keeping."""
        excess, arrives = {k: 0}, {k: line.source[k]}
        for l in range(k + 1, line.m + 1):
            excess[l] = self.excess(line, l, arrives[l - 1])
            arrives[l] = self.late(line, l, arrives[l - 1]) + line.source[l]
        return excess, arrives

    def after(self, line, cells, k, l):
        """Cell (k, l+1)."""
        return 0 if l == line.m else cells[k, l + 1]

    def leaving(self, line, k, l):
        """Those who board at k to l and leave at l+1."""
        return line.persons(range(k, l + 1), range(l + 1, l + 2))

    def dropped(self, line, k, l):
        """Those who board at k to l-1 and leave after l."""
        return line.persons(range(k, l), range(l + 1, line.m + 2))

    def can_go(self, excess):
        return excess > 0

    def choices(self, line, cells, k, l, run):
        """What keep and go come to; go is None where it's no choice."""
        excess, arrives = run
        keep = self.leaving(line, k, l) * arrives[l] + self.after(line, cells, k, l)
        if l == k or not self.can_go(excess[l]):
            return keep, None
        return keep, line.T * self.dropped(line, k, l) + cells[l, l]

    def cells(self, line):
        cells = {}
        for k in reversed(line.trains):
            run = self.run(line, k)
            for l in range(line.m, k - 1, -1):
                keep, go = self.choices(line, cells, k, l, run)
                cells[k, l] = keep if go is None else min(keep, go)
        return cells

    def goes(self, keep, go):
        return go is not None and go < keep

    def restart(self, k, l):
        """The row to read on in once train l goes."""
        return l

    def decisions(self, line, cells):
        policy, k = {}, 1
        for l in range(2, line.m + 1):
            policy[l] = GO if self.goes(*self.choices(line, cells, k, l, self.run(line, k))) else KEEP
            if policy[l] == GO:
                k = self.restart(k, l)
        return policy

    def delays(self, line, policy):
        arrives = [line.source[1]]
        for train in range(2, line.m + 1):
            departs = self.late(line, train, arrives[-1]) if policy[train] == KEEP else 0
            arrives.append(departs + line.source[train])
        return arrives

    def place(self, m, k, l):
        """Where cell (k, l) stands, from 0."""
        return 64 * (k - 1) + (l - 1)

    def stored(self, line, before):
        """The total and the three lists of an accepted plan."""
        cells = self.cells(line)
        policy = self.decisions(line, cells)
        rest = [0] * (64 - line.m)
        after = list(before[2])
        for (k, l), value in cells.items():
            after[self.place(line.m, k, l)] = value
        return (cells[1, 1], [0] + [policy[train] for train in range(2, line.m + 1)] + rest,
                self.delays(line, policy) + rest, after)

    def verdict(self, sheet, lengths):
        """Number and place."""
        return (10, 0) if lengths != LENGTHS else read(sheet)[:2]

    def blanks(self, number, before):
        """The three lists of a refused one."""
        return before if number == 10 else ([2] * 64, [0] * 64, before[2])

    def line(self, sheet):
        if sheet not in LINES:
            m, T, departures, driving, delays, passengers = read(sheet)[2:]
            LINES[sheet] = Given(m, T, departures, driving, delays, passengers[:pairs_of(m)])
        return LINES[sheet]

    def answer(self, sheet, lengths=LENGTHS):
        """Number, place, total; then decision bytes, delays and cells as they are left."""
        a, b, c = lengths
        before = ([7] * b, [77777] * c, [mark(place) for place in range(1, a + 1)])
        number, place = self.verdict(sheet, lengths)
        if number != 0:
            return (number, place, 0) + tuple(self.blanks(number, before))
        return (0, 0) + tuple(self.stored(self.line(sheet), before))


LINES = {}      # by sheet, so that sums are made once
RULE = Rule()


def answer(sheet, lengths=LENGTHS):
    """What plan answers and leaves, with all that is known of it checked; and whether there was a tie."""
    found, tie = RULE.answer(sheet, lengths), False
    if found[0] == 0:
        line = RULE.line(sheet)
        cells = RULE.cells(line)
        policy = RULE.decisions(line, cells)
        if line.m <= 6:
            assert cells == cells_by_meaning(line)
        if line.m <= 10:
            plan, least, tie = plan_by_trying(line)
            assert plan == policy and least == cells[1, 1]
        day = Day(line, policy)
        assert day.total() == cells[1, 1] == found[2]
        assert found[4][:line.m] == [day.arrives[train] for train in line.trains]
        assert max(cells.values()) <= MOST_TOTAL
    return found, tie


# ---------------------------------------------------------------------------
# What the program prints
# ---------------------------------------------------------------------------

def sum_line(found, name='plan'):
    """Of a record 'P', or of a step of a record 'R': the answer, then a sum for each list."""
    return '%s %d %d %d' % ((name,) + found[:3]) + ''.join(' %d' % (weighed(part) % 10 ** 18) for part in found[3:])


def listed(word, numbers):
    return ' '.join([word] + ['%d' % number for number in numbers])


def answer_lines(found, m, name='plan'):
    """The answer, decisions and delays; if accepted, the rows in use."""
    decisions, delays, cells = found[3:6]
    lines = ['%s %d %d %d' % ((name,) + found[:3]), listed('decisions', decisions), listed('delays', delays)]
    if found[0] == 0:
        for k in range(1, m + 1):
            lines.append(listed('row %d:' % k, cells[65 * (k - 1):64 * (k - 1) + m]))
    return lines


def changed_line(before, after):
    """How many cells are not as they were."""
    return 'changed %d' % sum(1 for was, cell in zip(before, after) if cell != was)


def list_lines(found, m):
    """Of a record 'L'."""
    return answer_lines(found, m) + [changed_line([mark(place) for place in range(1, 4101)], found[5])]


# ---------------------------------------------------------------------------
# The numbers that the paper prints
# ---------------------------------------------------------------------------

def self_check():
    def b(T=10):
        return Given(3, T, [10, 30, 55], [15, 20, 12], [9, 3, 0], [4, 6, 5, 10, 2, 20])

    def total(line, *choices):
        return Day(line, dict(enumerate(choices, 2))).total()

    assert b().slack == {2: 5, 3: 5}
    assert total(b(), KEEP, KEEP) == 202
    assert total(b(), KEEP, GO) == 218
    assert total(b(), GO, KEEP) == total(b(), GO, GO) == 176
    assert plan_by_trying(b()) == ({2: GO, 3: KEEP}, 176, False)
    b4 = {(1, 1): 176, (1, 2): 140, (1, 3): 54, (2, 2): 30, (2, 3): 0, (3, 3): 0}
    assert cells_by_meaning(b()) == RULE.cells(b()) == b4
    assert plan_by_trying(b(12))[:2] == ({2: GO, 3: KEEP}, 198)
    assert plan_by_trying(b(13))[:2] == ({2: KEEP, 3: KEEP}, 202)
    c = Given(2, 10, [0, 0], [0, 0], [5, 0], [0, 1, 1])
    assert total(c, KEEP) == total(c, GO) == 10
    assert plan_by_trying(c) == ({2: KEEP}, 10, True)
    d = Given(2, 1, [0, 0], [0, 0], [0, 10], [0, 1, 0])
    assert plan_by_trying(d) == ({2: KEEP}, 10, False)
    sheet_a = bytes.fromhex('02 02 80 28 0F 00 E0 01 80')
    found, _ = answer(sheet_a)
    assert found[:3] == (0, 0, 21)
    assert found[3:] == ([0] * 64, [7] + [0] * 63, [21] + [mark(place) for place in range(2, 4097)])
    assert answer(sheet_a[:-1])[0] == (1, 0, 0, [2] * 64, [0] * 64, [mark(place) for place in range(1, 4097)])
    assert answer(b'', (1, 2, 3))[0] == (10, 0, 0, [7] * 2, [77777] * 3, [mark(1)])
    assert 2080 * 10000 * 64 * 1440 == MOST_TOTAL


# ---------------------------------------------------------------------------
# The records
# ---------------------------------------------------------------------------

records = []     # (kind, sheet, lengths)


def P(kind, sheet, lengths=LENGTHS):
    assert len(sheet) <= 4000 and lengths[0] <= 4100 and max(lengths[1:]) <= 70
    records.append((kind, bytes(sheet), lengths))


def timed(m, T, slacks, driving, delays, passengers, start=0):
    """A line by its slacks."""
    departures = [start]
    for at in range(m - 1):
        departures.append(departures[at] + driving[at] + slacks[at])
    line = Line(m, T, departures, driving, delays, passengers)
    assert faults(*line.lists()) == []
    return line


def small_line(m):
    """Small numbers, so that ties and excesses of 0 are frequent."""
    late, full = chance.between(1, 8), chance.between(1, 4)
    return timed(m, chance.between(1, 2 * late),
                 [chance.one_of([0, 0, 1, chance.below(late + 1)]) for _ in range(m - 1)],
                 [chance.below(6) for _ in range(m)],
                 [chance.one_of([0, chance.below(late + 1)]) for _ in range(m)],
                 [chance.one_of([0, 1, chance.below(full + 1)]) for _ in range(pairs_of(m))], chance.below(20))


def usual_line(m):
    """A period and delays of the same size as the slacks, some dozen passengers."""
    return timed(m, chance.between(5, 60), [chance.below(12) for _ in range(m - 1)],
                 [chance.between(2, 20) for _ in range(m)],
                 [chance.one_of([0, chance.below(10), chance.below(40)]) for _ in range(m)],
                 [chance.below(80) for _ in range(pairs_of(m))], chance.below(600))


def accepted():
    for m in range(1, 11):
        for _ in range(4 if m == 1 else 22):
            P('small', small_line(m).sheet())
        for _ in range(2 if m == 1 else 7):
            P('usual', usual_line(m).sheet())
    for m in list(range(11, 22)) + [24, 28, 31, 32, 33, 40, 48, 56, 62, 63, 64]:
        P('small', small_line(m).sheet())
        P('usual', usual_line(m).sheet())
    for m in (63, 64):
        P('usual', usual_line(m).sheet())

    # one number at a boundary, the others small
    for m in (1, 2, 4, 7, 64):
        line = small_line(m)
        for T in (1, 2, 1440):
            P('T', line.with_head(T=T).sheet())
        P('nobody', Line(m, line.T, *line.lists()[:3], [0] * pairs_of(m)).sheet())
        P('no delay', Line(m, line.T, *line.lists()[:2], [0] * m, line.lists()[3]).sheet())
        P('delays 1440', Line(m, line.T, *line.lists()[:2], [1440] * m, line.lists()[3]).sheet())
        P('passengers 10000', Line(m, line.T, *line.lists()[:3], [10000] * pairs_of(m)).sheet())
    # only the first train late; only one pair; an excess of 0 and of 1 by the slack
    for m in (2, 3, 5, 9):
        for slack in (6, 7, 8):
            P('first late', timed(m, 9, [slack] + [0] * (m - 2), [3] * m, [7] + [0] * (m - 1),
                                  [1] * pairs_of(m)).sheet())
        for place in range(1, pairs_of(m) + 1, 3):
            alone = [0] * pairs_of(m)
            alone[place - 1] = chance.between(1, 9)
            P('one pair', timed(m, chance.between(1, 9), [chance.below(3) for _ in range(m - 1)], [3] * m,
                                [chance.below(9) for _ in range(m)], alone).sheet())
    # ties with a policy that keeps more trains and, at the first difference, goes
    for T, delays, passengers in ((8, [6, 1, 4, 0], [5, 5, 4, 6, 0, 3, 3, 4, 2, 3]),
                                  (2, [2, 0, 1, 0], [2, 1, 5, 6, 0, 0, 1, 4, 2, 3]),
                                  (7, [5, 0, 6, 0], [2, 3, 6, 0, 1, 0, 3, 4, 4, 1])):
        P('tie', timed(4, T, [0] * 3, [5] * 4, delays, passengers).sheet())


def wrong_lengths():
    right, late = usual_line(4).sheet(), with_faults(some_line(3), [(5, 2)]).sheet()
    for which, least in enumerate(LENGTHS):
        for length in (0, 1, least - 1, least + 1, least + 4):
            for sheet in (right, late, b''):
                lengths = list(LENGTHS)
                lengths[which] = length
                P('lengths', sheet, tuple(lengths))
    for lengths in ((0, 0, 0), (64, 64, 36), (4095, 65, 64), (4096, 63, 65), (2080, 64, 64)):
        P('lengths', right, lengths)
    for damaged in (right[:-1], right + b'\0', small_line(2).with_head(T=0).sheet(),
                    small_line(2).with_head(m=65).sheet()):
        P('lengths', damaged, (4096, 64, 63))


def damaged():
    """The sheets of tests/sheets.py, valid and with every damage, also several at once."""
    sheets.make_reads()
    for _, sheet in sheets.records:
        P('sheet', sheet)
    for m in (2, 5, 8):
        line = small_line(m)
        for number, place in ((5, m), (6, 1), (6, m), (7, m), (8, 1), (8, pairs_of(m))):
            P('sheet', with_faults(line, [(number, place)]).sheet())
        P('sheet', filled(line.sheet(), m, [1]))
        P('sheet', line.sheet()[:-1])
        P('sheet', line.sheet()[:3])
        P('sheet', line.sheet()[:2])
        P('sheet', line.sheet() + b'\0')
        P('sheet', line.with_head(m=chance.one_of([0, 65])).sheet())
        P('sheet', line.with_head(T=chance.one_of([0, 1441])).sheet())


def make_records():
    chance.state = 2080     # a seed of our own
    accepted()
    wrong_lengths()
    damaged()
    chance.mix(records)


def survey(answers):
    """How often each answer and each m occurs, and what was seen on the way."""
    numbers, trains, seen = Counter(), Counter(), Counter()
    for (kind, sheet, lengths), (found, tie) in zip(records, answers):
        number = found[0]
        name = '%d' % number
        if number == 1:
            name = '1 under 3' if len(sheet) < 3 else '1 shorter'
        numbers[name] += 1
        if number == 10 and read(sheet)[0] != 0:
            seen['10 before another'] += 1
        if number == 0:
            line = RULE.line(sheet)
            day = Day(line, dict(zip(range(2, line.m + 1), found[3][1:])))
            trains[line.m] += 1
            seen['tie'] += tie
            seen['missed'] += bool(day.missed)
            seen['kept late'] += any(day.departs.values())
            seen['both'] += bool(day.missed) and any(day.departs.values())
            seen['excess 0'] += any(day.arrives[i - 1] <= line.slack[i] for i in range(2, line.m + 1))
        elif number != 10 and len(sheet) >= 3:
            seen['several at once'] += several(sheet)
    for name in ('0', '10', '1 under 3', '2', '3', '1 shorter', '4', '5', '6', '7', '8', '9'):
        assert numbers[name] >= 8, name
    for m in list(range(1, 22)) + [32, 48, 63, 64]:
        assert trains[m] >= 2, m
    for what, least in (('tie', 40), ('missed', 150), ('kept late', 150), ('both', 80), ('excess 0', 200),
                        ('several at once', 50), ('10 before another', 10)):
        assert seen[what] >= least, (what, seen[what])
    return numbers, trains, seen


def several(sheet):
    """Whether more than one check would refuse."""
    text = text_of(sheet)
    m, T = int(text[:7], 2), int(text[7:18], 2)
    count = (not 1 <= m <= 64) + (not 1 <= T <= 1440)
    if 1 <= m <= 64:
        count += len(sheet) != sheets.bytes_of(m)
        if len(sheet) >= sheets.bytes_of(m):
            lists, filling = unpack(text, m, pairs_of(m))
            count += len(faults(*lists)) + ('1' in filling[:sheets.filling_bits(m)])
    return count > 1


# ---------------------------------------------------------------------------
# Wrong rules: each must change what some record prints
# ---------------------------------------------------------------------------

class TieGoes(Rule):
    """of equal totals, go"""
    def goes(self, keep, go):
        return go is not None and go <= keep


class OfLeast(Rule):
    """Among the policies of least total, tried one by one, another one."""
    def decisions(self, line, cells):
        if line.m > 10:
            return Rule.decisions(self, line, cells)
        return max(policies(line.m), key=lambda policy: (-Day(line, policy).total(), self.rank(list(policy.values()))))


class LastFirst(OfLeast):
    """equal totals compared from the last train downward"""
    def rank(self, choices):
        return choices[::-1]


class MostKept(OfLeast):
    """of equal totals, the policy that keeps most trains"""
    def rank(self, choices):
        return [sum(choices)] + choices


class ChargedAtZero(Rule):
    """the period charged where the excess is 0"""
    def can_go(self, excess):
        return True


class SlackForgotten(Rule):
    """a kept train takes the feeder's whole delay"""
    def late(self, line, station, arrival):
        return arrival


class ChargedTwice(Rule):
    """a dropped pair charged again for the late train"""
    def leaving(self, line, k, l):
        return line.persons(range(1, l + 1), range(l + 1, l + 2))


class NextPlace(Rule):
    """the cell after the last column read from the next place"""
    def after(self, line, cells, k, l):
        return mark(64 * (k - 1) + l + 1) if l == line.m else cells[k, l + 1]


class BoardersDropped(Rule):
    """those who board at the station of a missed transfer are dropped too"""
    def dropped(self, line, k, l):
        return line.persons(range(k, l + 1), range(l + 1, line.m + 2))


class LeaversDropped(Rule):
    """those who leave at the station of a missed transfer are dropped too"""
    def dropped(self, line, k, l):
        return line.persons(range(k, l), range(l, line.m + 2))


class LastStationSpared(Rule):
    """those who leave at the last station are not dropped"""
    def dropped(self, line, k, l):
        return line.persons(range(k, l), range(l + 1, line.m + 1))


class FirstBoardersOnly(Rule):
    """a late train charged to those alone who board at the run's first station"""
    def leaving(self, line, k, l):
        return line.persons(range(k, k + 1), range(l + 1, l + 2))


class RowOne(Rule):
    """decisions read from row 1 after a missed transfer too"""
    def restart(self, k, l):
        return k


class NarrowRows(Rule):
    """rows of m cells"""
    def place(self, m, k, l):
        return m * (k - 1) + (l - 1)


class ByColumn(Rule):
    """cell (k, l) at the place of (l, k)"""
    def place(self, m, k, l):
        return 64 * (l - 1) + (k - 1)


class AllKeep(Rule):
    """keep for all lines"""
    def goes(self, keep, go):
        return False


class AllGo(Rule):
    """go at every excess"""
    def goes(self, keep, go):
        return go is not None


class ByLeavingStation(Rule):
    """passengers ordered by leaving station"""
    def line(self, sheet):
        m, T, departures, driving, delays, passengers = read(sheet)[2:]
        line = Given(m, T, departures, driving, delays, [])
        pairs = [(i, j) for j in range(2, m + 2) for i in range(1, j)]
        line.passengers = dict(zip(pairs, passengers))
        return line


class Stored(Rule):
    """Stores something else than the rule does."""

    def stored(self, line, before):
        total, decisions, delays, cells = Rule.stored(self, line, before)
        return self.other(line, before, total, list(decisions), list(delays), list(cells))


class FirstKeeps(Stored):
    """decision byte 1 is 1"""
    def other(self, line, before, total, decisions, delays, cells):
        return total, [1] + decisions[1:], delays, cells


class DecisionsBehind(Stored):
    """decision bytes after m left as they were"""
    def other(self, line, before, total, decisions, delays, cells):
        return total, decisions[:line.m] + before[0][line.m:], delays, cells


class DelaysBehind(Stored):
    """delays after m left as they were"""
    def other(self, line, before, total, decisions, delays, cells):
        return total, decisions, delays[:line.m] + before[1][line.m:], cells


class Departures(Stored):
    """departure delays in place of arrival delays"""
    def other(self, line, before, total, decisions, delays, cells):
        return total, decisions, [late - line.source.get(train, 0) for train, late in enumerate(delays, 1)], cells


class CellsCleared(Stored):
    """cells not in use set to 0"""
    def other(self, line, before, total, decisions, delays, cells):
        used = {self.place(line.m, k, l) for k in line.trains for l in range(k, line.m + 1)}
        return total, decisions, delays, [cell if at in used else 0 for at, cell in enumerate(cells)]


class NothingStored(Stored):
    """the total alone"""
    def other(self, line, before, total, decisions, delays, cells):
        return (total,) + before


class NoBlanks(Rule):
    """a refusal leaves decisions and delays as they were"""
    def blanks(self, number, before):
        return before


class BlanksAtTen(Rule):
    """refusal 10 blanks as the others do"""
    def blanks(self, number, before):
        return [2] * len(before[0]), [0] * len(before[1]), before[2]


class CellsBlank(Rule):
    """a refusal clears the cells"""
    def blanks(self, number, before):
        decisions, delays, cells = Rule.blanks(self, number, before)
        return decisions, delays, cells if number == 10 else [0] * 4096


class LengthsLast(Rule):
    """the lengths of the buffers checked after the sheet"""
    def verdict(self, sheet, lengths):
        return read(sheet)[:2] if read(sheet)[0] != 0 else Rule.verdict(self, sheet, lengths)


class FillingFirst(Rule):
    """filling bits checked before the passengers"""
    def verdict(self, sheet, lengths):
        found = Rule.verdict(self, sheet, lengths)
        return (9, 0) if found[0] == 8 and '1' in text_of(sheet)[sheets.bits_of(sheet[0] // 2):] else found


class KindByKind(Rule):
    """departures of all trains checked before the first source delay or slack"""
    def verdict(self, sheet, lengths):
        found = Rule.verdict(self, sheet, lengths)
        if found[0] in (6, 7):
            lists, _ = unpack(text_of(sheet), sheet[0] // 2, 0)
            found = ([fault for fault in faults(*lists) if fault[0] == 5] + [found])[0]
        return found


class RefusesAll(Rule):
    """every sheet refused"""
    def verdict(self, sheet, lengths):
        found = Rule.verdict(self, sheet, lengths)
        return found if found[0] != 0 else (1, 0)


WRONG = [TieGoes, LastFirst, MostKept, ChargedAtZero, SlackForgotten, ChargedTwice, NextPlace, BoardersDropped,
         LeaversDropped, LastStationSpared, FirstBoardersOnly, RowOne, NarrowRows, ByColumn, AllKeep, AllGo,
         ByLeavingStation, FirstKeeps, DecisionsBehind, DelaysBehind, Departures, CellsCleared, NothingStored,
         NoBlanks, BlanksAtTen, CellsBlank, LengthsLast, FillingFirst, KindByKind, RefusesAll]


def try_wrong(lines):
    unseen = 0
    for wrong in WRONG:
        rule = wrong()
        changed = sum(1 for (_, sheet, lengths), line in zip(records, lines)
                      if sum_line(rule.answer(sheet, lengths)) != line)
        print('%4d of %d: %s' % (changed, len(records), wrong.__doc__))
        unseen += changed == 0
    return 1 if unseen else 0


# ---------------------------------------------------------------------------
# The two files
# ---------------------------------------------------------------------------

def record(letter, sheet, lengths=LENGTHS):
    return letter + struct.pack('>HHHH', *lengths, len(sheet)) + sheet


def compare_or_write(folder, files, write, maker):
    """Writes the files of a folder, named from the root, or tells which differ; 1 if one does."""
    root = os.path.dirname(os.path.dirname(os.path.abspath(__file__)))
    wrong = 0
    for name, content in files:
        path = os.path.join(root, folder, name)
        if write:
            with open(path, 'wb') as file:
                file.write(content)
        elif not os.path.exists(path) or open(path, 'rb').read() != content:
            wrong = 1
            print('%s/%s differs from what %s makes' % (folder, name, maker))
    return wrong


def main(arguments):
    if arguments not in ([], ['--check'], ['--wrong']):
        print('usage: python3 tests/plans.py [--check | --wrong]', file=sys.stderr)
        return 2
    self_check()
    make_records()
    answers = [answer(sheet, lengths) for _, sheet, lengths in records]
    numbers, trains, seen = survey(answers)
    lines = [sum_line(found) for found, _ in answers]
    if arguments == ['--wrong']:
        return try_wrong(lines)
    files = [('stdin', b''.join(record(b'P', sheet, lengths) for _, sheet, lengths in records)),
             ('stdout', ('\n'.join(lines) + '\n').encode('ascii'))]
    assert sum(len(content) for _, content in files) < 300000
    wrong = compare_or_write('crates/plan_stream', files, arguments == [], 'tests/plans.py')
    if wrong == 0:
        print('plan %d: %s' % (len(records), ', '.join('%s x%d' % item for item in sorted(numbers.items()))))
        print('accepted by m: %s' % ', '.join('%d x%d' % item for item in sorted(trains.items())))
        print('accepted with: %s' % ', '.join('%s x%d' % (what, seen[what]) for what in (
            'tie', 'missed', 'kept late', 'both', 'excess 0')))
        print('refused with several at once x%d, 10 before another x%d'
              % (seen['several at once'], seen['10 before another']))
    return wrong


if __name__ == '__main__':
    sys.exit(main(sys.argv[1:]))
