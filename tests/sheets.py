#!/usr/bin/env python3
# An independent reading of document 01 ("What to make and its exact rules") in
# Python: its operations Read and Write, written from the paper's sentences alone.
# It makes the input of the program sheet_stream, crates/sheet_stream/stdin, and
# what that program must print for it, crates/sheet_stream/stdout.
#
#   python3 tests/sheets.py            writes the two files, shows the counts
#   python3 tests/sheets.py --check    makes them anew in memory and compares;
#                                      ends with 1 if a file differs or is missing
#
# Only the standard library is used. The numbers come from a generator of our own
# with a fixed seed, so every version of Python 3 makes the same bytes.
#
# The stream is a sequence of records, all numbers high byte first:
#   'N'  u16 n, then n bytes: a name. Prints it and a space.
#   'R'  u16 a, b, c, d, u16 n, then n bytes: a sheet to read into lists of these
#        lengths, which hold 77 in every place before.
#        Prints: read NUMBER PLACE M T S1 S2 S3 S4, the sums being of the lists
#        afterwards; and, if accepted, what write makes of the numbers in 3907
#        bytes of 165: back NUMBER PLACE LENGTH S REST, S being the sum of the sheet
#        and REST that of what stands behind it.
#   'W'  u32 m, u32 T, u16 a, b, c, d, u16 room, then a+b+c+d numbers of u32:
#        four lists to write into `room` bytes of 165.
#        Prints: write NUMBER PLACE LENGTH S REST, as for back.
# A sum is each place, from 1, times what stands there.

import os
import struct
import sys
from collections import Counter


# ---------------------------------------------------------------------------
# The paper: the sheet, Read and Write
# ---------------------------------------------------------------------------

MOST_TRAINS = 64
MOST_PERIOD = 1440
MOST = {5: 2879, 13: 1023, 6: 1440, 8: 10000}   # by the number of the refusal
WIDTH = {5: 12, 13: 10, 6: 11, 8: 14}           # bits of that field in a sheet
NAME = {5: 'departure', 13: 'driving', 6: 'delay', 8: 'passengers'}


def field(number, width):
    """A number as '0' and '1', most significant first."""
    return format(number % 2 ** width, '0%db' % width)


def pack(m, T, departures, driving, delays, passengers):
    """The bytes of a sheet; nothing is checked, filling bits are 0."""
    text = field(m, 7) + field(T, 11)
    for departure, drive, delay in zip(departures, driving, delays):
        text += field(departure, 12) + field(drive, 10) + field(delay, 11)
    text += ''.join(field(persons, 14) for persons in passengers)
    while len(text) % 8 != 0:
        text += '0'
    return bytes(int(text[at:at + 8], 2) for at in range(0, len(text), 8))


def pairs_of(m):
    return m * (m + 1) // 2


def bits_of(m):
    return 7 * m * m + 40 * m + 18


def bytes_of(m):
    return (bits_of(m) + 7) // 8


def faults(departures, driving, delays, passengers):
    """All that is wrong with the fields, as (number, place), in the order of
    checking: 5, 13, 6, 7 together train by train, then 8 field by field."""
    found = []
    for train in range(1, len(departures) + 1):
        here = train - 1
        if departures[here] > 2879:
            found.append((5, train))
        if driving[here] > 1023:
            found.append((13, train))
        if delays[here] > 1440:
            found.append((6, train))
        if train >= 2:
            slack = departures[here] - departures[here - 1] - driving[here - 1]
            if slack < 0:
                found.append((7, train))
    for place, persons in enumerate(passengers, 1):
        if persons > 10000:
            found.append((8, place))
    return found


def unpack(text, trains, passengers):
    """The fields after m and T: so many trains, then so many passengers."""
    at = 18
    lists = ([], [], [], [])
    for _ in range(trains):
        for which, width in ((0, 12), (1, 10), (2, 11)):
            lists[which].append(int(text[at:at + width], 2))
            at += width
    for _ in range(passengers):
        lists[3].append(int(text[at:at + 14], 2))
        at += 14
    return lists, text[at:]


def text_of(sheet):
    return ''.join(format(byte, '08b') for byte in sheet)


def read(sheet):
    """(number, place, m, T, departures, driving, delays, passengers), the four
    lists of 64, 64, 64, 2080 numbers having held 77 in every place before."""

    def refused(number, place):
        return (number, place, 0, 0, [77] * 64, [77] * 64, [77] * 64, [77] * 2080)

    if len(sheet) < 3:
        return refused(1, 0)
    text = text_of(sheet)
    m = int(text[0:7], 2)
    T = int(text[7:18], 2)
    if m == 0 or m > 64:
        return refused(2, 0)
    if T == 0 or T > 1440:
        return refused(3, 0)
    if len(sheet) < bytes_of(m):
        return refused(1, 0)
    if len(sheet) > bytes_of(m):
        return refused(4, 0)
    lists, filling = unpack(text, m, pairs_of(m))
    found = faults(*lists)
    if '1' in filling:
        found.append((9, 0))
    if found:
        return refused(*found[0])
    departures, driving, delays, passengers = lists
    rest = [0] * (64 - m)
    return (0, 0, m, T, departures + rest, driving + rest, delays + rest,
            passengers + [0] * (2080 - pairs_of(m)))


def write(m, T, d, r, y, p, room):
    """(number, place, length, the buffer afterwards) for departures d, driving
    times r, delays y, passengers p and a buffer of `room` bytes of 165."""
    before = bytes([165] * room)
    if room != 3907:
        return (10, 0, 0, before)
    if m == 0 or m > 64:
        return (2, 0, 0, before)
    if T == 0 or T > 1440:
        return (3, 0, 0, before)
    if len(d) != m or len(r) != m or len(y) != m or len(p) != pairs_of(m):
        return (10, 0, 0, before)
    found = faults(d, r, y, p)
    if found:
        number, place = found[0]
        return (number, place, 0, before)
    sheet = pack(m, T, d, r, y, p)
    return (0, 0, len(sheet), sheet + before[len(sheet):])


def weighed(numbers):
    """Each place, from 1, times what stands there."""
    return sum(place * number for place, number in enumerate(numbers, 1))


# ---------------------------------------------------------------------------
# The numbers that the paper prints
# ---------------------------------------------------------------------------

def self_check():
    sheet_a = bytes.fromhex('02 02 80 28 0F 00 E0 01 80')
    assert pack(1, 10, [10], [15], [7], [3]) == sheet_a
    assert [bytes_of(1), bytes_of(3), bytes_of(64)] == [9, 26, 3907]
    assert pairs_of(64) == 2080
    for m in range(1, 65):
        pairs = [(i, j) for i in range(1, m + 1) for j in range(i + 1, m + 2)]
        assert len(pairs) == pairs_of(m)
        assert bits_of(m) == 7 + 11 + m * (12 + 10 + 11) + 14 * len(pairs)
        nothing = pack(m, 1, [0] * m, [0] * m, [0] * m, [0] * len(pairs))
        assert len(nothing) == bytes_of(m)
        assert 8 * bytes_of(m) - bits_of(m) in (2, 6, 7)

    def answer(sheet):
        found = read(sheet)
        assert [len(part) for part in found[4:]] == [64, 64, 64, 2080]
        if found[0] != 0:
            assert found[2:4] == (0, 0)
            assert all(set(part) == {77} for part in found[4:])
        return found[:2]

    # Sheet A, read and written.
    assert read(sheet_a) == (0, 0, 1, 10, [10] + [0] * 63, [15] + [0] * 63,
                             [7] + [0] * 63, [3] + [0] * 2079)
    assert write(1, 10, [10], [15], [7], [3], 3907) == (
        0, 0, 9, sheet_a + bytes([165] * 3898))

    # Line B.
    def sheet_b(second=30):
        return pack(3, 10, [10, second, 55], [15, 20, 12], [9, 3, 0],
                    [4, 6, 5, 10, 2, 20])
    assert len(sheet_b()) == 26
    assert answer(sheet_b()) == (0, 0)
    found = read(sheet_b())
    assert found[2:4] == (3, 10)
    assert found[4][:4] == [10, 30, 55, 0] and found[5][:4] == [15, 20, 12, 0]
    assert found[6][:4] == [9, 3, 0, 0]
    assert found[7][:7] == [4, 6, 5, 10, 2, 20, 0]

    # "By program".
    def a_with(m=1, T=10, delay=7, persons=3):
        return pack(m, T, [10], [15], [delay], [persons])
    assert answer(b'') == (1, 0)
    assert answer(sheet_a[:-1]) == (1, 0)
    for more in range(256):
        assert answer(sheet_a + bytes([more])) == (4, 0)
    assert answer(sheet_a[:-1] + bytes([0x81])) == (9, 0)
    assert answer(a_with(m=65)) == (2, 0)
    assert answer(a_with(T=1440)) == (0, 0)
    assert answer(a_with(T=1441)) == (3, 0)
    assert answer(a_with(delay=1440)) == (0, 0)
    assert answer(a_with(delay=1441)) == (6, 1)
    assert answer(sheet_b(second=25)) == (0, 0)
    assert answer(sheet_b(second=24)) == (7, 2)
    assert answer(a_with(persons=10000)) == (0, 0)
    assert answer(a_with(persons=10001)) == (8, 1)


# ---------------------------------------------------------------------------
# Lines to make sheets and lists of
# ---------------------------------------------------------------------------

class Chance:
    """Numbers from a fixed seed (a congruential generator of 64 bits)."""

    def __init__(self, seed):
        self.state = seed

    def below(self, n):
        self.state = (self.state * 6364136223846793005 + 1442695040888963407) % 2 ** 64
        return (self.state >> 31) % n

    def between(self, least, most):
        return least + self.below(most - least + 1)

    def one_of(self, choices):
        return choices[self.below(len(choices))]

    def mix(self, things):
        for last in range(len(things) - 1, 0, -1):
            other = self.below(last + 1)
            things[last], things[other] = things[other], things[last]


chance = Chance(1853)


class Line:
    """m, T and the four lists; by_number[5] is the departures and so on."""

    def __init__(self, m, T, departures, driving, delays, passengers):
        self.m, self.T = m, T
        self.by_number = {5: list(departures), 13: list(driving),
                          6: list(delays), 8: list(passengers)}

    def lists(self):
        return [self.by_number[number] for number in (5, 13, 6, 8)]

    def copy(self):
        return Line(self.m, self.T, *self.lists())

    def sheet(self):
        return pack(self.m, self.T, *self.lists())

    def get(self, number, place):
        return self.by_number[number][place - 1]

    def put(self, number, place, value):
        """A changed copy; places count from 1."""
        line = self.copy()
        line.by_number[number][place - 1] = value
        return line

    def with_head(self, m=None, T=None):
        line = self.copy()
        line.m = self.m if m is None else m
        line.T = self.T if T is None else T
        return line

    def count(self, number):
        return len(self.by_number[number])


def some_line(m):
    """An accepted line with departures from 20 on that leaves the last 40 free."""
    step = 2800 // m
    departures, driving = [chance.between(20, 40)], []
    for train in range(1, m + 1):
        driving.append(chance.between(1, max(1, min(1023, step // 2))))
        if train < m:
            slack = chance.one_of([0, 1, chance.below(max(1, step // 2 - 1))])
            departures.append(departures[-1] + driving[-1] + min(slack, max(0, step - driving[-1])))
    delays = [chance.one_of([0, 1440, chance.below(1441), chance.below(60)]) for _ in range(m)]
    passengers = [chance.one_of([chance.below(10001), chance.below(200)])
                  for _ in range(pairs_of(m))]
    line = Line(m, chance.between(1, 1440), departures, driving, delays, passengers)
    assert departures[-1] <= 2839 and faults(*line.lists()) == []
    return line


def least_line(m):
    return Line(m, 1, [0] * m, [0] * m, [0] * m, [0] * pairs_of(m))


def most_line(m):
    """Everything at its most; slack exactly 0 between all the trains. Only the
    last driving time can then be more than 0."""
    return Line(m, 1440, [2879] * m, [0] * (m - 1) + [1023], [1440] * m,
                [10000] * pairs_of(m))


def steep_line(m):
    """Slack exactly 0, driving times at their most for as long as they can be."""
    departures, driving = [0], []
    for _ in range(m):
        driving.append(min(1023, 2879 - departures[-1]))
        departures.append(departures[-1] + driving[-1])
    driving[-1] = 1023
    return Line(m, 1440, departures[:m], driving, [1440] * m, [10000] * pairs_of(m))


def tight_line(m):
    """Some line with slack exactly 0 everywhere."""
    line = some_line(m)
    for train in range(2, m + 1):
        line = line.put(5, train, line.get(5, train - 1) + line.get(13, train - 1))
    return line


def with_limit(line, number, place):
    """That field at its most, and still accepted."""
    line = line.put(number, place, MOST[number])
    if number == 5:      # the departures after it can be no other
        for train in range(place, line.m):
            line = line.put(13, train, 0).put(5, train + 1, 2879)
    if number == 13:     # move the trains: earlier ones down, later ones up
        for train in range(1, place + 1):
            line = line.put(5, train, 0)
            if train < place:
                line = line.put(13, train, 0)
        for train in range(place + 1, line.m + 1):
            line = line.put(5, train, 1023 + (train - place - 1) * 2)
            line = line.put(13, train, chance.below(3))
    return line


def with_slack(line, train, slack):
    """Train `train` has that slack; the later ones keep theirs."""
    moved = line.get(5, train - 1) + line.get(13, train - 1) + slack - line.get(5, train)
    for later in range(train, line.m + 1):
        line = line.put(5, later, line.get(5, later) + moved)
    return line


def too_much(number, wide):
    """A value over the limit: one that a sheet's field holds or, for write (wide),
    any of 32 bits, often one that would pass if cut to the field's width."""
    most, end = MOST[number], 2 ** WIDTH[number]
    narrow = [] if most == end - 1 else [most + 1, most + 1, end - 1, chance.between(most + 1, end - 1)]
    if not wide:
        return chance.one_of(narrow)
    return chance.one_of(narrow + [most + 1, end, end + chance.below(most + 1), 65536 + chance.below(most + 1),
                                   2 ** 31, 2 ** 31 + chance.below(most + 1), 2 ** 32 - 1])


def with_faults(line, wanted, wide=False):
    """The line with these faults [(number, place)] put in. A departure that is too
    high and a slack under 0 of the same train ask for a high departure before it."""
    line = line.copy()
    both = [train for number, train in wanted if number == 5 and (7, train) in wanted]
    for number, place in sorted(wanted):
        if number == 7 and place not in both:
            line = line.put(5, place, line.get(5, place - 1) + line.get(13, place - 1)
                            - chance.one_of([1, 1, chance.between(1, 5)]))
    for number, place in wanted:
        if number in MOST and not (number == 5 and place in both):
            line = line.put(number, place, too_much(number, wide))
    for train in both:
        assert train >= 2
        if (5, train - 1) not in wanted:
            line = line.put(5, train - 1, 2879)
        if (13, train - 1) not in wanted:
            line = line.put(13, train - 1, 1023)
        line = line.put(5, train, chance.one_of([2880, 3901, chance.between(2880, 3901)]))
    found = faults(*line.lists())
    for fault in wanted:
        assert fault in found, (wanted, found)
    return line


def filled(sheet, m, bits):
    """The sheet with these filling bits (from 1 on) set."""
    text = list(text_of(sheet))
    for bit in bits:
        text[bits_of(m) + bit - 1] = '1'
    text = ''.join(text)
    return bytes(int(text[at:at + 8], 2) for at in range(0, len(text), 8))


def filling_bits(m):
    return 8 * bytes_of(m) - bits_of(m)


def some_bytes(n):
    return bytes(chance.below(256) for _ in range(n))


def three_places(count, first=1):
    """The first, a middle and the last place."""
    return sorted({first, (first + count) // 2, count})


# ---------------------------------------------------------------------------
# The records
# ---------------------------------------------------------------------------

records = []     # ('R', sheet) or ('W', m, T, d, r, y, p, room)
kinds = Counter()


def R(kind, sheet, *expected):
    assert len(sheet) <= 4000
    if expected:
        assert read(sheet)[:2] == expected, (kind, read(sheet)[:2], expected)
    kinds['R ' + kind] += 1
    records.append(('R', bytes(sheet)))


def W(kind, line, *expected, m=None, T=None, room=3907, lists=None):
    m = line.m if m is None else m
    T = line.T if T is None else T
    d, r, y, p = line.lists() if lists is None else lists
    assert max(len(d), len(r), len(y)) <= 70 and len(p) <= 2100 and room <= 4000
    if expected:
        assert write(m, T, d, r, y, p, room)[:2] == expected, (
            kind, write(m, T, d, r, y, p, room)[:2], expected)
    kinds['W ' + kind] += 1
    records.append(('W', m, T, list(d), list(r), list(y), list(p), room))


TRAIN_FAULTS_READ = [5, 6, 7]
TRAIN_FAULTS_WRITE = [5, 13, 6, 7]


def train_pairs(numbers):
    """Two faults of trains, the answered one first, and whether at the same train:
    any number at a train and any at a later one, and any two at one train."""
    for first in numbers:
        for second in numbers:
            yield first, second, False
    for at, first in enumerate(numbers):
        for second in numbers[at + 1:]:
            yield first, second, True


def make_reads():
    # Accepted.
    for m in range(1, 13):
        for _ in range(3):
            R('valid', some_line(m).sheet(), 0, 0)
    for m in (32, 63, 64):
        R('valid', some_line(m).sheet(), 0, 0)
    for m in (1, 2, 3, 7, 12, 64):
        R('least', least_line(m).sheet(), 0, 0)
    for m in (1, 2, 3, 4, 8, 12, 32, 64):
        R('most', most_line(m).sheet(), 0, 0)
    for m in (1, 2, 3, 4, 5, 10):
        R('steep', steep_line(m).sheet(), 0, 0)
    for m in (2, 3, 6, 11):
        R('tight', tight_line(m).sheet(), 0, 0)

    # Under 3 bytes, and exactly 3.
    R('under 3', b'', 1, 0)
    for sheet in ('00', '02', '80', 'FF', '82'):
        R('under 3', bytes.fromhex(sheet), 1, 0)
    for sheet in ('0000', '0202', '8000', 'FFFF', '0280', '82FF'):
        R('under 3', bytes.fromhex(sheet), 1, 0)
    R('3 bytes', bytes.fromhex('020280'), 1, 0)
    R('3 bytes', bytes.fromhex('020000'), 3, 0)
    R('3 bytes', bytes.fromhex('02003F'), 3, 0)     # T 0, the bits after it 1
    R('3 bytes', bytes.fromhex('020040'), 1, 0)     # T 1
    R('3 bytes', bytes.fromhex('000280'), 2, 0)
    R('3 bytes', bytes.fromhex('000000'), 2, 0)
    R('3 bytes', bytes.fromhex('FFFFFF'), 2, 0)
    R('3 bytes', pack(64, 1440, [], [], [], []), 1, 0)
    R('3 bytes', pack(65, 1440, [], [], [], []), 2, 0)

    # m and T.
    for m in (0, 65, 66, 96, 127):
        for size in (1, 4):
            R('m', some_line(size).with_head(m=m).sheet(), 2, 0)
    R('m', most_line(64).with_head(m=65).sheet(), 2, 0)
    for T in (0, 1441, 1442, 2047):
        for size in (1, 2, 5):
            R('T', some_line(size).with_head(T=T).sheet(), 3, 0)
    for T in (1, 1440):
        for size in (1, 6):
            R('T', some_line(size).with_head(T=T).sheet(), 0, 0)
    for m in (0, 65, 127):
        for T in (0, 1441):
            R('m and T', some_line(3).with_head(m=m, T=T).sheet(), 2, 0)

    # Lengths.
    for m in (1, 2, 3, 5, 12):
        sheet = some_line(m).sheet()
        R('shorter', sheet[:-1], 1, 0)
        R('shorter', sheet[:chance.between(3, len(sheet) - 1)], 1, 0)
        R('shorter', some_line(m).sheet()[:3], 1, 0)
        R('longer', sheet + b'\x00', 4, 0)
        R('longer', sheet + b'\xff', 4, 0)
        R('longer', sheet + some_bytes(chance.between(2, 20)), 4, 0)
    R('shorter', most_line(64).sheet()[:-1], 1, 0)
    R('longer', most_line(64).sheet() + b'\x00', 4, 0)
    R('longer', some_line(64).sheet() + bytes(93), 4, 0)
    R('longer', some_line(1).sheet() + bytes(3898), 4, 0)
    R('longer', some_line(2).with_head(m=1).sheet(), 4, 0)
    R('shorter', some_line(2).with_head(m=3).sheet(), 1, 0)
    R('shorter', some_line(3).with_head(m=64).sheet(), 1, 0)
    for m in (1, 3):
        R('T and length', some_line(m).with_head(T=0).sheet()[:-1], 3, 0)
        R('T and length', some_line(m).with_head(T=1441).sheet() + b'\x00', 3, 0)

    # Each limit: the last accepted value, the first refused, the field's most.
    for m in (1, 3, 6):
        for number in (5, 6, 8):
            for place in three_places(some_line(m).count(number)):
                line = with_limit(some_line(m), number, place)
                R('limit', line.sheet(), 0, 0)
                for value in (MOST[number] + 1, 2 ** WIDTH[number] - 1):
                    R('limit', line.put(number, place, value).sheet(), number, place)
    R('limit', some_line(12).put(5, 12, 2880).sheet(), 5, 12)
    R('limit', some_line(12).put(6, 12, 1441).sheet(), 6, 12)
    R('limit', some_line(12).put(8, 78, 10001).sheet(), 8, 78)
    R('limit', some_line(32).put(8, 528, 10001).sheet(), 8, 528)
    R('limit', most_line(64).put(8, 2080, 10001).sheet(), 8, 2080)
    R('limit', some_line(64).put(6, 64, 1441).sheet(), 6, 64)

    # Slack.
    for m in (2, 3, 4, 7, 12):
        for train in three_places(m, 2):
            line = some_line(m)
            for slack in (-1, 0, 1):
                expected = (7, train) if slack < 0 else (0, 0)
                R('slack', with_slack(line, train, slack).sheet(), *expected)
    R('slack', Line(2, 5, [2879, 0], [1023, 0], [0, 0], [0, 0, 0]).sheet(), 7, 2)
    R('slack', Line(2, 5, [0, 0], [1, 0], [0, 0], [0, 0, 0]).sheet(), 7, 2)
    R('slack', Line(2, 5, [2879, 2879], [1, 0], [0, 0], [0, 0, 0]).sheet(), 7, 2)
    R('slack', Line(3, 5, [2879, 2878, 2879], [0, 0, 0], [0] * 3, [0] * 6).sheet(), 7, 2)
    R('slack', most_line(64).put(13, 63, 1).sheet(), 7, 64)
    R('slack', most_line(32).put(13, 15, 1).sheet(), 7, 16)

    # Filling bits: 7 for m 1, others for m 2 and 3 or so; each alone, all at once.
    seen = set()
    for m in range(1, 13):
        many = filling_bits(m)
        if many not in seen:
            seen.add(many)
            for bit in range(1, many + 1):
                R('filling', filled(some_line(m).sheet(), m, [bit]), 9, 0)
            R('filling', filled(some_line(m).sheet(), m, range(1, many + 1)), 9, 0)
    assert seen == {2, 6, 7}
    for m in (11, 12):
        R('filling', filled(some_line(m).sheet(), m, [filling_bits(m)]), 9, 0)
    R('filling', filled(most_line(64).sheet(), 64, [1]), 9, 0)

    # Two faults of trains.
    for first, second, same in train_pairs(TRAIN_FAULTS_READ):
        for apart in (1, 2, 5):
            m = chance.between(8, 10)
            one = chance.between(2, m - apart)
            other = one if same else one + apart
            if same and apart == 5:
                one = other = m
            line = with_faults(some_line(m), [(first, one), (second, other)])
            R('two trains', line.sheet(), first, one)
    # ... the first being train 1, where 7 can't be.
    for first in (5, 6):
        for second in TRAIN_FAULTS_READ:
            line = with_faults(some_line(3), [(first, 1), (second, 3)])
            R('two trains', line.sheet(), first, 1)
    for wanted in ([(5, 3), (6, 3), (7, 3)], [(6, 3), (5, 4), (7, 4)], [(7, 3), (5, 4), (6, 4)]):
        R('three', with_faults(some_line(5), wanted).sheet(), *wanted[0])

    # A fault of a field with one of the sheet as a whole.
    for m in (3, 5):
        for wanted in ([(5, 2)], [(6, 1)], [(7, 2)], [(8, 1)]):
            line = with_faults(some_line(m), wanted)
            cut = line.sheet()[:-1]
            R('shorter and field', cut, 1, 0)
            R('longer and field', line.sheet() + b'\x00', 4, 0)
            R('T and field', line.with_head(T=chance.one_of([0, 1441, 2047])).sheet(), 3, 0)
            R('m and field', line.with_head(m=chance.one_of([0, 65, 127])).sheet(), 2, 0)
            last = with_faults(some_line(m), [(n, m) for n, _ in wanted if n != 8]
                               or [(8, pairs_of(m))])
            R('field and filling', filled(last.sheet(), m, [filling_bits(m)]),
              wanted[0][0], m if wanted[0][0] != 8 else pairs_of(m))
        sheet = filled(some_line(m).sheet(), m, [1])
        R('longer and filling', sheet + b'\x00', 4, 0)
        R('T and filling', filled(some_line(m).with_head(T=0).sheet(), m, [1]), 3, 0)

    # Passengers with what comes before and after them.
    for number in TRAIN_FAULTS_READ:
        for place in (1, 10):
            line = with_faults(some_line(4), [(number, 4), (8, place)])
            R('train and passengers', line.sheet(), number, 4)
    for first, second in ((1, 2), (1, 21), (11, 12), (20, 21)):
        line = with_faults(some_line(6), [(8, second), (8, first)])
        R('two passengers', line.sheet(), 8, first)
    for place in (1, 8, 15):
        line = with_faults(some_line(5), [(8, place)])
        R('passengers and filling', filled(line.sheet(), 5, [chance.between(1, filling_bits(5))]), 8, place)
    for m in (3, 4, 9):
        wanted = [(5, m), (6, m - 1), (7, m), (8, 2), (8, pairs_of(m))]
        line = with_faults(some_line(m), wanted)
        R('all', filled(line.sheet(), m, [1, filling_bits(m)]), 6, m - 1)

    # Random bytes; a right head and length with random fields; one bit flipped.
    for _ in range(24):
        R('random', some_bytes(chance.between(0, 60)))
    for _ in range(8):
        m = chance.between(1, 3)
        R('random', pack(m, chance.between(1, 1440), [], [], [], [])[:2] + b'\x40'
          + some_bytes(bytes_of(m) - 3 + chance.one_of([-1, 0, 0, 1])))
    for _ in range(16):
        m = chance.between(1, 4)
        R('random fields', Line(m, chance.between(1, 1440),
                                [chance.below(4096) for _ in range(m)],
                                [chance.below(1024) for _ in range(m)],
                                [chance.below(2048) for _ in range(m)],
                                [chance.below(16384) for _ in range(pairs_of(m))]).sheet())
    for m in list(range(1, 13)) * 4:
        sheet = bytearray(chance.one_of([some_line, some_line, tight_line, most_line])(m).sheet())
        bit = chance.below(8 * len(sheet))
        sheet[bit // 8] ^= 128 >> bit % 8
        R('flipped', sheet)


def make_writes():
    # Accepted.
    for m in range(1, 13):
        for _ in range(2):
            W('valid', some_line(m), 0, 0)
    for m in (32, 63, 64):
        W('valid', some_line(m), 0, 0)
    for m in (1, 2, 3, 12):
        W('least', least_line(m), 0, 0)
    for m in (1, 2, 3, 4, 12, 64):
        W('most', most_line(m), 0, 0)
    for m in (1, 3, 4, 5):
        W('steep', steep_line(m), 0, 0)
    for m in (2, 7):
        W('tight', tight_line(m), 0, 0)

    # The buffer.
    for room in (0, 1, 26, 3906, 3908, 4000):
        for m in (1, 3):
            W('room', some_line(m), 10, 0, room=room)
    for room in (0, 3906, 3908):
        W('room and m', some_line(2), 10, 0, room=room, m=chance.one_of([0, 65, 2 ** 32 - 1]))
        W('room and T', some_line(2), 10, 0, room=room, T=chance.one_of([0, 1441, 2 ** 32 - 1]))
        W('room and lists', some_line(3), 10, 0, room=room, m=2)
    for wanted in (5, 13, 6, 7, 8):
        W('room and field', with_faults(some_line(3), [(wanted, 2)], True), 10, 0, room=3906)

    # m: the lists are as long as m says, or as m cut to 7, 8 or 16 bits says.
    W('m', least_line(0), 2, 0)
    W('m', some_line(3), 2, 0, m=0)
    for m in (65, 66, 127, 128, 2 ** 31, 2 ** 32 - 1):
        W('m', some_line(chance.between(1, 3)), 2, 0, m=m)
    for m in (129, 131, 257, 65537, 65539, 2 ** 31 + 2, 2 ** 32 - 128 + 3):
        W('m', some_line(m % 128), 2, 0, m=m)
    wide = some_line(64)
    W('m', wide, 2, 0, m=65, lists=[part + [part[-1]] for part in wide.lists()[:3]]
      + [wide.lists()[3][:300]])
    for m in (0, 65, 127, 2 ** 32 - 1):
        W('m and T', some_line(1), 2, 0, m=m, T=chance.one_of([0, 1441, 2 ** 32 - 1]))
    for wanted in (5, 13, 6, 7, 8):
        W('m and field', with_faults(some_line(3), [(wanted, 2)], True), 2, 0,
          m=chance.one_of([0, 65, 131]))

    # T.
    for T in (0, 1441, 1442, 2047, 2048, 2049, 2058, 4096 + 7, 65536 + 10, 2 ** 31,
              2 ** 32 - 2048 + 10, 2 ** 32 - 1):
        W('T', some_line(chance.between(1, 5)), 3, 0, T=T)
    for T in (1, 1440):
        for m in (1, 4):
            W('T', some_line(m), 0, 0, T=T)
    for wanted in (5, 13, 6, 7, 8):
        W('T and field', with_faults(some_line(3), [(wanted, 3)], True), 3, 0,
          T=chance.one_of([0, 1441, 2 ** 32 - 1]))

    # The lists' lengths.
    for m in (1, 3):
        for which in range(4):
            for change in ('less', 'more', 'none'):
                lists = some_line(m).lists()
                if change == 'less':
                    lists[which] = lists[which][:-1]
                elif change == 'more':
                    lists[which] = lists[which] + [chance.one_of([0, lists[which][-1]])]
                elif m == 3:
                    lists[which] = []
                else:
                    lists[which] = lists[which] * 3
                W('lists', some_line(m), 10, 0, lists=lists)
    W('lists', some_line(3), 10, 0, m=2)
    W('lists', some_line(3), 10, 0, m=4)
    W('lists', some_line(3), 10, 0, m=64)
    line = some_line(3)
    W('lists', line, 10, 0, lists=line.lists()[:3] + [[1] * 9])
    W('lists', line, 10, 0, lists=line.lists()[:3] + [[1] * 3])
    W('lists', line, 10, 0, lists=[part + [0] * 67 for part in line.lists()[:3]] + [[1] * 6])
    W('lists', line, 10, 0, lists=[part + [0] * 61 for part in line.lists()[:3]] + [[1] * 6])
    W('lists', line, 10, 0, lists=[line.lists()[0][:2], line.lists()[1] + [0]] + line.lists()[2:])
    W('lists', line, 10, 0, lists=[[], [], [], []])
    W('lists', line, 10, 0, lists=line.lists()[:3] + [[0] * 2100])
    # ... as read leaves them, and the last number of the longest missing.
    W('lists', line, 10, 0, lists=[part + [0] * 61 for part in line.lists()[:3]]
      + [line.lists()[3] + [0] * 2074])
    W('lists', wide, 10, 0, lists=wide.lists()[:3] + [wide.lists()[3][:-1]])
    for T in (0, 1441):
        for m in (2, 4):
            W('T and lists', line, 3, 0, T=T, m=m)
    for m in (0, 65):
        W('m and lists', line, 2, 0, m=m, lists=[[1], [1, 2], [], [4]])
    for wanted in (5, 13, 6, 7, 8):
        bad = with_faults(some_line(3), [(wanted, 2)], True)
        W('lists and field', bad, 10, 0, lists=bad.lists()[:3] + [bad.lists()[3][:-1]])
        W('lists and field', bad, 10, 0, m=4)

    # Each limit.
    for m in (1, 4):
        for number in (5, 13, 6, 8):
            for place in three_places(some_line(m).count(number)):
                line = with_limit(some_line(m), number, place)
                W('limit', line, 0, 0)
                for value in (MOST[number] + 1, chance.one_of([2 ** WIDTH[number], 2 ** 31, 2 ** 32 - 1])):
                    W('limit', line.put(number, place, value), number, place)
    W('limit', some_line(12).put(8, 78, 10001), 8, 78)
    W('limit', some_line(12).put(13, 12, 1024), 13, 12)
    W('limit', most_line(64).put(8, 2080, 10001), 8, 2080)
    # Values that would pass if cut to their field's width, or to 16 bits.
    for number in (5, 13, 6, 8):
        line = some_line(3)
        for over, place in ((2 ** WIDTH[number], 1), (2 ** 16, 2), (2 ** 31, 3),
                            (2 ** 32 - 2 ** WIDTH[number], 3)):
            W('cut', line.put(number, place, line.get(number, place) + over), number, place)

    # Slack.
    for m in (2, 4, 9):
        for train in three_places(m, 2):
            line = some_line(m)
            for slack in (-1, 0, 1):
                expected = (7, train) if slack < 0 else (0, 0)
                W('slack', with_slack(line, train, slack), *expected)
    W('slack', Line(2, 5, [2879, 0], [1023, 0], [0, 0], [0, 0, 0]), 7, 2)
    W('slack', Line(2, 5, [0, 0], [1, 0], [0, 0], [0, 0, 0]), 7, 2)
    W('slack', Line(2, 5, [2879, 2879], [1, 0], [0, 0], [0, 0, 0]), 7, 2)

    # Sums that would wrap in 32 bits.
    top = 2 ** 32 - 1
    W('wrap', Line(2, 5, [top, 0], [1, 0], [0, 0], [0, 0, 0]), 5, 1)
    W('wrap', Line(2, 5, [top, 500], [500, 0], [0, 0], [0, 0, 0]), 5, 1)
    W('wrap', Line(2, 5, [top, top], [0, 0], [0, 0], [0, 0, 0]), 5, 1)
    W('wrap', Line(2, 5, [10, 9], [top, 0], [0, 0], [0, 0, 0]), 13, 1)
    W('wrap', Line(2, 5, [1, 0], [top, 0], [0, 0], [0, 0, 0]), 13, 1)
    W('wrap', Line(2, 5, [2879, 2879], [top, top], [0, 0], [0, 0, 0]), 13, 1)
    W('wrap', Line(2, 5, [10, 20], [top - 5, 0], [0, 0], [0, 0, 0]), 13, 1)
    W('wrap', Line(3, 5, [10, top, 0], [5, 1, 0], [0] * 3, [0] * 6), 5, 2)
    W('wrap', Line(3, 5, [10, 20, 19], [5, top, 0], [0] * 3, [0] * 6), 13, 2)
    W('wrap', Line(3, 5, [10, 14, 13], [5, top, 0], [0] * 3, [0] * 6), 13, 2)   # 13 and 7 of train 2
    W('wrap', Line(3, 5, [10, 14, 13], [5, 5, top], [0] * 3, [0] * 6), 7, 2)
    W('wrap', Line(3, 5, [10, top, 13], [5, 14, 0], [1441, 0, 0], [0] * 6), 6, 1)
    W('wrap', Line(3, 5, [top, top, top], [top, top, top], [top] * 3, [top] * 6), 5, 1)
    W('wrap', Line(3, 5, [0, 0, 0], [top, top, top], [top] * 3, [top] * 6), 13, 1)
    W('wrap', Line(2, 5, [2 ** 31, 0], [2 ** 31, 0], [0, 0], [0, 0, 0]), 5, 1)
    W('wrap', Line(3, 5, [10, 20, 5], [5, 2 ** 32 - 15, 0], [0] * 3, [0] * 6), 13, 2)
    W('wrap', Line(2, 5, [0, 0], [0, 0], [top, top], [0, 0, 0]), 6, 1)
    W('wrap', Line(2, 5, [0, 0], [0, 0], [0, 0], [1, 2, top]), 8, 3)

    # Two faults of trains.
    for first, second, same in train_pairs(TRAIN_FAULTS_WRITE):
        for apart in (1, 2):
            m = chance.between(5, 7)
            one = chance.between(2, m - apart)
            if same and apart == 2:
                one = m
            other = one if same else one + apart
            line = with_faults(some_line(m), [(first, one), (second, other)], True)
            W('two trains', line, first, one)
    for first in (5, 13, 6):
        line = with_faults(some_line(3), [(first, 1), (chance.one_of([5, 13, 6, 7]), 3)], True)
        W('two trains', line, first, 1)
    for wanted in ([(5, 3), (13, 3), (6, 3), (7, 3)], [(13, 3), (6, 3), (7, 3)],
                   [(7, 3), (5, 4), (13, 4), (6, 4)]):
        W('three', with_faults(some_line(5), wanted, True), *wanted[0])

    # Passengers.
    for number in TRAIN_FAULTS_WRITE:
        for place in (1, 10):
            W('train and passengers', with_faults(some_line(4), [(number, 4), (8, place)], True), number, 4)
    for first, second in ((1, 2), (1, 10), (5, 6), (9, 10)):
        W('two passengers', with_faults(some_line(4), [(8, second), (8, first)], True), 8, first)

    # Random.
    for _ in range(8):
        m = chance.between(1, 3)
        W('random', Line(m, chance.between(1, 1440), *[[chance.below(2 ** 32) for _ in range(n)]
                                                       for n in (m, m, m, pairs_of(m))]))
    for m in list(range(1, 9)) * 3:
        line = some_line(m)
        number = chance.one_of([5, 13, 6, 8])
        place = chance.between(1, line.count(number))
        value = chance.one_of([chance.below(2 ** 32), line.get(number, place) ^ (1 << chance.below(32)),
                               line.get(number, place) ^ (1 << chance.below(10))])
        W('one changed', line.put(number, place, value))


# ---------------------------------------------------------------------------
# Does every category really occur? Seen from the records alone.
# ---------------------------------------------------------------------------

def position(place, first, last):
    if first == last:
        return 'only'
    return {first: 'first', last: 'last'}.get(place, 'middle')


def note_order(found, note):
    """found: all faults in the order of checking; the first is answered."""
    (number, place), rest = found[0], found[1:]
    for other, there in rest:
        how = ''
        if number in (5, 13, 6, 7) and other in (5, 13, 6, 7):
            how = {0: ' same train', 1: ' next train'}.get(there - place, ' later train')
        note('%s before %s%s' % (number, other, how))


def note_limits(lists, answered, note):
    """Which limits an accepted line stands at, or where and by how much a refused
    one is over."""
    number, place = answered
    values = {5: lists[0], 13: lists[1], 6: lists[2], 8: lists[3]}
    m = len(lists[0])
    slacks = {train: lists[0][train - 1] - lists[0][train - 2] - lists[1][train - 2]
              for train in range(2, m + 1)}
    if number == 0:
        for kind in (5, 13, 6, 8):
            for at, value in enumerate(values[kind], 1):
                if value == MOST[kind]:
                    note('%d at its most, %s' % (kind, position(at, 1, len(values[kind]))))
                if value == 0:
                    note('%d at its least, %s' % (kind, position(at, 1, len(values[kind]))))
        for train, slack in slacks.items():
            if slack in (0, 1):
                note('slack %d, %s' % (slack, position(train, 2, m)))
    elif number == 7:
        note('7 answered, %s' % position(place, 2, m))
        if slacks[place] == -1:
            note('slack -1, %s' % position(place, 2, m))
    elif number in values:
        where = position(place, 1, len(values[number]))
        note('%d answered, %s' % (number, where))
        if values[number][place - 1] == MOST[number] + 1:
            note('%d first refused, %s' % (number, where))


def survey_read(sheet, seen):
    def note(what):
        seen['R ' + what] += 1

    note('length %d' % len(sheet))
    number, place, m_out, T_out = read(sheet)[:4]
    if len(sheet) < 3:
        note('answer 1 under 3')
        return
    text = text_of(sheet)
    m, T = int(text[:7], 2), int(text[7:18], 2)
    found = []
    if not 1 <= m <= 64:
        found.append((2, 0))
    if not 1 <= T <= 1440:
        found.append((3, 0))
    if found[:1] != [(2, 0)]:
        if len(sheet) != bytes_of(m):
            found.append(('shorter' if len(sheet) < bytes_of(m) else 'longer', 0))
            if abs(len(sheet) - bytes_of(m)) == 1:
                note(found[-1][0] + ' by 1')
        trains = min(m, (8 * len(sheet) - 18) // 33)
        persons = max(0, min(pairs_of(m), (8 * len(sheet) - 18 - 33 * m) // 14))
        lists, rest = unpack(text, trains, persons)
        found += faults(*lists)
        if len(sheet) >= bytes_of(m) and '1' in rest[:filling_bits(m)]:
            found.append((9, 0))
            note('filling of %d' % filling_bits(m))
        if len(sheet) == bytes_of(m):
            note_limits(lists, (number, place), note)
    if number != 2:
        note('T %d, %s' % (T, 'accepted' if number == 0 else 'refused'))
    note('m %d, %s' % (m, 'accepted' if number == 0 else 'refused'))
    if found:
        first = found[0][0]
        assert ({'shorter': 1, 'longer': 4}.get(first, first), found[0][1]) == (number, place)
        assert (m_out, T_out) == (0, 0)
        note('answer %s' % {'shorter': '1 shorter', 'longer': '4'}.get(first, first))
        note_order(found, note)
    else:
        assert (number, place, m_out, T_out) == (0, 0, m, T)
        note('answer 0')


def survey_write(m, T, d, r, y, p, room, seen):
    def note(what):
        seen['W ' + what] += 1

    number, place, length, buffer = write(m, T, d, r, y, p, room)
    assert len(buffer) == room
    lists = [d, r, y, p]
    lengths = [len(part) for part in lists]
    right = lengths == [m, m, m, pairs_of(m)]
    found = []
    if room != 3907:
        found.append(('room', 0))
    if not 1 <= m <= 64:
        found.append((2, 0))
    if not 1 <= T <= 1440:
        found.append((3, 0))
    if not right:
        found.append(('lists', 0))
        for which, wanted in enumerate([m, m, m, pairs_of(m)]):
            if lengths[which] != wanted and found[0][0] == 'lists':
                others = all(lengths[k] == [m, m, m, pairs_of(m)][k] for k in range(4) if k != which)
                if others:
                    note('list %d alone %s' % (which + 1, 'less' if lengths[which] < wanted else 'more'))
    trains = min(lengths[:3])
    found += faults(d[:trains], r[:trains], y[:trains], p)
    note('m %d, %s' % (m, 'accepted' if number == 0 else 'refused'))
    note('T %d, %s' % (T, 'accepted' if number == 0 else 'refused'))
    note('room %d' % room)
    for train in range(1, trains):
        if d[train - 1] + r[train - 1] >= 2 ** 32 and right:
            note('sum past 32 bits')
            if d[train] >= (d[train - 1] + r[train - 1]) % 2 ** 32:
                note('sum past 32 bits that would pass')
        if right and d[train - 1] == 2 ** 32 - 1:
            note('departure 4294967295 in an earlier train')
        if right and r[train - 1] == 2 ** 32 - 1:
            note('driving 4294967295 in an earlier train')
    if right and number in (5, 13, 6, 8):
        value = {5: d, 13: r, 6: y, 8: p}[number][place - 1]
        if value % 2 ** WIDTH[number] <= MOST[number]:
            note('%d cut to its width would pass' % number)
        if value == 2 ** 32 - 1:
            note('%d of 4294967295' % number)
    if right and room == 3907 and 1 <= m <= 64 and 1 <= T <= 1440:
        note_limits(lists, (number, place), note)
    if found:
        first = found[0][0]
        assert ({'room': 10, 'lists': 10}.get(first, first), found[0][1]) == (number, place)
        assert length == 0 and set(buffer) <= {165}
        note('answer %s' % {'room': '10 by buffer', 'lists': '10 by lists'}.get(first, first))
        note_order(found, note)
    else:
        assert (number, place, length) == (0, 0, bytes_of(m))
        assert set(buffer[length:]) <= {165} and read(buffer[:length])[:4] == (0, 0, m, T)
        note('answer 0')


READ_ANSWERS = ['0', '1 under 3', '2', '3', '1 shorter', '4', '5', '6', '7', '8', '9']
WRITE_ANSWERS = ['0', '10 by buffer', '2', '3', '10 by lists', '5', '13', '6', '7', '8']


def survey():
    seen = Counter()
    for record in records:
        seen[record[0]] += 1
        if record[0] == 'R':
            survey_read(record[1], seen)
        else:
            survey_write(*record[1:], seen)

    def need(what, least=1):
        assert seen[what] >= least, 'the stream lacks: %s (%d)' % (what, seen[what])

    assert 400 <= seen['R'] <= 500 and 300 <= seen['W'] <= 400, (seen['R'], seen['W'])
    for answer in READ_ANSWERS:
        need('R answer ' + answer, 12)
    for answer in WRITE_ANSWERS:
        need('W answer ' + answer, 12)

    # m and T.
    for m in list(range(1, 13)) + [32, 63, 64]:
        need('R m %d, accepted' % m, 4 if m < 13 else 1)
        need('W m %d, accepted' % m, 2 if m < 13 else 1)
    for m in (0, 65, 127):
        need('R m %d, refused' % m, 3)
    for m in (0, 65, 127, 129, 2 ** 32 - 1):
        need('W m %d, refused' % m)
    for T in (0, 1441, 2047):
        need('R T %d, refused' % T, 3)
    for T in (1, 1440):
        need('R T %d, accepted' % T, 3)
        need('W T %d, accepted' % T, 3)
    for T in (0, 1441, 2047, 2048, 2 ** 32 - 1):
        need('W T %d, refused' % T)

    # Lengths, buffers, lists.
    for n in (0, 1, 2, 3, 9, 26, 3906, 3907, 3908, 4000):
        need('R length %d' % n)
    need('R shorter by 1', 6)
    need('R longer by 1', 6)
    for room in (0, 1, 3906, 3907, 3908, 4000):
        need('W room %d' % room, 2)
    for which in (1, 2, 3, 4):
        for how in ('less', 'more'):
            need('W list %d alone %s' % (which, how), 2)

    # Limits, at the first, a middle and the last place.
    for where in ('first', 'middle', 'last', 'only'):
        for number in (5, 6, 8):
            need('R %d at its most, %s' % (number, where), 2)
            need('R %d at its least, %s' % (number, where))
            need('R %d first refused, %s' % (number, where))
            need('R %d answered, %s' % (number, where), 2)
        for number in (5, 13, 6, 8):
            need('W %d at its most, %s' % (number, where), 2)
            need('W %d at its least, %s' % (number, where))
            need('W %d first refused, %s' % (number, where))
            need('W %d answered, %s' % (number, where), 2)
        need('R 13 at its most, ' + where)
        for letter in 'RW':
            need('%s 7 answered, %s' % (letter, where), 2)
            for slack in (-1, 0, 1):
                need('%s slack %d, %s' % (letter, slack, where))
    for many in (2, 6, 7):
        need('R filling of %d' % many, many + 1)

    # The order of checking.
    need('R 2 before 3', 6)
    for first in ('3', 'shorter', 'longer'):
        for number in (5, 6, 7, 8, 9):
            if (first, number) != ('shorter', 9):
                need('R %s before %d' % (first, number))
    need('R 3 before shorter', 2)
    need('R 3 before longer', 2)
    for later in (2, 3, 'lists', 5, 13, 6, 7, 8):
        need('W room before %s' % later)
    for later in (3, 'lists', 5, 13, 6, 7, 8):
        need('W 2 before %s' % later)
    for later in ('lists', 5, 13, 6, 7, 8):
        need('W 3 before %s' % later)
    for later in (5, 13, 6, 7, 8):
        need('W lists before %s' % later)
    for letter, numbers in (('R', TRAIN_FAULTS_READ), ('W', TRAIN_FAULTS_WRITE)):
        for first, second, same in train_pairs(numbers):
            for how in (['same train'] if same else ['next train', 'later train']):
                need('%s %d before %d %s' % (letter, first, second, how))
        for number in numbers:
            need('%s %d before 8' % (letter, number), 2)
        need(letter + ' 8 before 8', 4)
    for number in TRAIN_FAULTS_READ + [8]:
        need('R %d before 9' % number, 2)

    # Numbers near 2^32.
    need('W sum past 32 bits', 8)
    need('W sum past 32 bits that would pass', 5)
    need('W departure 4294967295 in an earlier train', 4)
    need('W driving 4294967295 in an earlier train', 4)
    for number in (5, 13, 6, 8):
        need('W %d cut to its width would pass' % number, 4)
        need('W %d of 4294967295' % number)

    # What can't be seen from a record itself.
    for kind in ('random', 'random fields'):
        assert kinds['R ' + kind] >= 15
    assert kinds['R flipped'] >= 40
    return seen


# ---------------------------------------------------------------------------
# The two files
# ---------------------------------------------------------------------------

def stream():
    out = b''
    for record in records:
        if record[0] == 'R':
            out += b'R' + struct.pack('>HHHHH', 64, 64, 64, 2080, len(record[1])) + record[1]
        else:
            m, T, d, r, y, p, room = record[1:]
            out += b'W' + struct.pack('>IIHHHHH', m, T, len(d), len(r), len(y), len(p), room)
            out += b''.join(struct.pack('>I', v) for v in d + r + y + p)
    return out


def answers():
    lines = []
    for record in records:
        if record[0] == 'R':
            sheet = record[1]
            number, place, m, T, d, r, y, p = read(sheet)
            lines.append('read %d %d %d %d %d %d %d %d' % (
                (number, place, m, T) + tuple(weighed(part) for part in (d, r, y, p))))
            if number == 0:
                number, place, length, buffer = write(
                    m, T, d[:m], r[:m], y[:m], p[:pairs_of(m)], 3907)
                assert (number, place, buffer[:length]) == (0, 0, sheet)
                lines.append('back %d %d %d %d %d' % (
                    number, place, length, weighed(sheet), weighed(buffer[length:])))
        else:
            number, place, length, buffer = write(*record[1:])
            lines.append('write %d %d %d %d %d' % (
                number, place, length, weighed(buffer[:length]), weighed(buffer[length:])))
    return ('\n'.join(lines) + '\n').encode('ascii')


def main(arguments):
    if arguments not in ([], ['--check']):
        print('usage: python3 tests/sheets.py [--check]', file=sys.stderr)
        return 2
    self_check()
    make_reads()
    make_writes()
    chance.mix(records)
    seen = survey()
    files = [('stdin', stream()), ('stdout', answers())]
    assert sum(len(content) for _, content in files) < 250000

    root = os.path.dirname(os.path.dirname(os.path.abspath(__file__)))
    folder = os.path.join(root, 'crates', 'sheet_stream')
    wrong = 0
    if arguments == []:
        os.makedirs(folder, exist_ok=True)
    for name, content in files:
        path = os.path.join(folder, name)
        if arguments == []:
            with open(path, 'wb') as file:
                file.write(content)
            continue
        try:
            with open(path, 'rb') as file:
                there = file.read()
        except FileNotFoundError:
            there = None
        if there != content:
            wrong = 1
            print('crates/sheet_stream/%s %s' % (name, 'is missing' if there is None else
                                                 'differs from what tests/sheets.py makes'))
    if wrong == 0:
        print('read %d: %s' % (seen['R'], ', '.join(
            '%s x%d' % (answer, seen['R answer ' + answer]) for answer in READ_ANSWERS)))
        print('write %d: %s' % (seen['W'], ', '.join(
            '%s x%d' % (answer, seen['W answer ' + answer]) for answer in WRITE_ANSWERS)))
    return wrong


if __name__ == '__main__':
    sys.exit(main(sys.argv[1:]))
