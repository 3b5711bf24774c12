#!/usr/bin/env python3
# The sheets of samples/ and their texts, packed and laid out independently of the display.
#
#   python3 tests/samples.py            writes the files
#   python3 tests/samples.py --check    compares; ends with 1 if one differs

import sys

from plans import compare_or_write
from sheet_cases import A, B, sheet
from sheets import chance


def pairs(m, board):
    return ['%d-%d' % (board, leave) for leave in range(board + 1, m + 2)]


def text(m, T, departures, driving, delays, passengers):
    """A line as `desk unpack` writes it: numbers under their names, seven columns each."""
    lines = ['# trains, period', '%7d%7d' % (m, T), '# departure, driving time, source delay']
    for train, numbers in enumerate(zip(departures, driving, delays), 1):
        lines.append('%7d%7d%7d   # train %d, station %d to %d' % (*numbers, train, train, train + 1))
    lines.append('# passengers from station to station')
    rest = list(passengers)
    for board in range(1, m + 1):
        names = pairs(m, board)
        lines.append('#' + ''.join('%7s' % name for name in names)[1:])
        lines.append(''.join('%7d' % rest.pop(0) for _ in names))
    return '\n'.join(lines) + '\n'


def long_line():
    """64 trains, 10 to 20 minutes apart. Few are late; near stations have more passengers."""
    m = 64
    chance.state = 64
    driving = [chance.between(8, 16) for _ in range(m)]
    departures = [300]
    for train in range(2, m + 1):
        departures.append(departures[-1] + driving[train - 2] + chance.between(2, 6))
    delays = [chance.one_of([0, 0, 0, chance.below(6), chance.between(5, 25)]) for _ in range(m)]
    passengers = [chance.below(60 // (leave - board) + 3) for board in range(1, m + 1)
                  for leave in range(board + 1, m + 2)]
    return dict(m=m, T=30, departures=departures, driving=driving, delays=delays, passengers=passengers)


def changed(line, **fields):
    return {**line, **fields}


def good():
    yield 'A', A
    yield 'B', B
    yield 'line_64', long_line()


def damaged_numbers():
    """Line B with a number that is out of range, by the number of its refusal."""
    yield '2_trains', changed(B, m=65)
    yield '3_period', changed(B, T=1441)
    yield '5_departure', changed(B, departures=[10, 30, 2880])
    yield '6_delay', changed(B, delays=[9, 1441, 0])
    yield '7_slack', changed(B, departures=[10, 24, 55])
    yield '8_passengers', changed(B, passengers=[4, 6, 5, 10, 10001, 20])


def damaged_form():
    """Line B with nothing wrong in its numbers: what there is of it, as text and as sheet."""
    data, lines = sheet(B), text(**B).splitlines(True)
    yield '1_short', ''.join(lines[:-2]), data[:-1]
    yield '4_long', ''.join(lines) + '      7\n', data + b'\0'
    # a text has no filling bits, and a sheet no room for such a driving time
    yield '9_filling', None, data[:-1] + bytes([data[-1] | 1])
    yield '13_driving', text(**changed(B, driving=[15, 20, 1024])), None


def text_of_damaged(line):
    """The text of a line whose m may be wrong: it is laid out for the trains that are there."""
    m = len(line['departures'])
    whole = text(**changed(line, m=m))
    return whole.replace('%7d%7d\n' % (m, line['T']), '%7d%7d\n' % (line['m'], line['T']), 1)


def files():
    for name, line in good():
        yield name + '.txt', text(**line).encode('ascii')
        yield name + '.sheet', sheet(line)
    for name, line in damaged_numbers():
        yield 'damaged/%s.txt' % name, text_of_damaged(line).encode('ascii')
        yield 'damaged/%s.sheet' % name, sheet(line)
    for name, words, data in damaged_form():
        if words is not None:
            yield 'damaged/%s.txt' % name, words.encode('ascii')
        if data is not None:
            yield 'damaged/%s.sheet' % name, data


def main(arguments):
    if arguments not in ([], ['--check']):
        print('usage: python3 tests/samples.py [--check]', file=sys.stderr)
        return 2
    made = list(files())
    print('%d samples' % len(made))
    return compare_or_write('samples', made, arguments == [], 'tests/samples.py')


if __name__ == '__main__':
    sys.exit(main(sys.argv[1:]))
