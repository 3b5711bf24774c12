#!/usr/bin/env python3
# The board of the display, written independently of it: what `desk board` must show for a sheet and lines of
# commands. The plans are those of the independent reading in tests/plans.py, made anew for every frame from the delays
# that this frame shows; so a plan beside delays that are not its own would be a difference.
#
#   python3 tests/boards.py             writes tests/display/NAME.out for the boards that are not written by hand
#   python3 tests/boards.py --check     compares, those written by hand too; ends with 1 if one differs
#   python3 tests/boards.py --run COUNT PROGRAM ..
#                                       runs the program on COUNT boards by chance; ends with 1 at a difference

import os
import subprocess
import sys
import tempfile

from plans import KEEP, Day, Given, answer, compare_or_write, small_line, usual_line
from sheet_cases import MOST, sheet
from sheets import chance, filled, pack, pairs_of, read, some_bytes

TITLES = 'train  departs  reported  decision  departs late  arrives late'
REASONS = {
    1: 'the sheet is too short',
    2: 'a line has 1 to 64 trains',
    3: 'a period is 1 to 1440 minutes',
    4: 'the sheet is too long',
    5: 'train {place} departs after minute 2879',
    6: 'train {place} has a delay over 1440 minutes',
    7: 'train {place} departs before its feeder arrives',
    8: 'over 10000 passengers from station {pair}',
    9: 'a bit behind the last field is not 0',
    11: 'the line has no such train',
}


def refused(number, place, m):
    pairs = ['%d to %d' % (i, j) for i in range(1, m + 1) for j in range(i + 1, m + 2)]
    pair = pairs[place - 1] if number == 8 else ''
    return 'refused %d, place %d: %s' % (number, place, REASONS[number].format(place=place, pair=pair))


class Board:
    """A sheet on the board, and the frames so far."""

    def __init__(self, title, data):
        self.title, self.data, self.frames = title, data, ''
        self.number, self.place, self.m, self.T, *lists = read(data)
        self.departures, self.driving, self.delays, self.passengers = lists
        self.taken = self.refused = self.malformed = 0
        self.plan('plan')

    def sheet(self):
        m = self.m
        return pack(m, self.T, self.departures[:m], self.driving[:m], self.delays[:m], self.passengers[:pairs_of(m)])

    # What a command does.

    def plan(self, command):
        if self.number != 0:
            self.show(command, refused(self.number, self.place, self.data[0] // 2 if self.data else 0), False)
        else:
            self.show(command, 'accepted', True)

    def report(self, command, train, delay):
        number, place = self.number, self.place
        if number == 0 and not 1 <= train <= self.m:
            number = 11
        elif number == 0 and delay > 1440:
            number, place = 6, train
        if number != 0:
            self.refused += 1
            self.show(command, refused(number, place, self.data[0] // 2 if self.data else 0), False)
            return
        self.delays[train - 1] = delay
        self.taken += 1
        self.show(command, 'accepted', True)

    def not_understood(self, command, fault):
        self.malformed += 1
        self.show(command, 'not understood: ' + fault, False)

    def line(self, text):
        """A whole line, as bytes without its end; True if it closes the board."""
        if len(text) > 1024:
            self.not_understood(text[:1025], 'the line is over 1024 bytes')
            return False
        text = text[:-1] if text.endswith(b'\r') else text
        words = [word for word in text.replace(b'\t', b' ').split(b' ') if word]
        if words == [b'quit']:
            return True
        if words == [b'plan']:
            self.plan(text)
        elif not words:
            self.not_understood(text, 'the line is empty')
        elif len(words) == 1:
            self.not_understood(text, 'a command is TRAIN DELAY, plan or quit')
        elif len(words) > 2:
            self.not_understood(text, 'a command has at most two words')
        elif not all(set(word) <= set(b'0123456789') for word in words):
            self.not_understood(text, 'train and delay are whole numbers, as 1 5')
        elif max(map(int, words)) > 2 ** 32 - 1:
            self.not_understood(text, 'a number is over 4294967295')
        else:
            self.report(text, *map(int, words))
        return False

    def run(self, commands):
        """All that is printed for the bytes of standard input, and the status."""
        *lines, rest = commands.split(b'\n')
        for text in lines:
            if self.line(text):
                return self.frames + '%s\nclosed by quit; no plan is shown\n\n' % self.title, 0
        if len(rest) > 1024:
            self.line(rest)
        elif rest:
            self.not_understood(rest[:-1] if rest.endswith(b'\r') else rest, 'the input ended within the line')
        return self.frames + '%s\nclosed, the input ended without quit; no plan is shown\n\n' % self.title, 1

    # What a frame shows.

    def rows(self):
        for train in range(1, self.m + 1):
            yield '%5d  %7d  %8d' % (train, self.departures[train - 1], self.delays[train - 1])

    def planned_rows(self, decisions):
        policy = {train: decisions[train - 1] for train in range(2, self.m + 1)}
        day = Day(Given(*read(self.sheet())[2:]), policy)
        for train, row in enumerate(self.rows(), 1):
            word = '-' if train == 1 else 'keep' if policy[train] == KEEP else 'go'
            yield row + '  %-8s  %12d  %12d' % (word, day.departs[train], day.arrives[train])

    def show(self, command, said, planned):
        rows, total = self.rows(), 'no plan'
        if planned:
            found = answer(self.sheet())[0]
            rows, total = self.planned_rows(found[3]), '%d passenger-minutes' % found[2]
        lines = [self.title]
        if self.number == 0:
            lines += ['%d %s, period %d; times in minutes' % (self.m, 'train' if self.m == 1 else 'trains', self.T), '',
                      TITLES, *rows, *([TITLES] if self.m > 16 else []), '']
        lines += ['total     ' + total,
                  'reports   %d taken, %d refused, %d not understood' % (self.taken, self.refused, self.malformed),
                  'command   ' + printable(command), 'answer    ' + said]
        assert all(len(line) <= 80 for line in lines), lines
        self.frames += '\n'.join(lines) + '\n\n'


def printable(command):
    if isinstance(command, bytes):
        command = ''.join(chr(byte) if 32 <= byte <= 126 else '?' for byte in command)
    return command if len(command) <= 70 else command[:68] + '..'


# ---------------------------------------------------------------------------
# The boards of tests/display
# ---------------------------------------------------------------------------

HERE = os.path.dirname(os.path.abspath(__file__))
BY_HAND = ('A', 'B')


def boards():
    """Name and what must be printed, for each tests/display/SAMPLE.NAME.in."""
    folder = os.path.join(HERE, 'display')
    for name in sorted(os.listdir(folder)):
        if name.endswith('.in'):
            title = 'samples/%s.sheet' % name.split('.')[0].replace('__', '/')
            data = open(os.path.join(os.path.dirname(HERE), title), 'rb').read()
            commands = open(os.path.join(folder, name), 'rb').read()
            yield name[:-3], Board(title, data).run(commands)[0]


def compare_all(write):
    """Writes the boards that are not written by hand, or compares; compares those by hand."""
    wrong = 0
    for name, printed in boards():
        files = [(name + '.out', printed.encode('ascii'))]
        wrong |= compare_or_write('tests/display', files, write and not name.startswith(BY_HAND), 'tests/boards.py')
    return wrong


# ---------------------------------------------------------------------------
# Boards by chance
# ---------------------------------------------------------------------------

def some_sheet():
    kind = chance.below(12)
    m = chance.between(1, 6)
    if kind == 0:
        return some_bytes(chance.below(40))
    if kind == 1:
        return sheet(MOST)
    if kind == 2:
        return usual_line(chance.one_of([16, 17, chance.between(11, 64)])).sheet()
    line = small_line(m) if chance.below(2) else usual_line(m)
    data = line.sheet()
    if kind == 3:
        return chance.one_of([data[:-1], data + b'\0', filled(data, m, [1]),
                              line.put(8, chance.between(1, pairs_of(m)), 10001).sheet(),
                              line.put(6, chance.between(1, m), 1441).sheet(),
                              line.put(5, chance.between(1, m), 2880).sheet()])
    return data


def some_number(likely):
    return chance.one_of([likely, likely, likely, likely, 0, 1, 65, 1440, 1441, 4294967295, 4294967296, 10 ** 30])


def some_command(m):
    kind = chance.below(10)
    if kind == 0:
        return b'plan'
    if kind == 1:
        return chance.one_of([b'', b'-1 5', b'1 5 6', b'1', b'plan 1', b'Plan', b'1 5x', b'1;5', b'1\t5', b' 2  7 ',
                              b'1 5\r', b'2\r7', b'1 0x5', b'1 +5', b'quit now', b'\x1b[2J', b'1\x005', b'\xc3\xa4',
                              b'\x7f', b'01 007', b'9' * 1023 + b' 1', b'1 ' + b'0' * 1022, b'7 ' * 600])
    if kind == 2:
        return some_bytes(chance.below(8)).replace(b'\n', b' ')
    return b'%d %d' % (some_number(chance.between(1, max(m, 1))), some_number(chance.below(40)))


def some_commands(m):
    lines = [some_command(m) for _ in range(chance.below(12))]
    if 1 <= m <= 6 and chance.below(3) == 0:        # a long run, most of it accepted
        lines += [b'%d %d' % (chance.between(1, m), chance.below(40)) for _ in range(30)] + lines
    end = chance.one_of([b'quit\n', b'quit\n', b'', b'1 1'])
    return b''.join(line + b'\n' for line in lines) + end


def run(count, program):
    frames = 0
    with tempfile.TemporaryDirectory() as folder:
        name = 'line.sheet'
        path = os.path.join(folder, name)
        for at in range(count):
            data = some_sheet()
            commands = some_commands(data[0] // 2 if data else 0)
            with open(path, 'wb') as file:
                file.write(data)
            expected, status = Board(name, data).run(commands)
            done = subprocess.run(program + ['board', name], cwd=folder, input=commands, stdout=subprocess.PIPE)
            if done.stdout.decode('latin1') != expected or done.returncode != status or open(path, 'rb').read() != data:
                print('board %d differs: sheet %s, commands %r' % (at, data.hex(), commands))
                print('expected, status %d:\n%s' % (status, expected))
                print('shown, status %d:\n%s' % (done.returncode, done.stdout.decode('latin1')))
                return 1
            frames += expected.count('answer    ')
    print('%d boards by chance, %d frames, each plan that of the delays beside it' % (count, frames))
    return 0


def main(arguments):
    if arguments == [] or arguments == ['--check']:
        return compare_all(arguments == [])
    if len(arguments) >= 3 and arguments[0] == '--run':
        return run(int(arguments[1]), arguments[2:])
    print('usage: python3 tests/boards.py [--check | --run COUNT PROGRAM ..]', file=sys.stderr)
    return 2


if __name__ == '__main__':
    sys.exit(main(sys.argv[1:]))
