#!/usr/bin/env python3
# The records of the program sheet_cases, crates/sheet_cases/stdin: document 01's list "By program" for read and
# write, and every refusal at its boundary and in its order. The sheets are packed by tests/sheets.py, whose header
# gives the form of a record. What the program must print for them, crates/sheet_cases/stdout, is written by hand from
# document 01.
#
#   python3 tests/sheet_cases.py            writes the records
#   python3 tests/sheet_cases.py --check    compares; ends with 1 if they differ

import os
import struct
import sys

from sheets import pack

A = dict(m=1, T=10, departures=[10], driving=[15], delays=[7], passengers=[3])
TWO = dict(m=2, T=10, departures=[10, 30], driving=[15, 20], delays=[9, 3], passengers=[4, 6, 5])
B = dict(m=3, T=10, departures=[10, 30, 55], driving=[15, 20, 12], delays=[9, 3, 0], passengers=[4, 6, 5, 10, 2, 20])
# every number at its most; a train that drives 0 minutes can leave no earlier than the next
MOST = dict(m=64, T=1440, departures=[2879] * 64, driving=[0] * 64, delays=[1440] * 64, passengers=[10000] * 2080)
LEAST = dict(m=64, T=1, departures=[0] * 64, driving=[0] * 64, delays=[0] * 64, passengers=[0] * 2080)


def named(name):
    return b'N' + struct.pack('>H', len(name)) + name.encode('ascii')


def sheet(line, **changed):
    return pack(**{**line, **changed})


def read(name, data, lengths=(64, 64, 64, 2080)):
    return named(name + ':') + b'R' + struct.pack('>HHHHH', *lengths, len(data)) + data


def write(name, line, room=3907, **changed):
    g = {**line, **changed}
    lists = [g['departures'], g['driving'], g['delays'], g['passengers']]
    return (named(name + ':') + b'W' + struct.pack('>IIHHHHH', g['m'], g['T'], *map(len, lists), room)
            + b''.join(struct.pack('>I', number) for numbers in lists for number in numbers))


def reads():
    a, b, most = sheet(A), sheet(B), sheet(MOST)
    assert a == bytes.fromhex('02 02 80 28 0F 00 E0 01 80'), 'sheet A as document 01 prints it'
    ten_thousand_and_one = sheet(A, passengers=[10001])
    return [
        read('A', a),
        read('B', b),
        # under 3 bytes is 1; shorter than m demands is 1, longer is 4
        read('empty', b''),
        read('FF FF', b'\xFF\xFF'),
        read('A, 1 byte', a[:1]),
        read('A, 2 bytes', a[:2]),
        read('A, 3 bytes', a[:3]),
        read('A without its last byte', a[:-1]),
        read('A with another byte', a + b'\0'),
        read('64 trains', most),
        read('64 trains without the last byte', most[:-1]),
        read('64 trains with another byte', most + b'\0'),
        # m is 2, T is 3
        read('m 0', sheet(A, m=0)),
        read('m 65', sheet(A, m=65)),
        read('m 127', sheet(A, m=127)),
        read('T 0', sheet(A, T=0)),
        read('T 1', sheet(A, T=1)),
        read('T 1440', sheet(A, T=1440)),
        read('T 1441', sheet(A, T=1441)),
        # departure is 5, source delay 6, slack 7, each with its train; a driving time of 10 bits is never 13
        read('departure 2879', sheet(A, departures=[2879])),
        read('departure 2880', sheet(A, departures=[2880])),
        read('driving 1023', sheet(A, driving=[1023])),
        read('delay 1440', sheet(A, delays=[1440])),
        read('delay 1441', sheet(A, delays=[1441])),
        read('B, train 2 at 2880', sheet(B, departures=[10, 2880, 55])),
        read('B, train 3 delay 1441', sheet(B, delays=[9, 3, 1441])),
        read('B, train 2 at 25', sheet(B, departures=[10, 25, 55])),
        read('B, train 2 at 24', sheet(B, departures=[10, 24, 55])),
        read('B, train 3 at 50', sheet(B, departures=[10, 30, 50])),
        read('B, train 3 at 49', sheet(B, departures=[10, 30, 49])),
        # passengers are 8 with the field, a filling bit is 9
        read('passengers 10000', sheet(A, passengers=[10000])),
        read('passengers 10001', ten_thousand_and_one),
        read('B, field 6 10001', sheet(B, passengers=[4, 6, 5, 10, 2, 10001])),
        read('A ending in 81', a[:-1] + b'\x81'),
        read('A ending in C0', a[:-1] + b'\xC0'),
        read('B, first filling bit', b[:-1] + bytes([b[-1] | 0x40])),
        # two faults each: the check that comes first decides
        read('m 65, T 1441', sheet(A, m=65, T=1441)),
        read('T 1441, short', sheet(A, T=1441)[:-1]),
        read('long, departure 2880', sheet(A, departures=[2880]) + b'\0'),
        read('departure 2880, delay 1441', sheet(A, departures=[2880], delays=[1441])),
        read('delay of train 1, departure of train 2', sheet(B, departures=[10, 2880, 55], delays=[1441, 3, 0])),
        read('slack of train 2, departure of train 3', sheet(B, departures=[10, 24, 2880])),
        read('delay and slack of train 2', sheet(B, departures=[10, 24, 55], delays=[9, 1441, 0])),
        read('slack of train 2, passengers', sheet(B, departures=[10, 24, 55], passengers=[10001, 6, 5, 10, 2, 20])),
        read('passengers, filling bit', ten_thousand_and_one[:-1] + bytes([ten_thousand_and_one[-1] | 1])),
        # a list of another length is 10, before anything of the sheet
        read('lists of 63 64 64 2080', b'', (63, 64, 64, 2080)),
        read('lists of 65 64 64 2080', b'', (65, 64, 64, 2080)),
        read('lists of 64 63 64 2080', b'', (64, 63, 64, 2080)),
        read('lists of 64 64 65 2080', b'', (64, 64, 65, 2080)),
        read('lists of 64 64 64 2079', b'', (64, 64, 64, 2079)),
        read('lists of 64 64 64 2081', b'', (64, 64, 64, 2081)),
        read('lists of 0 0 0 0', a, (0, 0, 0, 0)),
    ]


def writes():
    return [
        write('A', A),
        write('B', B),
        write('64 trains, all 0', LEAST),
        # the output buffer is 10, before m
        write('into 3906', A, 3906),
        write('into 3908', A, 3908),
        write('into 0, m 65', A, 0, m=65),
        # m is 2, then T is 3
        write('m 0', A, m=0),
        write('m 65', A, m=65),
        write('m 4294967295', A, m=4294967295),
        write('m 0, T 0', A, m=0, T=0),
        write('T 0', A, T=0),
        write('T 1440', A, T=1440),
        write('T 1441', A, T=1441),
        # a list of another length is 10, after T and before the numbers
        write('no departure', A, departures=[]),
        write('two driving times', A, driving=[15, 15]),
        write('no delay', A, delays=[]),
        write('two counts', A, passengers=[3, 3]),
        write('T 1441, no departure', A, T=1441, departures=[]),
        write('no delay, departure 2880', A, delays=[], departures=[2880]),
        # departure is 5, driving time 13, source delay 6, slack 7, each with its train; passengers are 8 with the field
        write('departure 2879', A, departures=[2879]),
        write('departure 2880', A, departures=[2880]),
        write('driving 1023', A, driving=[1023]),
        write('driving 1024', A, driving=[1024]),
        write('delay 1440', A, delays=[1440]),
        write('delay 1441', A, delays=[1441]),
        write('B, train 2 at 25', B, departures=[10, 25, 55]),
        write('B, train 2 at 24', B, departures=[10, 24, 55]),
        write('B, train 3 at 50', B, departures=[10, 30, 50]),
        write('B, train 3 at 49', B, departures=[10, 30, 49]),
        write('passengers 10000', A, passengers=[10000]),
        write('passengers 10001', A, passengers=[10001]),
        write('B, field 6 10001', B, passengers=[4, 6, 5, 10, 2, 10001]),
        # two faults each
        write('departure 2880, driving 1024', A, departures=[2880], driving=[1024]),
        write('driving 1024, delay 1441', A, driving=[1024], delays=[1441]),
        write('delay 1441, passengers 10001', A, delays=[1441], passengers=[10001]),
        write('delay and slack of train 2', TWO, departures=[10, 24], delays=[9, 1441]),
        write('delay of train 1, departure of train 2', TWO, departures=[10, 2880], delays=[1441, 3]),
        write('slack of train 2, departure of train 3', B, departures=[10, 24, 2880]),
        write('slack of train 3, passengers', B, departures=[10, 30, 49], passengers=[4, 6, 5, 10, 2, 10001]),
    ]


def main(arguments):
    root = os.path.dirname(os.path.dirname(os.path.abspath(__file__)))
    path = os.path.join(root, 'crates', 'sheet_cases', 'stdin')
    made = b''.join(reads() + writes())
    if arguments == ['--check']:
        if not os.path.exists(path) or open(path, 'rb').read() != made:
            sys.exit('crates/sheet_cases/stdin differs: run python3 tests/sheet_cases.py')
    else:
        with open(path, 'wb') as file:
            file.write(made)
    print('%d records of read, %d of write' % (len(reads()), len(writes())))


if __name__ == '__main__':
    main(sys.argv[1:])
