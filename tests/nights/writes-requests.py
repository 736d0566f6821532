#!/usr/bin/env python3
"""writes-requests.py > crates/writes/stdin: requests to the writer of records, for the program `writes`.

A request is its kind (0: a minor record, 1: a major), the outbox's length (2, at most 1,024), the byte that fills the outbox beforehand
(1), and the record's values in its order, without mark and sum (55 or 615). Numbers have the high byte first. The answers are 0 written,
1 a reserved bit of the path byte, 2 a quantity above 1,000, 3 an outbox too short.
crates/writes/stdout is what the reference says to it: tests/reference, `ref_writes < crates/writes/stdin`. It is never made by `writes`."""
import struct
import sys

import records
from records import ALL_OPEN, JETS, MANIFOLDS, MODULES, STRINGS

MINOR, MAJOR = 59, 619
LONGEST = 1024
FULL = (1000, 1000)


def request(record, length=None, fill=0xEE):
    """The outbox has just the record's length if none is said."""
    kind = {MINOR: 0, MAJOR: 1}[len(record)]
    return struct.pack(">BHB", kind, len(record) if length is None else length, fill) + record[2:-2]


def large(module, fuel, oxidizer):
    return records.major(25, banks={module: (fuel, oxidizer)})


def valves(string, byte):
    return {string: (0, 0, 0, byte)}


def numbered(place, count):
    """Words of which each has its own number."""
    return tuple(0x10000000 * (place + 1) + word for word in range(count))


first = records.minor(1)
# every value has its own number, so that each shows its place
own_strings = {s: numbered(s, 3) + (0x11 << s,) for s in range(STRINGS)}
own_minor = records.minor(0xABCD, 0b1010, own_strings)
own_major = records.major(
    0xABCE,
    0b0101,
    own_strings,
    {(s, j): (0x4000 + 256 * s + j, 0x8000 + 256 * s + j) for s in range(STRINGS) for j in range(JETS)},
    {s: numbered(s + 8, 2) for s in range(STRINGS)},
    {m: (900 + m, 800 + m) for m in range(MODULES)},
    {s: 0b10001001 + 0x11 * s for s in range(STRINGS)},
)
# the bytes come to more than 65,535
heavy = records.major(
    65535,
    0x0F,
    {s: (0xFFFFFFFF, 0xFFFFFFFF, 0xFFFFFFFF, ALL_OPEN) for s in range(STRINGS)},
    {(s, j): (0xFFFF, 0xFFFF) for s in range(STRINGS) for j in range(JETS)},
    {s: (0xFFFFFFFF, 0xFFFFFFFF) for s in range(STRINGS)},
    {m: FULL for m in range(MODULES)},
    {s: ALL_OPEN for s in range(STRINGS)},
)
# a path byte with bit 7, a quantity of 1,001
both_wrong = records.major(25, 0x8F, banks={2: (500, 1001)})

requests = [
    # The first record of the nights: written into just enough, one byte more, the longest outbox; one byte too few, none.
    request(first),
    request(first, MINOR + 1),
    request(first, LONGEST, 0x5A),
    request(first, MINOR - 1),
    request(first, 0),
    # Each value in its place.
    request(own_minor, MINOR + 5, 0xA5),
    request(own_major, MAJOR + 5, 0xA5),
    # A major record: just enough, one byte too few, a minor's outbox, the longest.
    request(records.major(25)),
    request(records.major(25), MAJOR - 1),
    request(records.major(25), MINOR),
    request(records.major(25), LONGEST),
    # Quantities of 1,000 are written, and every bit that may be set; a sum above 65,535 loses what is beyond.
    request(heavy, MAJOR + 1, 0xFF),
    # A reserved bit: each of the four of the path byte, of both kinds, alone and with paths that have failed.
    *(request(records.minor(1, 0x10 << bit)) for bit in range(4)),
    *(request(records.major(25, 0x10 << bit), LONGEST) for bit in range(4)),
    request(records.minor(1, 0x8F)),
    request(records.major(25, 0xFF)),
    # No bit of a valve byte or of a drop byte is reserved: each manifold's is written, alone and with the others.
    *(request(records.minor(1, strings=valves(i % STRINGS, 1 << i))) for i in range(MANIFOLDS)),
    *(request(records.major(25, strings=valves(i % STRINGS, ALL_OPEN - (1 << i)))) for i in range(MANIFOLDS)),
    *(request(records.major(25, drops={i % STRINGS: 1 << i})) for i in range(MANIFOLDS)),
    request(records.major(25, drops={s: ALL_OPEN - s for s in range(STRINGS)}), LONGEST),
    # A quantity above 1,000: the first fuel, the last oxidizer, all bits.
    request(large(0, 1001, 1000), LONGEST),
    request(large(2, 1000, 1001), LONGEST),
    request(large(1, 0xFFFF, 0), LONGEST),
    # Several faults: the first in the order of checks is named.
    request(records.minor(1, 0x10), MINOR - 1),
    request(both_wrong),
    request(both_wrong, 100),
    request(records.major(25, 0x40), MAJOR - 1),
    request(records.major(25, 0x1F, banks={0: (1001, 500)}, drops={2: 0x1F}), MAJOR - 1),
    request(records.major(25, strings=valves(3, 0xF0), banks={0: (1001, 500)}, drops={2: 0xF0}), MAJOR - 1),
    request(records.major(25, strings=valves(3, 0xF0), drops={2: 0xF0}), MAJOR - 1),
    request(large(2, 500, 1001), MAJOR - 1),
    # What a monitor may refuse or ignore is written: kinds that do not fit the cycle, jets named both ways, cold injectors, closed valves,
    # re-enables behind them.
    request(records.minor(25, strings=valves(2, 0))),
    request(records.major(1, temps={(0, 0): (0, 63), (3, 31): (63, 0x8000)}, requests={1: (0x00000006, 0x00000003)})),
    request(records.major(25, strings=valves(3, 0), requests={3: (0, 0xFFFFFFFF)})),
    # The last request is cut off and gets nothing.
    request(first)[:-1],
]
sys.stdout.buffer.write(b"".join(requests))
