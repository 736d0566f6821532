#!/usr/bin/env python3
"""calls-nights.py > crates/calls/stdin: the nights to try of document 01 that are run and not proved, as scripts for the program `calls`,
those of a jet named both ways, of close bits dropped, of eight manifolds, of re-enables behind closed valves and of the banks' differences
(document 02, orders 4, 6, 7, 8 and 10) that a call alone can show, and five that hand in whole halls which no run reaches.

A script is its kind (0: a start over the hall's masks, with its n; 1: the hall as it stands), a hall (618 bytes, crates/calls/src/layout.rt
has its places), the claimed held count (2), the store (619), the number of calls (2), and for each call the piece's length (2), the
piece, the outbox's length (1) and its contents. Numbers have the high byte first.
crates/calls/stdout is what the reference says to it: tests/reference, `ref_calls < crates/calls/stdin`. It is never made by `calls`."""
import struct
import sys

import records
from records import ALL_OPEN, MANIFOLDS, MODULES, STRINGS, map_bytes, masks_of

REPORT = 40
LONGER = REPORT + 6
STORE = 619
LAST = 4294967295
# string 0, manifold 0 = 0000000F, others zero
MAP = map_bytes([masks_of(0x0000000F), masks_of(), masks_of(), masks_of()])
# string 0, manifolds 0 and 1 share jet 3
REFUSED = map_bytes([masks_of(0x0000000F, 0x00000008), masks_of(), masks_of(), masks_of()])
# of a string whose manifold 0 has its valve closed
CLOSED = (0, 0, 0, ALL_OPEN - 1)
# a jet on each manifold of each string
ONE_OF_EACH = map_bytes([[1 << i for i in range(MANIFOLDS)]] * STRINGS)


def minor(wire, commanded=0):
    """String 0 has these jets commanded, and nothing else is on."""
    return records.minor(wire, strings={0: (commanded, 0, 0, ALL_OPEN)})


def asking(wire, jets=0x00000001, path=0):
    """A major record that names these jets of string 0 both ways."""
    return records.major(wire, path, requests={0: (jets, jets)})


def outbox(length):
    """Contents that no report has, each place its own."""
    return bytes(0xC0 + place % 64 for place in range(length))


def sharing(one, other, jet=31):
    """A map that is refused for one jet that these two manifolds of string 3 both have."""
    return map_bytes([masks_of()] * 3 + [[1 << jet if i in (one, other) else 1 << i for i in range(MANIFOLDS)]])


def standing(fail=0, valves=ALL_OPEN, saved=()):
    """Saved: the sets of the lowest manifolds; those of the others are empty."""
    return struct.pack(f">{2 + MANIFOLDS}I", fail, valves, *masks_of(*saved))


def string(now=standing(), good=standing(), off=(0, 0, 0), on=(0, 0), recheck=0, inhibit=0, reenable=0, close=0, lost=0):
    """Off and on slots: the newest first."""
    return now + good + struct.pack(">9IB", *off, *on, recheck, inhibit, reenable, close, lost)


def module(is_out_of_balance=0, oxidizer_is_lesser=0, lesser=0, difference=0):
    """Difference: fuel less oxidizer."""
    return struct.pack(">BBHh", is_out_of_balance, oxidizer_is_lesser, lesser, difference)


def hall(masks=MAP, n=0, strings={}, modules=(module(),) * MODULES):
    """strings: {string: bytes}; those not given are fresh."""
    return struct.pack(">I", n) + masks + b"".join([strings.get(s, string()) for s in range(STRINGS)] + list(modules))


def script(calls, masks=MAP, n=0, count=0, store=bytes(STORE), whole=None):
    """Without a whole hall, a start over the masks."""
    handed = b"\0" + hall(masks, n) if whole is None else b"\1" + whole
    out = handed + struct.pack(">H", count) + store + struct.pack(">H", len(calls))
    for piece, length in calls:
        out += struct.pack(">H", len(piece)) + piece + bytes([length]) + outbox(length)
    return out


def holding(front):
    """A store that begins so; the places behind are not 0."""
    return front + b"\xEE" * (STORE - len(front))


# a false major mark, three good minor records between 00s, 619 bytes in all
false_major = (b"\x52\x4A" + bytes(48) + minor(1) + bytes(100) + minor(2) + minor(3)).ljust(STORE, b"\0")

nights = [
    # At n = 4,294,967,295, d = 1 gets 3, d = 0 gets 2. (The wire cycle of n is 65,535.)
    script([(minor(0), REPORT), (minor(65535), REPORT)], n=LAST),
    # An outbox of 39 bytes gets 5 and stays, 0 bytes used; of 40 it is written.
    script([(minor(1), REPORT - 1), (minor(1), REPORT)]),
    # 5 gives back a state untouched that claims too much, or holds a whole record, and whose other places are not 0.
    script([(minor(2), REPORT - 1)], count=619, store=holding(minor(1))),
    script([(minor(2), 0), (b"", REPORT)], count=59, store=holding(minor(1))),
    # Empty piece, nothing held: nothing used, nothing settled; the outbox keeps its bytes.
    script([(b"", REPORT)]),
    # A false major: nothing until its 619th byte, then three reports in three calls; the fourth settles nothing.
    script([(false_major[:618], REPORT), (false_major[618:], REPORT), (b"", REPORT), (b"", REPORT), (b"", REPORT)]),
    # The same in one piece: the first call uses it all.
    script([(false_major, REPORT), (b"", REPORT), (b"", REPORT), (b"", REPORT)]),
    # A state that claims 619 held bytes is read as holding none: the good record in its store is not there.
    script([(b"", REPORT), (minor(1), REPORT)], count=619, store=holding(minor(1))),
    # One that claims 618 holds them: the held record settles first, and none of the piece is used.
    script([(minor(1), REPORT)], count=618, store=(minor(1) + b"\x52\x4A").ljust(STORE, b"\0")),
    # So do those that claim 615 to 618 of a major record, which the rest of it settles.
    *(script([(records.major(25)[count:], REPORT)], n=24, count=count, store=records.major(25)) for count in range(615, 619)),
    # The whole record in the store of one that claims 619 is not there, and comes again.
    script([(records.major(25), REPORT)], n=24, count=619, store=records.major(25)),
    # A refused map answers 6, and the monitor goes on over the empty map: jet 0 has no pressure at 1, 2, 3, and no report says so.
    script([(minor(1, 1), REPORT), (minor(2, 1), REPORT), (minor(3, 1), REPORT)], masks=REFUSED),
    # An outbox longer than 40 bytes keeps those after the 40th.
    script([(minor(1), LONGER), (minor(2), 255)]),
    # A jet named both ways gets 7, also under a path fault; jets in no mask do not count. An outbox of 39 bytes gets 5 before, and at
    # other cycles the same record is of the wrong kind, a repeat or stale.
    script(
        [
            (asking(25), REPORT - 1),
            (asking(24), REPORT),
            (asking(25), REPORT),
            (asking(25, path=0x0F), LONGER),
            (asking(25, 0xFFFFFFF0), REPORT),
            (asking(25), REPORT),
            (asking(24), REPORT),
        ]
    ),
    # Behind the end of the count it gets 3.
    script([(asking(4), REPORT)], n=LAST),
    # A record is refused whole: jet 0, which is bad for the third time, sets no close bit, and nothing of the hall or its banks changes.
    # A clean record for the same cycle, handed in behind it, sets the close bit and the inhibit and weighs the bank.
    script(
        [
            (records.major(50, strings={0: (0, 0, 1, 0)}, requests={0: (2, 2)}, banks={0: (500, 400)}), REPORT),
            (records.major(50, strings={0: (0, 0, 1, ALL_OPEN)}, requests={0: (2, 0)}, banks={0: (500, 400)}), REPORT),
        ],
        whole=hall(n=49, strings={0: string(standing(1), standing(1), on=(1, 1), recheck=1)}),
    ),
    # Drops take away the close bits that they name, of a manifold without jets too, and nothing else: string 0 loses one, string 1 some,
    # string 2 none, for its path has failed, string 3 all eight; the bits above the manifolds stay. A record that names a jet both ways
    # does none of it, one with a reserved path bit loses a byte and is not read.
    script(
        [
            (records.major(25, requests={0: (1, 1)}, drops={s: ALL_OPEN for s in range(STRINGS)}), REPORT),
            (records.major(25, 0x80, drops={0: ALL_OPEN, 1: 0x1F}), REPORT),
            (records.major(25, 0b0100, drops={0: 0b10000000, 1: 0b01011010, 2: ALL_OPEN, 3: ALL_OPEN}), REPORT),
        ],
        whole=hall(n=24, strings={s: string(close=0xABCD12FF) for s in range(STRINGS)}),
    ),
    # Manifold 7 closes and opens as manifold 0 does: jet 7 fails, and is good again; jet 6, failed before, stays so when manifold 6 opens.
    # Bit 7 is no reserved bit: all four records are read.
    script(
        [
            (records.minor(n, strings={s: (0, 0, 0, valves) for s in (0, 3)}), REPORT)
            for n, valves in ((1, 0x7F), (2, 0x3E), (3, 0xBF), (4, 0xFF))
        ],
        whole=hall(ONE_OF_EACH, strings={3: string(standing(0x40), standing(0x40))}),
    ),
    # Jet 7 is bad for the third time and its manifold gets close bit 7, in string 1 alone. Drops of all others leave it, its own does not.
    script(
        [
            (records.major(75, strings={1: (0, 0, 0x80, ALL_OPEN)}), REPORT),
            (records.major(100, drops={0: 0x80, 1: 0x7F, 2: 0x80, 3: 0x80}), REPORT),
            (records.major(125, drops={1: 0x80}), REPORT),
        ],
        whole=hall(ONE_OF_EACH, n=74, strings={1: string(standing(0x80), standing(0x80), on=(0x80, 0x80), recheck=0x80)}),
    ),
    # At fresh all eight are remembered as open: the first record finds the upper four closed. Then the path fails and is back: the record
    # is compared with the valves of the good copy, all open.
    script(
        [
            (records.minor(1, strings={s: (0, 0, 0, 0x0F) for s in range(STRINGS)}), REPORT),
            (records.minor(2, 0x0F), REPORT),
            (records.minor(3, strings={s: (0, 0, 0, 0xF0) for s in range(STRINGS)}), REPORT),
        ],
        masks=ONE_OF_EACH,
    ),
    # A jet that two of the upper manifolds share is enough for answer 6.
    *(script([(minor(1), REPORT)], masks=sharing(one, other)) for one, other in ((5, 6), (0, 7), (4, 7))),
    # The same jet on manifold 7 of one string and 3 of another is none.
    script([(minor(1), REPORT)], masks=map_bytes([masks_of(), masks_of(0, 0, 0, 8), [0] * 7 + [8], masks_of()])),
    # Jet 0 is bad for the third time and jet 1 for the second, and the drop is asked for in both records: the bit comes back at once by jet
    # 0, then by jet 1. With both good it goes, and a last drop finds nothing.
    script(
        [
            (records.major(50, strings={0: (0, 0, 3, ALL_OPEN)}, drops={0: 1}), REPORT),
            (records.major(75, strings={0: (0, 0, 2, ALL_OPEN)}, drops={0: 1}), REPORT),
            (records.major(100, drops={0: 1}), REPORT),
            (records.major(125, drops={0: 1}), REPORT),
        ],
        whole=hall(n=49, strings={0: string(standing(1), standing(1), on=(3, 1), recheck=1, close=1)}),
    ),
    # Behind the closed valve of manifold 0 re-enables are ignored: jet 1 stays inhibited, jet 3 failed. First the same record names jet 2
    # both ways, and is refused. As the valve opens, the saved jets 0 and 2 are good, and jet 3, asked for in that record, is re-enabled.
    script(
        [
            (records.major(50, strings={0: CLOSED}, requests={0: (0x4, 0xF)}), REPORT),
            (records.major(50, strings={0: CLOSED}, requests={0: (0x0, 0xF)}), REPORT),
            (records.minor(51, strings={0: CLOSED}), REPORT),
            (records.major(75, requests={0: (0x0, 0x8)}), REPORT),
        ],
        whole=hall(n=49, strings={0: string(*[standing(0xF, ALL_OPEN - 1, (0x5,))] * 2, inhibit=0x2)}),
    ),
    # The valve after this record's step 4 decides. In string 0 manifold 0 closes and the others are open: all of its jets but 0 are
    # re-enabled, and the re-enable of jet 0 that was in force lapses. In string 1 manifold 7 opens: all are re-enabled. In string 2 the
    # path is back, with all valves closed in the good copy, and 0 to 3 open now. In string 3 all are closed, and the inhibits are done.
    script(
        [
            (
                records.major(
                    25,
                    strings={0: CLOSED, 2: (0, 0, 0, 0x0F), 3: (0, 0, 0, 0)},
                    requests={0: (0, 0xFF), 1: (0, 0xFF), 2: (0, 0xFF), 3: (0x0F, 0xF0)},
                ),
                REPORT,
            ),
            (records.minor(26, strings={0: CLOSED, 2: (0, 0, 0, 0x0F), 3: (0, 0, 0, 0)}), REPORT),
        ],
        whole=hall(
            ONE_OF_EACH,
            n=24,
            strings={
                0: string(standing(0xF0), inhibit=0xF0, reenable=0x01),
                1: string(standing(0xFF, 0x7F)),
                2: string(good=standing(0xFF, 0), lost=1),
                3: string(standing(0xFF, 0, [1 << i for i in range(MANIFOLDS)])),
            },
        ),
    ),
    # Behind a closed valve jet 0 is bad for the third time: its re-enable is ignored, and the close bit comes.
    script(
        [(records.major(75, strings={0: (0, 0, 1, ALL_OPEN - 1)}, requests={0: (0, 1)}), REPORT)],
        whole=hall(n=74, strings={0: string(*[standing(0xF, ALL_OPEN - 1, (0xE,))] * 2, on=(1, 1), recheck=1)}),
    ),
    # Handed in behind a closed valve are jet 0, good, jet 1, with a re-enable in force, and jet 4, on manifold 2 too, whose valve is open:
    # re-enables of all three are ignored, and the one in force stays in force. Jet 5, on two manifolds with open valves, is re-enabled.
    script(
        [
            (records.major(25, strings={0: CLOSED}, requests={0: (0, 0x33)}), REPORT),
            (records.minor(26, strings={0: CLOSED}), REPORT),
        ],
        whole=hall(
            map_bytes([masks_of(0x1F, 0x20, 0x30), masks_of(), masks_of(), masks_of()]),
            n=24,
            strings={0: string(standing(0x3E, ALL_OPEN - 1), reenable=0x02)},
        ),
    ),
    # The modules are 17, 1,000 and 1,000 apart, the oxidizer above in 0 and 2: their differences are negative. A repeat, a stale record,
    # one of the wrong kind and one that names a jet both ways, each with other quantities, leave them, as a minor does. The next major
    # replaces them, though all four paths have failed.
    script(
        [
            (records.major(25, banks={0: (483, 500), 1: (1000, 0), 2: (0, 1000)}), REPORT),
            (records.major(25), REPORT),
            (records.major(0, banks={0: (1, 0)}), REPORT),
            (records.major(26, banks={0: (0, 1)}), REPORT),
            (records.major(50, requests={0: (1, 1)}, banks={2: (0, 1)}), REPORT),
            (records.minor(26, 0x0F), LONGER),
            (records.major(50, 0x0F, banks={0: (500, 499), 1: (244, 500), 2: (7, 7)}), LONGER),
            (minor(51), REPORT),
        ],
        n=24,
    ),
    # A hall handed in whose differences fit neither the balance nor the lesser quantities: the reports show them, over a minor, a record
    # of the wrong kind and an outbox of 39 bytes, until a major is taken.
    script(
        [
            (minor(24), REPORT),
            (minor(25), REPORT),
            (records.major(25, banks={0: (0, 1)}), REPORT - 1),
            (records.major(25, banks={0: (0, 1)}), REPORT),
        ],
        whole=hall(n=23, modules=(module(0, 0, 7, 300), module(1, 1, 7, 0), module(0, 1, 900, -1000))),
    ),
    # A hall handed in whose manifold 0 is remembered closed and has a saved set beyond its mask: all of it leaves the fail word, and the
    # set stays. Jets 16 and 17 are in no mask: the report does not show them, the hall does.
    script([(minor(1), REPORT), (minor(2), REPORT)], whole=hall(strings={0: string(standing(0x0003001F, 0xFFFFFFFE, (0x00010013,)))})),
    # Masks that overlap, lowest first: manifold 0 closes and saves jets 0 and 1, then 1 opens, and its saved jets 1 and 2 leave the fail
    # word again. A start over these masks answers 6. In string 1 a lost path: the good copy comes back, all bits of the close word stay.
    script(
        [(records.minor(1, strings={0: (0, 0, 0, ALL_OPEN - 1)}), REPORT)],
        whole=hall(
            map_bytes([masks_of(0x3, 0x6), masks_of(0xF0), masks_of(), masks_of()]),
            strings={
                0: string(standing(0, ALL_OPEN - 2, (0x80, 0x6))),
                1: string(standing(0x10, 0, (1, 2, 3, 4)), standing(0x60, 0xFFF, range(5, 13)), (1, 2, 3), (4, 5), 6, 7, 8, 0xABCD1230, 9),
            },
        ),
    ),
    # Just before a major cycle, any banks: jet 0 is inhibited and re-enabled at once, jet 1 bad again, jet 5 in no mask has every bit, and
    # requests name jets 1, 5 and 6. The record after it is stale and changes nothing.
    script(
        [
            (records.major(25, strings={0: (0, 0, 0x22, ALL_OPEN)}, requests={0: (0x42, 0x20)}, banks={0: (500, 483)}), REPORT),
            (minor(1), REPORT),
        ],
        whole=hall(
            n=24,
            strings={
                0: string(
                    standing(0x20, ALL_OPEN, (0x20,) * MANIFOLDS), standing(), (0x20,) * 3, (0x22,) * 2, 0x22, 0x21, 0x21, close=0x100
                )
            },
            modules=(module(1, 1, 0x0FFF, -1), module(0, 1, 0x0400, 32767), module(0xFF, 0x02, 0xFFFF, -32768)),
        ),
    ),
]
sys.stdout.buffer.write(b"".join(nights))
