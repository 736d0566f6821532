#!/usr/bin/env python3
"""Writes the night that the gate runs `watch` and `plainwatch` on: the map, then twelve seconds of feed with the mishaps that the monitor
is for.

String 0 has four jets on manifold 0 and four on manifold 1; string 1 has one jet on manifold 3 and three on manifold 7; string 2 has one on
each of its eight manifolds.
"""
import sys

from records import ALL_OPEN, JETS, MANIFOLDS, map_bytes, masks_of, record, word_of

MASKS = [
    masks_of(0x0000000F, 0x000000F0),
    masks_of(0, 0, 0, 0x80000000, 0, 0, 0, 0x00000700),
    [1 << JETS // MANIFOLDS * i for i in range(MANIFOLDS)],
    masks_of(),
]


def night():
    out = [map_bytes(MASKS)]
    for cycle in range(1, 301):
        strings, path, temps, requests, banks, drops = {}, 0, {}, {}, {}, {}
        if 3 <= cycle <= 5:
            strings[0] = (0x04, 0, 0, ALL_OPEN)  # jet 2 is commanded and has no pressure: failed off at 5
        if 40 <= cycle < 60:
            strings[0] = (0, 0, 0, ALL_OPEN - 1)  # manifold 0's valve is closed by hand, and opened again
        if 7 <= cycle <= 9:
            strings[1] = (0x0200, 0, 0, ALL_OPEN)  # jet 9 of string 1 fails off at 9
        if 45 <= cycle < 65:
            strings[1] = (0, 0, 0, ALL_OPEN - 0x80)  # manifold 7's valve is closed too, and opened again: jet 9 stays failed
        if cycle == 50:
            # re-enables of jets 0, 2 and 9 are ignored behind these closed valves, that of jet 4 is done; the inhibit of jet 8 is heard
            requests = {0: (0, 0x15), 1: (0x0100, 0x0200)}
            # first a jet behind one of them is named both ways: refused, and sent again
            out.append(record(cycle, path, strings, requests={0: (0x08, 0x08)}))
        if cycle == 75:
            requests[1] = (0, 0x0100)  # the valve is open: now jet 8 is re-enabled
        if 85 <= cycle < 95:
            strings[2] = (0, 0, 0, 0x0F if cycle < 90 else 0)  # the upper four valves of string 2 close, then all
        if cycle in (100, 125, 150):
            strings[0] = (0, 0, 0x20, ALL_OPEN)  # the driver of jet 5 stays on: failed at 125, manifold 1 to be closed at 150
            # those of jets 10 of string 1 and 20 of string 2 do too: manifolds 7 and 5 to be closed
            strings[1] = (0, 0, 0x0400, ALL_OPEN)
            strings[2] = (0, 0, 0x00100000, ALL_OPEN)
        if cycle == 175:
            drops[0] = 0b0010  # jet 5 is repaired, and the close bit of its manifold dropped
            drops[1] = 0b01110111  # not that of manifold 7
            drops[2] = 0b11011111  # nor that of manifold 5
        if cycle == 200:
            drops[1], drops[2] = 0b10000000, ALL_OPEN  # now they are
        if cycle in (150, 175, 200, 225):
            # jet 31 of string 1 leaks, and its injector falls below zero: failed at 175, manifold 3 to be closed at 200
            temps[(1, 31)] = ({150: 63, 175: word_of(-1), 200: word_of(-32768), 225: 12}[cycle], 500)
        if cycle in (125, 150, 175):
            banks[2] = ({125: 484, 150: 483, 175: 200}[cycle], 500)  # module 2 loses fuel: -16, -17, -300; at 200 it is filled up again
        if cycle in (225, 250, 275):
            drops[1] = 0b1000  # at 225 jet 31 still leaks and the bit comes back, at 250 the drop is lost, at 275 it is done
        if 70 <= cycle < 80:
            path = 1  # the data path of string 0 fails and recovers
        if 245 <= cycle < 255:
            path = 2  # that of string 1 does
        if cycle == 225:
            requests[0] = (0, 0x04)  # jet 2 is re-enabled
            banks[1] = (517, 500)  # module 1 out of balance, by 17
            # first named both ways: refused, and sent again
            out.append(record(cycle, path, strings, temps, {0: (0x04, 0x04)}, banks, drops))
        if 250 <= cycle < 275:
            strings[2] = (0, 0, 0, ALL_OPEN - 0x60)  # manifolds 5 and 6 of string 2 close
        if cycle == 250:
            requests[2] = (0, 0x11100000)  # in the same record re-enables of jets 20 and 24 are ignored, that of jet 28 is done
        if cycle == 275:
            requests[2] = (0, 0x00100000)  # they open, and in the same record jet 20, failed before, is re-enabled
            out.append(record(cycle, path=0x10, drops={2: 0x10}))  # first with a reserved path bit: not read, and sent again
        whole = record(cycle, path, strings, temps, requests, banks, drops)
        if cycle == 30:
            out.append(whole[:31])  # a cable is pulled in the middle of a record
            out.append(b"\x52\x52\x4D")
        out.append(whole)
        if cycle == 90:
            out.append(record(60) + whole)  # a link brings back an old record and the newest one again
        if cycle == 110:
            bad = bytearray(record(111))
            bad[20] ^= 1
            out.append(bytes(bad))  # a record with a wrong sum
    return b"".join(out)


if __name__ == "__main__":
    sys.stdout.buffer.write(night())
