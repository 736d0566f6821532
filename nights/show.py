#!/usr/bin/env python3
"""Reads reports from standard input and says in words what changed from one to the next. For people; it judges nothing."""
import struct
import sys

REPORT = 40  # bytes of a report
MARK = b"RR"
ANSWERS = {0: "taken", 1: "stale", 2: "repeat", 3: "count ended", 4: "wrong kind", 7: "a jet named both ways"}


def bits(word):
    return " ".join(str(j) for j in range(32) if word >> j & 1) or "none"


def seen(report):
    """What a report shows, by name."""
    shown = {}
    for s in range(4):
        fail, close = struct.unpack_from(">IB", report, 7 + 5 * s)
        shown[f"string {s}: failed jets"] = bits(fail)
        shown[f"string {s}: CLOSE manifolds"] = bits(close)
    balance, *banks = struct.unpack_from(">B3H3h", report, 27)
    for m, (lesser, difference) in enumerate(zip(banks[:3], banks[3:])):
        bank = "oxidizer" if balance >> (4 + m) & 1 else "fuel"
        apart = f"{abs(difference) / 10}% apart, {bank} is the lesser" if difference else "even"
        shown[f"module {m}"] = f"OUT OF BALANCE, {apart} at {lesser / 10}%" if balance >> m & 1 else f"in balance, {apart}"
    return shown


def main():
    sys.stdout.reconfigure(line_buffering=True)  # a live feed is shown as it comes
    before, last = seen(bytes(REPORT)), 0
    while len(report := sys.stdin.buffer.read(REPORT)) == REPORT:
        if not report.startswith(MARK):
            sys.exit(f"show.py: no mark where a report has to begin: these are not reports of {REPORT} bytes")
        answer, n = struct.unpack_from(">BI", report, 2)
        if answer:
            print(f"cycle {n}: a record was not taken: {answer}, {ANSWERS.get(answer, 'unknown')}")
        if n > last + 1:
            print(f"cycle {n}: cycles not heard before it: {n - last - 1}")
        now = seen(report)
        for name, value in now.items():
            if value != before[name]:
                print(f"cycle {n}: {name}: {value}")
        before, last = now, n


try:
    main()
except BrokenPipeError:  # whoever reads has seen enough
    sys.stderr.close()
