#!/usr/bin/env python3
"""feed.py clean|majors|noise|marks JETS AMOUNT: a map and a feed for `watch`, the same at every run.

JETS: how many jets of each string are mapped, 32, 11 or 0.
clean: records of the right kind, one after the other; 90,000 are an hour. majors: those of cycles 25, 50, ... alone.
noise: random bytes. marks: nothing but the mark of a major record, over and over.
AMOUNT: records of clean and majors, bytes of noise and marks."""
import pathlib
import random
import sys

sys.path.append(str(pathlib.Path(__file__).resolve().parent.parent / "tests/nights"))
from records import ALL_OPEN, JETS, MAJOR_EVERY, MANIFOLDS, MODULES, STRINGS, map_bytes, major, minor

# for each number of jets, how many of them each manifold has: the lowest of its four
SPLIT = {32: [4] * MANIFOLDS, 11: [3, 2, 1, 1, 1, 1, 1, 1], 0: [0] * MANIFOLDS}
EACH = JETS // MANIFOLDS
MASKS = {jets: [((1 << number) - 1) << EACH * i for i, number in enumerate(split)] for jets, split in SPLIT.items()}


def string(rng):
    """Some jets fire; now and then one has no pressure."""
    commanded = rng.getrandbits(32) & rng.getrandbits(32) & rng.getrandbits(32)
    pressure = commanded
    if rng.random() < 0.02:
        pressure &= ~(1 << rng.randrange(32))
    return commanded, pressure, commanded, ALL_OPEN


def busy(cycle, rng):
    strings = {s: string(rng) for s in range(STRINGS)}
    if cycle % MAJOR_EVERY:
        return minor(cycle, strings=strings)
    temps = {(s, j): (rng.randrange(100, 900), rng.randrange(100, 900)) for s in range(STRINGS) for j in range(JETS)}
    banks = {m: (500 + rng.randrange(20), 500 + rng.randrange(20)) for m in range(MODULES)}
    return major(cycle, strings=strings, temps=temps, banks=banks)


def feed(kind, amount):
    rng = random.Random(7)
    if kind == "clean":
        return b"".join(busy(cycle, rng) for cycle in range(1, amount + 1))
    if kind == "majors":
        return b"".join(busy(MAJOR_EVERY * second, rng) for second in range(1, amount + 1))
    if kind == "noise":
        return rng.randbytes(amount)
    if kind == "marks":
        return (b"\x52\x4A" * amount)[:amount]
    sys.exit(__doc__)


def main():
    if len(sys.argv) != 4 or int(sys.argv[2]) not in MASKS:
        sys.exit(__doc__)
    kind, jets, amount = sys.argv[1], int(sys.argv[2]), int(sys.argv[3])
    sys.stdout.buffer.write(map_bytes([MASKS[jets]] * STRINGS) + feed(kind, amount))


main()
