"""The bytes of a map and of records, for every script here that writes a feed. docs/FORMATS.md has them place by place."""
import struct

STRINGS, JETS, MANIFOLDS, MODULES = 4, 32, 8, 3
MAJOR_EVERY = 25
# a byte with the bit of every manifold
ALL_OPEN = (1 << MANIFOLDS) - 1
# commanded, pressure, driver, valves
QUIET = (0, 0, 0, ALL_OPEN)
WARM = (64, 64)
NO_REQUESTS = (0, 0)
HALF_FULL = (500, 500)


def word_of(number):
    """The word that carries a number from -32,768 to 32,767: two's complement."""
    return int.from_bytes(struct.pack(">h", number), "big")


def masks_of(*low):
    """The masks of a string: these of its lowest manifolds, and 0 for the others."""
    return list(low) + [0] * (MANIFOLDS - len(low))


def map_bytes(masks):
    """The masks of every manifold, string by string."""
    return b"".join(struct.pack(">I", mask) for string in masks for mask in string)


def summed(record):
    return record + struct.pack(">H", sum(record) % 65536)


def common(wire, path, strings):
    """What both kinds of record have behind the mark."""
    words = b"".join(struct.pack(">IIIB", *strings.get(s, QUIET)) for s in range(STRINGS))
    return struct.pack(">HB", wire % 65536, path) + words


def minor(wire, path=0, strings={}):
    """strings: {string: (commanded, pressure, driver, valves)}; those not given are quiet."""
    return summed(b"\x52\x4D" + common(wire, path, strings))


def major(wire, path=0, strings={}, temps={}, requests={}, banks={}, drops={}):
    """temps: {(string, jet): (fuel, oxidizer)}, requests: {string: (inhibit, re-enable)}, banks: {module: (fuel, oxidizer)}, drops:
    {string: byte}, bit i of which asks to drop the close bit of manifold i."""
    out = b"\x52\x4A" + common(wire, path, strings)
    out += b"".join(struct.pack(">HH", *temps.get((s, j), WARM)) for s in range(STRINGS) for j in range(JETS))
    out += b"".join(struct.pack(">II", *requests.get(s, NO_REQUESTS)) for s in range(STRINGS))
    out += bytes(drops.get(s, 0) for s in range(STRINGS))
    out += b"".join(struct.pack(">HH", *banks.get(m, HALF_FULL)) for m in range(MODULES))
    return summed(out)


def record(cycle, path=0, strings={}, temps={}, requests={}, banks={}, drops={}):
    """Of the right kind for its cycle: a minor record carries no more than path and strings."""
    if cycle % MAJOR_EVERY:
        return minor(cycle, path, strings)
    return major(cycle, path, strings, temps, requests, banks, drops)
