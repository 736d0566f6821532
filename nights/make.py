#!/usr/bin/env python3
"""make.py [FOLDER]: writes the sample nights, each a map and a feed, into FOLDER, or else beside itself. README.md tells what happens.

NIGHT.reports is what the reference says to it: tests/reference, `ref_watch < NIGHT.feed > NIGHT.reports`. It is never made by `watch`."""
import pathlib
import sys

HERE = pathlib.Path(__file__).resolve().parent
sys.path.append(str(HERE.parent / "tests/nights"))
from records import ALL_OPEN, JETS, MAJOR_EVERY, MANIFOLDS, QUIET, STRINGS, map_bytes, masks_of, record, word_of

# Every string has four jets on each of its eight manifolds: 0 to 3, 4 to 7, and so on up to 28 to 31.
EACH = JETS // MANIFOLDS
HALL = [[((1 << EACH) - 1) << EACH * i for i in range(MANIFOLDS)]] * STRINGS
# Every string has jets 0 to 15 on manifold 7, 16 to 23 on 6, 24 to 27 on 5, 28 and 29 on 4, 30 on 3, 31 on 2, and none on 1 and 0.
UNEVEN = [[0, 0, 0x80000000, 0x40000000, 0x30000000, 0x0F000000, 0x00FF0000, 0x0000FFFF]] * STRINGS
# String 0 is let in halves: jets 0 to 15 are on manifold 0, 16 to 31 on manifold 1. The other strings have no jets.
LET = [masks_of(0x0000FFFF, 0xFFFF0000)] + [masks_of()] * (STRINGS - 1)


def only(place):
    """The word that has this one bit."""
    return 1 << place


def stuck_jet():
    """String 1, jet 29: its driver stays on when the command ends, and module 1 blows off fuel until manifold 7 is closed."""
    feed = [map_bytes(HALL)]
    stuck, closed = 31, 190
    for cycle in range(1, 226):
        commanded = only(29) if 20 <= cycle < stuck else 0
        driver = only(29) if 20 <= cycle else 0
        pressure = driver if cycle < closed else 0
        valves = ALL_OPEN if cycle < closed else ALL_OPEN - only(7)
        blown_off = 8 * max(0, min(cycle, closed) - stuck) // 25
        feed.append(record(cycle, strings={1: (commanded, pressure, driver, valves)}, banks={1: (500 - blown_off, 500)}))
    return b"".join(feed)


def hand_closed_valve():
    """String 2, manifold 7: jet 3 fails off, then somebody closes the valve and opens it again; later jet 3 is re-enabled. The valve of
    manifold 0, which has no jets, is closed from 60 on."""
    feed = [map_bytes(UNEVEN)]
    for cycle in range(1, 151):
        commanded = pressure = 0
        if 10 <= cycle <= 12:
            commanded = only(3)
        if 20 <= cycle < 30:
            commanded = pressure = only(5)
        if 50 <= cycle < 60:
            commanded = only(5)  # behind a closed valve there is no pressure
        valves = ALL_OPEN - (only(7) if 40 <= cycle < 90 else 0) - (only(0) if 60 <= cycle else 0)
        requests = {2: (0, only(3))} if cycle == 125 else {}
        feed.append(record(cycle, strings={2: (commanded, pressure, 0, valves)}, requests=requests))
    return b"".join(feed)


def cable_pull():
    """The cable is pulled three times, always in the middle of a record. String 0: jet 4 has no pressure, the driver of jet 2 stays on."""
    feed = [map_bytes(HALL)]

    def at(cycle):
        commanded = only(4) if 31 <= cycle <= 42 else 0
        driver = only(2) if 45 <= cycle else 0
        return record(cycle, strings={0: (commanded, 0, driver, ALL_OPEN)})

    for cycle in range(1, 161):
        if cycle == 33:
            feed.append(at(33)[:31])  # pulled in record 33; the next that comes is record 40
        elif cycle == 60:
            feed.append(at(60)[:30] + at(64)[30:])  # pulled in record 60 and put back in record 64: 59 bytes that begin with a mark
        elif cycle == 75:
            feed.append(at(75)[:300])  # pulled in a major record
        elif not (33 < cycle < 40 or 60 < cycle < 65 or 75 < cycle < 78):
            feed.append(at(cycle))
    return b"".join(feed)


def path_fault():
    """The data path of string 3 fails from 60 to 79, in the middle of the close rule for jet 20. String 0 has nothing to do with it."""
    feed = [map_bytes(HALL)]
    for cycle in range(1, 161):
        path = only(3) if 60 <= cycle < 80 else 0
        strings = {0: QUIET, 3: QUIET}
        requests = {}
        if 15 <= cycle:
            strings[3] = (0, 0, only(20), ALL_OPEN)
        if 53 <= cycle <= 55:
            strings[3] = (only(1), 0, only(20), ALL_OPEN)  # jet 1 fails off behind the good copy of cycle 50
        if 76 <= cycle <= 78:
            strings[0] = (only(5), 0, 0, ALL_OPEN)  # behind the good copy of cycle 75, which string 0 must not go back to
        if cycle in (75, 100):
            requests[3] = (only(2), 0)  # the keeper inhibits jet 2, in vain at 75
        feed.append(record(cycle, path, strings, requests=requests))
    return b"".join(feed)


def old_records(with_old=True):
    """A link brings back old records among the new ones. String 0: jet 2 has no pressure twice, the driver of jet 9 stays on."""
    feed = [map_bytes(HALL)]
    brought_back = {31: (30, 31), 60: (50, 30, 31), 75: (75, 50), 90: (25, 50, 75), 100: (100,)} if with_old else {}

    def at(cycle):
        commanded = only(2) if 30 <= cycle <= 31 else 0
        driver = only(9) if 40 <= cycle else 0
        return record(cycle, strings={0: (commanded, 0, driver, ALL_OPEN)})

    for cycle in range(1, 121):
        feed.append(at(cycle))
        feed += [at(old) for old in brought_back.get(cycle, ())]
    return b"".join(feed)


def below_zero():
    """String 2, jet 21 leaks and its injector freezes, until manifold 5 is closed. Later, string 0, jet 4: the wire of its fuel transducer
    breaks and reads FFFF, though no gas flows."""
    feed = [map_bytes(HALL)]
    begins, closed, breaks = 40, 140, 180
    oxidizer = {50: 71, 75: -9, 100: -88, 125: -131, 150: -74, 175: 12, 200: 96, 225: 170, 250: 230, 275: 270}
    for cycle in range(1, 276):
        valves = ALL_OPEN if cycle < closed else ALL_OPEN - only(5)
        temps = {(2, 21): (300, word_of(oxidizer.get(cycle, 300)))}
        if breaks <= cycle:
            temps[(0, 4)] = (0xFFFF, 300)
        blown_off = 9 * max(0, min(cycle, closed) - begins) // 25
        feed.append(record(cycle, strings={2: (0, 0, 0, valves)}, temps=temps, banks={2: (500, 500 - blown_off)}))
    return b"".join(feed)


def both_ways():
    """Somebody's script asks for an inhibit and a re-enable of one jet. At 75 the controllers send the cycle again without that, at 150
    they do not. String 0, jet 9 and string 1, jet 20: their drivers stay on."""
    feed = [map_bytes(HALL)]

    def at(cycle, requests={}):
        drivers = {0: only(9) if 20 <= cycle else 0, 1: only(20) if 90 <= cycle else 0}
        return record(cycle, strings={s: (0, 0, on, ALL_OPEN) for s, on in drivers.items()}, requests=requests)

    for cycle in range(1, 251):
        if cycle == 75:
            feed.append(at(75, {2: (only(3), only(3))}))
            feed.append(at(75, {2: (only(3), 0)}))
        elif cycle == 150:
            feed.append(at(150, {3: (only(7) | only(8), only(8))}))
        else:
            feed.append(at(cycle))
    return b"".join(feed)


def repair(without=()):
    """String 2, jet 30 and string 0, jet 17: their drivers stay on until repaired. The first close bit is dropped at 125; the other
    too early at 150, in vain under a path fault at 200, and at 225. Without: cycles whose drop is left out."""
    feed = [map_bytes(HALL)]
    dropped = {125: {2: only(7)}, 150: {0: only(4)}, 200: {0: only(4)}, 225: {0: only(4)}}
    for cycle in range(1, 251):
        path = only(0) if 190 <= cycle < 210 else 0
        closed_of_0 = only(4) if 110 <= cycle else 0
        closed_of_2 = only(7) if 90 <= cycle < 160 or 180 <= cycle < 185 else 0
        strings = {
            0: (0, 0, only(17) if 35 <= cycle < 160 else 0, ALL_OPEN - closed_of_0),
            2: (0, 0, only(30) if 20 <= cycle < 110 else 0, ALL_OPEN - closed_of_2),
        }
        requests = {2: (0, only(30))} if cycle == 175 else {}
        drops = {} if cycle in without else dropped.get(cycle, {})
        feed.append(record(cycle, path, strings, requests=requests, drops=drops))
    return b"".join(feed)


def old_map(begin=map_bytes):
    """The input of a table with four manifolds a string, one of them with jets, as it was recorded for such tables: with a map of 64 bytes,
    four masks a string. String 1, jet 3: its driver stays on. Begin: what makes the map from those masks."""
    jets = [(1, 0x0000FF00), (0, 0x000000FF), (2, 0x00FF0000), (1, 0x0000FF00)]
    feed = [begin([[mask if i == its else 0 for i in range(4)] for its, mask in jets])]
    for cycle in range(1, 101):
        stuck = {1: only(3)} if 20 <= cycle else {}
        feed.append(record(cycle, strings={s: (0, 0, stuck.get(s, 0), only(its)) for s, (its, _) in enumerate(jets)}))
    return b"".join(feed)


def reenable_too_early(without=()):
    """String 3, manifold 2: jet 10 fails off, the valve is closed, and re-enables come before it is open, or just as it closes. Jet 21 is
    on manifold 5, which stays open. Without: cycles whose re-enables of jets 8 to 11 are left out."""
    feed = [map_bytes(HALL)]
    asked = {
        50: (0, only(8) | only(10) | only(21)),
        75: (only(11), 0),
        100: (0, only(10)),
        125: (0, only(11)),
        150: (0, only(8)),
        175: (0, only(9)),
    }
    behind = 0xF << 8
    for cycle in range(1, 201):
        commanded = 0
        if 10 <= cycle <= 12:
            commanded = only(10) | only(21)
        if 140 <= cycle <= 142:
            commanded = only(9)
        valves = ALL_OPEN - (only(2) if 30 <= cycle < 90 or 150 <= cycle < 175 else 0)
        inhibit, reenable = asked.get(cycle, (0, 0))
        if cycle in without:
            reenable &= ~behind
        feed.append(record(cycle, strings={3: (commanded, 0, 0, valves)}, requests={3: (inhibit, reenable)}))
    return b"".join(feed)


def tenant_alone():
    """String 0, manifold 0: the driver of jet 3 stays on when its command ends, and the valve is closed by hand. On manifold 1 there is
    nothing to see."""
    return map_bytes(LET) + b"".join(tenants_record(cycle) for cycle in range(1, 151))


def tenant_with_neighbour(sent_again=True):
    """The same on manifold 0. On manifold 1 jet 20 leaks, the valve is closed and opened again, a script asks twice for an inhibit and a
    re-enable of jet 25 and then for the inhibit alone, and the close bit is dropped. An old record comes back. Sent again: what the script
    asks for at last comes in a record of the same cycle."""
    feed = [map_bytes(LET)]
    for cycle in range(1, 151):
        if cycle == 100:
            feed += 2 * [tenants_record(cycle, neighbour=True, requests={0: (only(25), only(25))})]
        if cycle != 100 or sent_again:
            feed.append(tenants_record(cycle, neighbour=True, requests={0: (only(25), 0)} if cycle == 100 else {}))
        if cycle == 62:
            feed.append(tenants_record(50, neighbour=True))
    return b"".join(feed)


def tenants_record(cycle, neighbour=False, requests={}):
    """A record of either of these two nights."""
    commanded = only(3) if 20 <= cycle < 40 else 0
    driver = only(3) if 20 <= cycle else 0
    pressure = driver if cycle < 110 else 0
    valves = ALL_OPEN if cycle < 110 else ALL_OPEN - only(0)
    if not neighbour:
        return record(cycle, strings={0: (commanded, pressure, driver, valves)})
    fires = only(30) if cycle < 80 else 0
    closed = only(1) if 80 <= cycle < 140 else 0
    strings = {0: (commanded | fires, pressure | fires, driver | fires, valves - closed)}
    temps = {(0, 20): (word_of(-40), 300)} if 20 <= cycle < 80 else {}
    blown_off = 12 * max(0, min(cycle, 80) - 20) // 25
    drops = {0: only(1)} if cycle == 125 else {}
    return record(cycle, 0, strings, temps, requests, {0: (500 - blown_off, 500)}, drops)


def banks_apart(with_old=True, damaged=True, paths=(1 << STRINGS) - 1):
    """Module 1: its fuel bank leaks where no jet shows it, then is refilled beyond the other and let off. The banks of module 0 fall alike.
    Old: record 50 comes back at 80. Damaged: record 150 has a wrong byte. Paths: those that fail from 170 to 180."""
    feed = [map_bytes(HALL)]
    fuel = {25: 500, 50: 496, 75: 492, 100: 488, 125: 484, 150: 480, 175: 476, 200: 492, 225: 508, 250: 517, 275: 516, 300: 500}

    def at(cycle):
        used = 2 * cycle // MAJOR_EVERY
        banks = {0: (500 - used, 500 - used), 1: (fuel.get(cycle), 500), 2: (500, 497)}
        return record(cycle, paths if 170 <= cycle <= 180 else 0, banks=banks)

    for cycle in range(1, 311):
        sent = at(cycle)
        if cycle == 150 and damaged:
            sent = sent[:609] + b"\x00" + sent[610:]  # in the fuel quantity of module 1: 224 for 480
        feed.append(sent)
        if cycle == 80 and with_old:
            feed.append(at(50))
    return b"".join(feed)


def with_zero_masks(old):
    """The map of 128 bytes for a table of four manifolds: sixteen bytes of 00 behind each string's sixteen."""
    return map_bytes([masks_of(*string) for string in old])


def of_full_table(old):
    """A map of 64 bytes whose strings all have the same jets: read as one of 128 bytes it is refused."""
    return map_bytes([[0x000000FF, 0x0000FF00, 0x00FF0000, 0xFF000000]] * len(old))


NIGHTS = {
    "1-stuck-jet": stuck_jet,
    "2-hand-closed-valve": hand_closed_valve,
    "3-cable-pull": cable_pull,
    "4-path-fault": path_fault,
    "5-old-records": old_records,
    "6-below-zero": below_zero,
    "7-both-ways": both_ways,
    "8-repair": repair,
    "9-old-map": old_map,
    "10-reenable-too-early": reenable_too_early,
    "11-tenant-alone": tenant_alone,
    "12-tenant-with-neighbour": tenant_with_neighbour,
    "13-banks-apart": banks_apart,
}


def main():
    folder = pathlib.Path(sys.argv[1]) if len(sys.argv) > 1 else HERE
    for name, night in NIGHTS.items():
        (folder / f"{name}.feed").write_bytes(night())


if __name__ == "__main__":
    main()
