#!/usr/bin/env python3
"""Prints a small random scenario with tapes, the same for the same seed.

    tools/comparisons/random_tapes.py SEED

As tools/comparisons/random_scenario.py, in text 3: with up to two tapes at a target and disks beside them, loads of blocks and
filemarks, every command of a tape with counts about what stands there and great ones, its faults, and commands at units that are
not there.
"""
import random
import sys

from random_scenario import SIZES, blocks_command, initiator, other_command, payload, tag, target

# What SPACE moves over.
BLOCKS, FILEMARKS, END = 0, 1, 3


def count_6(count):
    return tuple((count & 0xFFFFFF).to_bytes(3, "big"))


def few(rng, tape):
    """A count of objects, mostly such as the tape has."""
    return rng.choice((0, 1, 1, 1, 2, 2, 3, rng.randint(0, tape["objects"] + 1)))


def high(rng):
    """The high three bits of byte 1, which a tape ignores."""
    return rng.choice((0, 0, 0, 0, 0x20, 0xE0))


def space(rng, tape):
    code = rng.choice((BLOCKS, BLOCKS, BLOCKS, FILEMARKS, FILEMARKS, FILEMARKS, END))
    count = rng.choice((1, -1)) * few(rng, tape)
    if rng.random() < 0.04:
        count = rng.choice((2 ** 23 - 1, -(2 ** 23), 4096))
    return bytes((0x11, high(rng) | code) + count_6(count) + (0,))


def faulty(rng):
    """A command that a tape refuses: another operation code, Fixed 0, a code of SPACE that it does not know, and the like."""
    return bytes(rng.choice((
        (0x25, 0, 0, 0, 0, 0, 0, 0, 0, 0), (0x28, 0, 0, 0, 0, 0, 0, 0, 1, 0), (0x2A, 0, 0, 0, 0, 0, 0, 0, 1, 0), (0x1D, 0, 0, 0, 0, 0),
        (0x08, 0, 0, 0, 1, 0), (0x0A, 0, 0, 0, 1, 0), (0x08, 3, 0, 0, 1, 0), (0x11, 2, 0, 0, 1, 0), (0x11, 8, 0, 0, 1, 0),
        (0x10, 2, 0, 0, 1, 0), (0x01, 0, 0, 0, 1, 0), (0x08, 1, 0, 0, 1, 1), (0x00, 0, 0, 0, 1, 0), (0x12, 1, 0, 0, 36, 0))))


def tape_command(rng, tape):
    """A command of a tape, and how many bytes it sends."""
    kind = rng.random()
    if kind < 0.3:
        return bytes((0x08, high(rng) | 1) + count_6(few(rng, tape)) + (0,)), 0
    if kind < 0.5:
        count = few(rng, tape)
        return bytes((0x0A, high(rng) | 1) + count_6(count) + (0,)), count * tape["size"]
    if kind < 0.62:
        count = few(rng, tape) if rng.random() < 0.9 else rng.choice((2 ** 24 - 1, 70000))
        return bytes((0x10, high(rng) | rng.choice((0, 1))) + count_6(count) + (0,)), 0
    if kind < 0.8:
        return space(rng, tape), 0
    if kind < 0.9:
        return bytes((0x01, high(rng) | rng.choice((0, 1)), 0, 0, 0, 0)), 0
    if kind < 0.95:
        return bytes(rng.choice((
            (0, 0, 0, 0, 0, 0), (3, 0, 0, 0, rng.choice((0, 4, 18, 255)), 0), (0x12, 0, 0, 0, rng.choice((0, 5, 8, 36, 40)), 0)))), 0
    return faulty(rng), 0


def command(rng, hosts, targets, units):
    host = rng.choice(hosts)
    unit = rng.choice(units)
    where = (unit["target"], unit["unit"])
    n = 0
    if "objects" in unit:
        cdb, n = tape_command(rng, unit)
    elif rng.random() < 0.6:
        cdb, n = blocks_command(rng, unit)
    else:
        cdb = other_command(rng)
    if rng.random() < 0.06:
        where = (where[0], rng.choice([u for u in range(8) if (where[0], u) not in {(v["target"], v["unit"]) for v in units}]))
        n = 0
    elif rng.random() < 0.03:
        where = (rng.choice([d for d in range(8) if d not in hosts and d not in targets]), where[1])
        n = 0
    at = rng.choice((0, 0, 0, rng.randint(0, 60000)))
    return "cmd %d %d %d at %d %s cdb %s %s" % (host, where[0], where[1], at, tag(rng), cdb.hex(), payload(rng, n))


def block(rng, size):
    return bytes(rng.choice((0, 0xFF, 0x80, rng.randint(0, 255))) for _ in range(size)).hex()


def units_of(rng, targets):
    """The disks and the tapes, apart: each target has a tape or more, and maybe disks."""
    disks, tapes = [], []
    for dev in targets:
        numbers = rng.sample(range(8), 4)
        for unit in sorted(numbers[: rng.choice((0, 0, 1, 2))]):
            disks.append({"target": dev, "unit": unit, "blocks": rng.randint(1, 6), "size": rng.choice(SIZES)})
        for unit in sorted(numbers[2 : 2 + rng.choice((1, 1, 2))]):
            tapes.append({"target": dev, "unit": unit, "objects": rng.choice((1, 2, 3, 4, 6, 8, 12)), "size": rng.choice(SIZES)})
    return disks, tapes


def lines(seed):
    rng = random.Random(seed)
    devices = rng.sample(range(8), 5)
    hosts = devices[: rng.choice((1, 1, 2, 3))]
    targets = devices[3 : 3 + rng.choice((1, 1, 2))]
    yield "scsi 3"
    yield from (initiator(rng, 3, dev) for dev in hosts)
    yield from (target(rng, 3, dev) for dev in targets)
    disks, tapes = units_of(rng, targets)
    for disk in disks:
        yield "unit %d %d blocks %d size %d depth %d" % (disk["target"], disk["unit"], disk["blocks"], disk["size"], rng.choice((1, 1, 2, 4)))
    for disk in disks:
        if rng.random() < 0.6:
            yield "fill %d %d %d %s" % (disk["target"], disk["unit"], rng.randint(0, disk["blocks"] - 1), block(rng, disk["size"]))
    for tape in tapes:
        yield "tape %d %d objects %d size %d depth %d" % (tape["target"], tape["unit"], tape["objects"], tape["size"], rng.choice((1, 1, 2, 4)))
    for tape in tapes:
        for _ in range(rng.randint(0, tape["objects"])):
            what = "mark" if rng.random() < 0.3 else block(rng, tape["size"])
            yield "load %d %d %s" % (tape["target"], tape["unit"], what)
    units = disks + tapes * 3
    yield from (command(rng, hosts, targets, units) for _ in range(rng.randint(1, 6)))
    if rng.random() < 0.3:
        for _ in range(rng.randint(1, 2)):
            unit = rng.choice(units)
            what = rng.choice(("all", "queue", "device", "tag %d" % rng.choice((0, 1, 2, 3))))
            yield "abort %d %d %d at %d %s" % (rng.choice(hosts), unit["target"], unit["unit"], rng.randint(0, 60000), what)
    if rng.random() < 0.25:
        for _ in range(rng.randint(1, 2)):
            yield "reset %d at %d" % (rng.choice(hosts + targets), rng.randint(0, 60000))
    if rng.random() < 0.6:
        for _ in range(rng.choice((1, 1, 2, 3, 6))):
            yield "fault at %d bit %d" % (rng.randint(0, 60000), rng.randint(0, 8))
    yield "end"


if __name__ == "__main__":
    print("\n".join(lines(int(sys.argv[1]))))
