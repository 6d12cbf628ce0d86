#!/usr/bin/env python3
"""Prints a small random scenario, the same for the same seed.

    tools/comparisons/random_scenario.py SEED

Of both versions of the text, with up to three initiators and two targets, every policy and tag, faults, aborts, resets,
synchronous transfer at fast and slow factors, absent units and targets, and commands that end with CHECK CONDITION: what a
simulator of the bus is compared with another on, and what `tools/makers/due_case.py` turns into lemmas. A run of it has some
hundred rows, rarely a thousand.
"""
import random
import sys

SIZES = (16, 16, 16, 32)


def latency(rng):
    return rng.choice((0, 0, 100, rng.randint(0, 100), rng.randint(0, 100)))


def agreement(rng, most):
    if rng.random() < 0.4:
        return "0 0"
    period = rng.choice((25, 25, 30, 49, 50, 50, 60, 75, rng.randint(25, 255)))
    return "%d %d" % (period, min(most, rng.choice((0, 1, 1, 2, 3, 5, 8, 15, 255))))


def initiator(rng, version, dev):
    line = "initiator %d latency %d open %d retries %d sync %s lag %d" % (
        dev, latency(rng), rng.randint(1, 4), rng.choice((0, 1, 2, 2, 3)), agreement(rng, 255),
        rng.choice((0, 0, 25, rng.randint(0, 600), 3000)))
    return line + (" offers %s" % rng.choice(("yes", "yes", "no")) if version >= 2 else "")


def target(rng, version, dev):
    policy = rng.choice(("never", "never", "command", "burst 1", "burst 2", "nosave 1", "nosave 2"))
    line = "target %d latency %d retries %d disc %s pick %s seek %d sync %s" % (
        dev, latency(rng), rng.choice((0, 1, 2, 2, 3)), policy, rng.choice(("first", "last")),
        rng.choice((0, 0, 1000, rng.randint(0, 90000))), agreement(rng, 254))
    return line + (" begins %s" % rng.choice(("yes", "no")) if version >= 2 else "")


def tag(rng):
    kind = rng.choice(("untagged", "simple", "simple", "simple", "ordered", "head"))
    return kind if kind == "untagged" else "%s %d" % (kind, rng.choice((0, 1, 2, 3, 255)))


def blocks_command(rng, unit):
    """A read or a write of a few blocks: its command descriptor block, and the bytes that a write sends."""
    count = rng.choice((0, 1, 1, 1, 2, 3))
    lba = rng.randint(0, unit["blocks"] + (1 if rng.random() < 0.15 else -1))
    writes = rng.random() < 0.5
    if rng.random() < 0.5:
        count = max(count, 1)
        cdb = bytes((0x0A if writes else 0x08, lba >> 16, lba >> 8 & 255, lba & 255, count, 0))
    else:
        cdb = bytes((0x2A if writes else 0x28, 0)) + lba.to_bytes(4, "big") + bytes((0,)) + count.to_bytes(2, "big") + bytes((0,))
    moved = count * unit["size"] if lba + count <= unit["blocks"] else 0
    return cdb, moved if writes else 0


def other_command(rng):
    return bytes(rng.choice((
        (0, 0, 0, 0, 0, 0), (0, 0, 0, 0, 0, 0), (3, 0, 0, 0, rng.choice((0, 4, 18, 255)), 0),
        (0x12, 0, 0, 0, rng.choice((0, 5, 8, 36, 40)), 0), (0x25, 0, 0, 0, 0, 0, 0, 0, 0, 0), (0x1D, 0, 0, 0, 0, 0),
        (0, 0, 1, 0, 0, 0), (3, 0, 0, 1, 18, 0), (0x12, 1, 0, 0, 36, 0))))


def payload(rng, n):
    if n == 0:
        return "none"
    if rng.random() < 0.5:
        return "out from %02x" % rng.randint(0, 255)
    few = bytes(rng.randint(0, 255) for _ in range(3))
    return "out hex " + bytes(rng.choice(few) for _ in range(n)).hex()


def command(rng, hosts, targets, units):
    host = rng.choice(hosts)
    unit = rng.choice(units)
    where = (unit["target"], unit["unit"])
    n = 0
    if rng.random() < 0.55:
        cdb, n = blocks_command(rng, unit)
    else:
        cdb = other_command(rng)
    if rng.random() < 0.08:
        where = (where[0], rng.choice([u for u in range(8) if (where[0], u) not in {(v["target"], v["unit"]) for v in units}]))
        n = 0
    elif rng.random() < 0.04:
        where = (rng.choice([d for d in range(8) if d not in hosts and d not in targets]), where[1])
        n = 0
    at = rng.choice((0, 0, 0, rng.randint(0, 60000)))
    return "cmd %d %d %d at %d %s cdb %s %s" % (host, where[0], where[1], at, tag(rng), cdb.hex(), payload(rng, n))


def lines(seed):
    rng = random.Random(seed)
    version = rng.choice((1, 2))
    devices = rng.sample(range(8), 5)
    hosts = devices[: rng.choice((1, 1, 2, 3))]
    targets = devices[3 : 3 + rng.choice((1, 1, 2))]
    yield "scsi %d" % version
    yield from (initiator(rng, version, dev) for dev in hosts)
    yield from (target(rng, version, dev) for dev in targets)
    units = []
    for dev in targets:
        for unit in sorted(rng.sample(range(8), rng.choice((1, 1, 2)))):
            units.append({"target": dev, "unit": unit, "blocks": rng.randint(1, 6), "size": rng.choice(SIZES)})
            yield "unit %d %d blocks %d size %d depth %d" % (dev, unit, units[-1]["blocks"], units[-1]["size"], rng.choice((1, 1, 2, 4)))
    for unit in units:
        if rng.random() < 0.6:
            block = bytes(rng.choice((0, 0xFF, 0x80, rng.randint(0, 255))) for _ in range(unit["size"]))
            yield "fill %d %d %d %s" % (unit["target"], unit["unit"], rng.randint(0, unit["blocks"] - 1), block.hex())
    yield from (command(rng, hosts, targets, units) for _ in range(rng.randint(1, 5)))
    if rng.random() < 0.3:
        for _ in range(rng.randint(1, 2)):
            unit = rng.choice(units)
            what = rng.choice(("all", "queue", "device", "tag %d" % rng.choice((0, 1, 2, 3))))
            yield "abort %d %d %d at %d %s" % (rng.choice(hosts), unit["target"], unit["unit"], rng.randint(0, 60000), what)
    if rng.random() < 0.25:
        for _ in range(rng.randint(1, 2)):
            yield "reset %d at %d" % (rng.choice(hosts + targets), rng.randint(0, 60000))
    if rng.random() < 0.6:
        for _ in range(rng.choice((1, 1, 2, 3, 6))):
            yield "fault at %d bit %d" % (rng.randint(0, 60000), rng.randint(0, 8))
    yield "end"


if __name__ == "__main__":
    print("\n".join(lines(int(sys.argv[1]))))
