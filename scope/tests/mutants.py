#!/usr/bin/env python3
"""Makes broken traces of lawful ones, by a seed: moved, dropped, swapped, added and turned rows.

    scope/tests/mutants.py SEED COUNT [REPORT ..]

prints, for each, its number, the report, the change, and its rows. `broken(seed, count)` gives them to the tests.
"""
import random
import sys
from pathlib import Path

sys.path.insert(0, str(Path(__file__).resolve().parent.parent))
from scsiscope.judge import Judge, row_text  # noqa: E402
from scsiscope.trace import Trace  # noqa: E402

ROOT = Path(__file__).resolve().parents[2]
STEPS = (1, 5, 10, 20, 35, 45, 55, 90, 100, 200, 400, 800)


def reports():
    """Lawful reports of the repository, the small ones."""
    found = sorted(ROOT.glob("examples/*.out")) + sorted(ROOT.glob("tools/*cases/*.out"))
    return [path for path in found if path.parent.name != "dump_cases" and path.stat().st_size < 200_000]


def changed(rows, end, rnd):
    """One change, or None: its name, the rows and the end."""
    rows = list(rows)
    place = rnd.randrange(len(rows))
    kind = rnd.choice(("sooner", "later", "gap", "dropped", "turned", "swapped", "device", "added", "far", "byte", "cut"))
    time, device, value = rows[place]
    if kind == "sooner":
        rows[place] = (time - rnd.choice(STEPS), device, value)
    elif kind == "later":
        rows[place] = (time + rnd.choice(STEPS), device, value)
    elif kind == "gap":
        wait = rnd.choice((10, 100, 500, 2000, 30_000))
        rows[place:] = [(t + wait, d, v) for t, d, v in rows[place:]]
        end += wait
    elif kind == "dropped":
        del rows[place]
    elif kind == "turned" and value >= 0:
        rows[place] = (time, device, value ^ 1 << rnd.randrange(18))
    elif kind == "swapped" and place + 1 < len(rows):
        after = rows[place + 1]
        rows[place], rows[place + 1] = (time, *after[1:]), (after[0], device, value)
    elif kind == "device":
        rows[place] = (time, rnd.randrange(8), value)
    elif kind == "added":
        rows.insert(place, (time, rnd.randrange(8), 1 << rnd.randrange(18)))
    elif kind == "far" and place:
        rows[place:] = [(t - rnd.choice(STEPS), d, v) for t, d, v in rows[place:]]
    elif kind == "byte" and value >= 0 and value & 0x1FF:
        flipped = value ^ 1 << rnd.randrange(8)
        rows[place] = (time, device, flipped ^ 0x100)
        for later in range(place + 1, min(len(rows), place + 12)):
            t, d, v = rows[later]
            if d == device:
                if v < 0 or (v ^ value) & 0x1FF:
                    break
                rows[later] = (t, d, v & ~0x1FF | rows[place][2] & 0x1FF)
    elif kind == "cut":
        stop = min(len(rows), place + rnd.randrange(2, 6))
        del rows[place:stop]
    else:
        return None
    if any(t < 0 for t, _, _ in rows):
        return None
    return kind, rows, end


def text_of(rows, end):
    return b"trace 1\n" + b"".join(row_text(*row) for row in rows) + b"end %d\n" % end


def broken(judge, seed, count, paths=None, most=1 << 30):
    """So many broken traces of this seed, at most `most` of a rule: (report, change, text, row, rule)."""
    rnd = random.Random(seed)
    paths = paths or reports()
    traces = {}
    found, by_rule, tries = 0, {}, 0
    while found < count and tries < 400 * count:
        tries += 1
        path = rnd.choice(paths)
        if path not in traces:
            trace = Trace(path.read_bytes(), str(path))
            traces[path] = (trace.rows(0, len(trace)), trace.end)
        change = changed(*traces[path], rnd)
        if change is None or not change[1]:
            continue
        text = text_of(*change[1:])
        said = judge.verdict(text)
        if said is None or by_rule.get(said[1], 0) >= most:
            continue
        by_rule[said[1]] = by_rule.get(said[1], 0) + 1
        found += 1
        yield path.stem, change[0], text, *said


if __name__ == "__main__":
    for number, (name, kind, text, row, rule) in enumerate(broken(Judge(), int(sys.argv[1]), int(sys.argv[2])), 1):
        print(number, name, kind, row, rule)
