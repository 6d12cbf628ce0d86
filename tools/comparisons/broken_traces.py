#!/usr/bin/env python3
"""Writes traces that are broken, most of them: those of the examples with random changes, the same for the same seed.

    tools/comparisons/broken_traces.py SEED COUNT FOLDER

Writes FOLDER/1.trace to FOLDER/COUNT.trace. Each is a trace of an example, or a random trace of tools/comparisons/random_trace.py, in
which one to three rows are left out, come twice or in another order, earlier or later, are of another device, drive one
line more or less, or follow a fault. Some of them stay lawful. It is meant for comparing programs that judge traces.
"""
import pathlib
import random
import subprocess
import sys

ROOT = pathlib.Path(__file__).resolve().parent.parent.parent
RANDOM_TRACES = 20


def trace_of(text):
    """The rows of a trace or a report as [time, device, kind], and its end."""
    lines = text.split("\n")
    rows = []
    for line in lines[1:]:
        if line.startswith("end "):
            return rows, int(line[4:])
        time, dev, kind = line.split()
        rows.append([int(time), int(dev), kind])
    sys.exit("a trace has no end")


def change(rows, at, dice):
    """Changes a row, or what stands about it."""
    time, dev, kind = rows[at]
    step = dice.choice([1, 1, 2, 5, 10, 45, 55, 90, 100, 400, 1000, 2400])
    how = dice.randrange(8)
    if how == 0:
        del rows[at]
    elif how == 1:
        rows.insert(at, list(rows[at]))
    elif how == 2 and at + 1 < len(rows):
        rows[at], rows[at + 1] = rows[at + 1], rows[at]
    elif how == 3:
        rows[at][0] = max(0, time + dice.choice([-1, 1]) * step)
    elif how == 4:
        move = -step if dice.random() < 0.5 else step
        for row in rows[at:]:
            row[0] = max(0, row[0] + move)
    elif how == 5:
        rows[at][1] = dice.randrange(8)
    elif how == 6 and not kind.startswith("f"):
        rows[at][2] = "%05x" % (int(kind, 16) ^ 1 << dice.randrange(18))
    else:
        rows.insert(at + 1, [time, dice.randrange(8), "f%d" % dice.randrange(9)])


def main():
    if len(sys.argv) != 4:
        sys.exit(__doc__)
    seed, count, folder = int(sys.argv[1]), int(sys.argv[2]), pathlib.Path(sys.argv[3])
    folder.mkdir(parents=True, exist_ok=True)
    texts = [it.read_text() for it in sorted((ROOT / "examples").glob("*.out"))]
    made = ROOT / "tools/comparisons/random_trace.py"
    texts += [subprocess.run([made, str(seed + k)], stdout=subprocess.PIPE, check=True, text=True).stdout for k in range(RANDOM_TRACES)]
    traces = [trace_of(it) for it in texts]
    dice = random.Random(seed)
    for number in range(1, count + 1):
        rows, end = dice.choice(traces)
        rows = [list(it) for it in rows]
        for _ in range(dice.choice([1, 1, 1, 2, 3])):
            change(rows, dice.randrange(len(rows)), dice)
        if dice.random() < 0.1:
            end = max(0, end + dice.choice([-1, 1, 1000000]))
        lines = ["trace 1", *["%d %d %s" % tuple(it) for it in rows], "end %d" % end, ""]
        (folder / ("%d.trace" % number)).write_text("\n".join(lines))


if __name__ == "__main__":
    main()
