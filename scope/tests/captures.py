#!/usr/bin/env python3
"""What is told of captures whose bus is known: random runs through a simulated logic analyser.

    scope/tests/captures.py [COUNT [LEAST [MOST]]] [-v]

Takes COUNT (200) random scenarios of tools/comparisons/random_scenario.py with latencies from LEAST (10) to MOST (100) ns, runs each, and samples the
lines at 100, 200 and 500 MHz with a random phase: 18 wires, active low, as a dump. Then the same runs with one row moved by more than the time
between two samples beyond a limit of a rule. Prints two tables, with -v also what is told otherwise, and ends with status 1 where a lawful run is broken for sure.
"""
import random
import re
import subprocess
import sys
from argparse import Namespace
from collections import Counter
from pathlib import Path

sys.path[:0] = [str(Path(__file__).resolve().parent.parent), str(Path(__file__).resolve().parent)]
from scsiscope import drivers, recording, tolerance  # noqa: E402
from scsiscope.gauge import walk  # noqa: E402
from scsiscope.judge import Judge  # noqa: E402
from scsiscope.rules import Bus  # noqa: E402
from scsiscope.trace import Trace, findings, step  # noqa: E402

ROOT = Path(__file__).resolve().parents[2]
OPTIONS = Namespace(map=None, low=True, high=False, deglitch=False)
MOST_ROWS = 4000


def union_of(rows):
    """The changes of the lines: (time, lines) after the last row of each time."""
    drives, out = [0] * 8, [(0, 0)]
    for time, device, value in rows:
        if value >= 0:
            drives[device] = value
        union = 0
        for lines in drives:
            union |= lines
        if out[-1][0] == time:
            out[-1] = (time, union)
        else:
            out.append((time, union))
    return out


def dump_of(rows, end, period, phase):
    """What an analyser that samples each `period` ns, first at `phase`, writes: 18 wires, active low."""
    changes, place, lines, last, out = union_of(rows), 0, 0, None, []
    out.append("$timescale 1 ns $end\n$comment Acquisition with 18/18 channels at %g MHz $end\n$scope module bus $end" % (1000 / period))
    codes = [chr(33 + bit) for bit in range(18)]
    out += ["$var wire 1 %s n%s $end" % (codes[bit], recording.LINE_NAMES[bit]) for bit in range(18)]
    out.append("$upscope $end\n$enddefinitions $end")
    time = phase
    while place < len(changes) or last is None:
        while place < len(changes) and changes[place][0] <= time:
            lines = changes[place][1]
            place += 1
        if lines != last:
            out.append("#%d" % (time - phase))
            out += ["%d%s" % (0 if lines >> bit & 1 else 1, codes[bit]) for bit in range(18) if last is None or (lines ^ last) >> bit & 1]
            last = lines
        if place < len(changes):
            # The first sample that sees the next change.
            time += -(-(changes[place][0] - time) // period) * period
        else:
            break
    out.append("#%d" % (end + 4 * period))
    return ("\n".join(out) + "\n").encode()


def told(judge, rows, end, period, phase):
    """What is told of such a capture: the answer, and whether the union of the rows is what was sampled."""
    found = recording.read("capture", dump_of(rows, end, period, phase), OPTIONS)
    made, last, origin = drivers.rows_of(found)
    seen = [it for it in found.samples if it[0] - origin > 0]
    while seen and not seen[0][1]:
        del seen[0]
    exact = [(time + origin, lines) for time, lines in union_of(made.rows) if time] == seen
    if not made.rows:
        return None, exact, made
    return tolerance.verdict_within(judge, made.rows, made.hidden, found.period, max(last, made.rows[-1][0])), exact, made


def table_of(rows, end, period, phase):
    """The same as Saleae's program writes a table of changes: seconds from the trigger, here 1 ms after the first sample."""
    samples, time = [], None
    for line in dump_of(rows, end, period, phase).decode().split("$enddefinitions $end\n")[1].split("\n"):
        if line.startswith("#"):
            time = int(line[1:])
            samples.append([time, samples[-1][1] if samples else 0x3FFFF])
        elif line:
            bit = ord(line[1]) - 33
            samples[-1][1] = samples[-1][1] | 1 << bit if line[0] == "1" else samples[-1][1] & ~(1 << bit)
    out = ["Time [s]," + ",".join("-" + name for name in recording.LINE_NAMES)]
    out += ["%.9f,%s" % ((time - 1_000_000) / 1e9, ",".join(str(lines >> bit & 1) for bit in range(18))) for time, lines in samples]
    return "\n".join(out).encode() + b"\n"


def runs(judge, count, least, most):
    """Lawful runs of random scenarios."""
    seed = found = 0
    while found < count:
        seed += 1
        text = subprocess.run([sys.executable, str(ROOT / "tools/comparisons/random_scenario.py"), str(seed)], stdout=subprocess.PIPE, check=True).stdout.decode()
        rnd = random.Random(seed)
        text = re.sub(r"latency \d+", lambda _: "latency %d" % rnd.randint(least, most), text)
        status, report = judge.words(["run"], text.encode())
        if status or not report.startswith(b"trace 1\n"):
            continue
        trace = Trace(report)
        # Faults strike samples inside a device, and are not on the lines.
        rows = [row for row in trace.rows(0, len(trace)) if row[2] >= 0]
        if not 30 < len(rows) < MOST_ROWS or judge.verdict(tolerance.text_of(rows, trace.end)):
            continue
        found += 1
        yield seed, rows, trace.end


def moved(judge, rows, end, period, rnd):
    """The rows with one moved by more than a period beyond a limit, and the row and rule that so is broken; or None.

    The row is seen on the lines, and so is what it is measured from: no capture shows who let go of a line that another still drives.
    """
    bus, places, seen = Bus(), [], {0}
    for place, row in enumerate(rows):
        before, kept = bus.lines, findings(bus, row)[1]
        step(bus, row)
        if bus.lines != before:
            seen.add(row[0])
            places += [(place, it) for it in kept if place and it.since in seen and it.sentence != "11b"]
    rnd.shuffle(places)
    # Each sentence as likely as another.
    names = sorted({it.sentence for _, it in places})
    rnd.shuffle(names)
    for name in names:
        for place, it in [at for at in places if at[1].sentence == name][:12]:
            time, device, value = rows[place]
            beyond = period + rnd.randint(1, 20)
            new = it.bound + beyond if it.is_latest else it.bound - beyond
            before = rows[place - 1][0] if place else 0
            after = rows[place + 1][0] if place + 1 < len(rows) else end
            if not before <= new <= after:
                continue
            changed = rows[:place] + [(new, device, value)] + rows[place + 1:]
            said = judge.verdict(tolerance.text_of(changed, end))
            if said and said[1] == it.rule:
                return changed, said, name
    return None


def main():
    numbers = [int(word) for word in sys.argv[1:] if word.isdigit()]
    count, least, most = (numbers + [200, 10, 100][len(numbers):])[:3]
    judge = Judge()
    rates = ((100, 10), (200, 5), (500, 2))
    lawful = {rate: Counter() for rate, _ in rates}
    broken = {rate: Counter() for rate, _ in rates}
    wrong = inexact = 0
    for seed, rows, end in runs(judge, count, least, most):
        for rate, period in rates:
            rnd = random.Random(seed * 1000 + rate)
            answer, exact, _ = told(judge, rows, end, period, rnd.randrange(period))
            inexact += not exact
            lawful[rate][answer.verdict if answer else "empty"] += 1
            if answer and answer.verdict == "broken":
                wrong += 1
                print("seed %d at %d MHz: lawful, and told broken for sure: row %d, %s" % (seed, rate, answer.row + 1, answer.sentence))
            if "-v" in sys.argv and answer.verdict == "unknown":
                print("seed %d at %d MHz: %s" % (seed, rate, answer))
            change = moved(judge, rows, end, period, rnd)
            if change is None:
                broken[rate]["not moved"] += 1
                continue
            answer, exact, _ = told(judge, change[0], end, period, rnd.randrange(period))
            inexact += not exact
            kind = answer.verdict
            if kind == "broken":
                kind = "right" if answer.rule == change[1][1] else "other"
            broken[rate][kind] += 1
            if "-v" in sys.argv and kind != "right":
                print("seed %d at %d MHz: %s by %s told %s %s" % (seed, rate, change[1], change[2], kind, answer._replace(witness=[], chain=answer.chain[:3])))
    print("%d lawful runs, latencies %d to %d ns\n" % (count, least, most))
    print("| sampled at | lawful | broken for sure | cannot be told |\n|---|---|---|---|")
    for rate, _ in rates:
        it = lawful[rate]
        print("| %d MHz | %d | %d | %d |" % (rate, it["lawful"], it["broken"], it["unknown"]))
    print("\none row moved by more than a sample beyond a limit\n")
    print("| sampled at | broken for sure, by the right rule | by another rule | cannot be told | lawful |\n|---|---|---|---|---|")
    for rate, _ in rates:
        it = broken[rate]
        print("| %d MHz | %d | %d | %d | %d |" % (rate, it["right"], it["other"], it["unknown"], it["lawful"]))
    print("\n%d captures whose rows have another union than what was sampled" % inexact)
    sys.exit(1 if wrong or inexact else 0)


if __name__ == "__main__":
    main()
