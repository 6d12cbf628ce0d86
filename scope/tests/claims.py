#!/usr/bin/env python3
"""Checks what `explain` says of broken traces against the judge.

    scope/tests/claims.py [COUNT [SEED]]

Takes the traces of scope/tests/broken, and COUNT more that it makes by a seed, at most an eighth of each rule. For each: row and rule
are the judge's; the sentence is one of that rule and false by the second reading; a time that is told is right, and 1 ns before (or after)
it is not; each change that is told makes the row right, and the rest is as told. The questions are put anew, from whole texts. Ends with
status 1 where a claim is contradicted, or where fewer than nine in ten have a time or a change.
"""
import sys
from collections import Counter
from pathlib import Path

sys.path[:0] = [str(Path(__file__).resolve().parent.parent), str(Path(__file__).resolve().parent)]
import mutants  # noqa: E402
from scsiscope.explain import Explanation  # noqa: E402
from scsiscope.judge import Judge  # noqa: E402
from scsiscope.trace import Trace  # noqa: E402

HERE = Path(__file__).resolve().parent


def asked(judge, rows, end):
    """The verdict on whole rows, as a text that is made here."""
    lines = ["trace 1"]
    lines += ["%d %d %s" % (t, d, "f%d" % (-1 - v) if v < 0 else "%05x" % v) for t, d, v in rows]
    return judge.verdict(("\n".join(lines) + "\nend %d\n" % end).encode())


def is_right(judge, rows, count):
    """Whether the last of these rows breaks no rule, nor one before it."""
    said = asked(judge, rows, rows[-1][0])
    return said is None or said[0] > count


def contradictions(judge, text, row, rule, told):
    """What the judge says against an explanation."""
    trace = Trace(text)
    rows = trace.rows(0, len(trace))
    place = row - 1
    if (told.place, told.rule) != (place, rule):
        yield "row %d rule %d told as %d %d" % (row, rule, told.place + 1, told.rule)
    if not told.broken or any(finding.rule != rule for finding in told.broken):
        yield "no sentence of rule %d" % rule
    times = told.times
    if times:
        for moment, ask in ((times.first, -1), (times.last, 1)):
            if moment is None:
                continue
            if place == len(rows):
                right, wrong = asked(judge, rows, moment) is None, asked(judge, rows, moment + ask) is not None
            else:
                device, value = rows[place][1:]
                right = is_right(judge, rows[:place] + [(moment, device, value)], row)
                wrong = not is_right(judge, rows[:place] + [(moment + ask, device, value)], row)
            if not right or not wrong:
                yield "time %d: right %s, beyond it wrong %s" % (moment, right, wrong)
        if times.first is not None and times.rest != "not asked" and place < len(rows):
            later = times.first - rows[place][0]
            moved = rows[:place] + [(t + later, d, v) for t, d, v in rows[place:]]
            if asked(judge, moved, max(trace.end, rows[-1][0]) + later) != times.rest:
                yield "the rest later by %d" % later
    for change in told.changes:
        changed = rows[: change.start] + change.rows + rows[change.stop:]
        said = asked(judge, changed, max(trace.end, changed[-1][0] if changed else 0))
        stands = place + len(change.rows) - (change.stop - change.start) + 1
        if said is not None and said[0] <= max(stands, change.start + len(change.rows)):
            yield "%s: %s" % (change.words, said)
        if change.rest != "not asked" and said != change.rest:
            yield "%s: the rest is %s, told %s" % (change.words, said, change.rest)


def kept_traces(judge):
    for path in sorted((HERE / "broken").glob("*.trace")):
        text = path.read_bytes()
        yield path.stem, "", text, *judge.verdict(text)


def main():
    count = int(sys.argv[1]) if len(sys.argv) > 1 else 0
    seed = int(sys.argv[2]) if len(sys.argv) > 2 else 1
    judge = Judge()
    wrong, told_times, told_changes, nothing, rules, letters = 0, 0, 0, [], Counter(), Counter()
    made = mutants.broken(judge, seed, count, most=max(1, count // 8)) if count else ()
    total = 0
    for source in (kept_traces(judge), made):
        for name, kind, text, row, rule in source:
            told = Explanation(judge, Trace(text, name), (row, rule))
            total += 1
            rules[rule] += 1
            letters.update(finding.sentence for finding in told.broken)
            for line in contradictions(judge, text, row, rule, told):
                wrong += 1
                print("%s %s (row %d, rule %d): %s" % (name, kind, row, rule, line))
            if told.times:
                told_times += 1
            elif told.changes:
                told_changes += 1
            else:
                nothing.append("%s %s row %d rule %d" % (name, kind, row, rule))
            told.text()
    print("%d broken traces of %d rules and %d sentences: %d have a time, %d a change, %d nothing; %d claims contradicted by the judge" % (
        total, len(rules), len(letters), told_times, told_changes, len(nothing), wrong))
    for line in nothing:
        print("nothing: " + line)
    if count:
        print("rules:", " ".join("%d:%d" % it for it in sorted(rules.items())))
    sys.exit(1 if wrong or len(nothing) * 10 > total else 0)


if __name__ == "__main__":
    main()
