#!/usr/bin/env python3
"""Turns each condition of the definitions, one at a time, and asks whether a case that is computed refuses it.

    tools/maintenance/turned_conditions.py [--jobs N] [--near] [--cases NAME] [--results FILE] [CRATE ..]

A condition is a test of an `if`, what stands beside `&&`, `||` or in `not`, a comparison, or what a test answers as a whole. Each is forced true and
forced false, but not where that is the same as a turn of what stands round it: `a && b` false is a false. The crates are array_model, bus_rules,
story_model, reaction_model, dialogue_model and due_model where none is named. The cases are those of tools/maintenance/computed.py, the cheapest
first, and of those only the ones that come by the condition with the other answer; the first that no longer holds ends a try.

FILE (crates/bus_cases/out/turned_conditions, or what is named) has a line a try: crate, file, line, what was forced to what, and the case that refuses it,
or `survives` with the reason: that no case comes by, that each comes by with this answer, or that none shows it. Lines that say who refuses
are kept by a further run, the others tried again, so a run that was ended goes on, and a new case is seen to decide. A survivor that
tools/maintenance/turned_conditions.txt has with a reason is counted and not printed.

Nothing is proved here: it is computed as tools/maintenance/computed.py says. A whole run takes some minutes of one processor.
"""
import argparse
import bisect
import json
import pathlib
import subprocess
import sys
import tempfile

import computed

ROOT = pathlib.Path(__file__).resolve().parent.parent.parent
CRATES = ("array_model", "bus_rules", "story_model", "reaction_model", "dialogue_model", "due_model")

# What each case comes by: 1 for false, 2 for true, by the number of the condition.
COVER = """
const SEEN = new Uint8Array(SITES);
const C = (k, b) => { SEEN[k] |= b ? 2 : 1; return b; };
const out = [];
for (const [file, name, holds] of CASES) {
  AGE++;
  SEEN.fill(0);
  const begun = performance.now();
  let found;
  try { found = holds(); } catch (e) { found = String(e); }
  out.push({holds: found === true, time: performance.now() - begun, seen: Array.from(SEEN).join('')});
}
console.log(JSON.stringify(out));
"""

# Tries: number of the condition, answer, and the cases to be asked in their order, a line each.
TRY = """
const lines = require('fs').readFileSync(0, 'utf8').split('\\n').filter(line => line);
for (const line of lines) {
  const {site, answer, cases} = JSON.parse(line);
  T = site; F = answer;
  let by = null;
  for (const n of cases) {
    AGE++;
    let found;
    try { found = CASES[n][2](); } catch (e) { found = String(e); }
    if (found !== true) { by = [CASES[n][0], CASES[n][1], found === false ? '' : found]; break; }
  }
  console.log(JSON.stringify({site, answer, by}));
}
"""


def key_of(words):
    """What a line of results or of settled survivors is about: crate, file, line, what, forced to what."""
    return tuple(words[:5])


def main():
    words = argparse.ArgumentParser(description=__doc__.split("\n")[0])
    words.add_argument("--jobs", type=int, default=1)
    words.add_argument("--near", action="store_true", help="leave out the cases of the crates of laws, which take most of the time and refuse few")
    words.add_argument("--cases", action="append", metavar="NAME", help="only these files of cases, as RuleCases")
    words.add_argument("--results", default=str(ROOT / "crates" / "bus_cases" / "out" / "turned_conditions"))
    words.add_argument("crates", nargs="*", default=CRATES)
    given = words.parse_args()
    files = [case for case in computed.CASES[:computed.NEAR if given.near else None] if not given.cases or case[1] in given.cases]
    code, writer = computed.deep(lambda: computed.written(ROOT, tuple(given.crates), files))
    tries = {}
    ends = {}
    for number, (module, definition, at, end, answers) in enumerate(writer.sites):
        if module.file not in ends:
            ends[module.file] = [i for i, sign in enumerate(module.text) if sign == "\n"]
        line = bisect.bisect_left(ends[module.file], at) + 1
        text = " ".join(module.text[at:end].split())
        for answer in sorted(answers):
            what = "%s: %s" % (computed.left_side(definition, at), text)
            key = (module.crate, module.path.replace(".", "/") + ".antt", str(line), what, str(answer).lower())
            copy, tail = key, 2
            while key in tries:
                key = copy[:3] + ("%s (%d)" % (what, tail), copy[4])
                tail += 1
            tries[key] = (number, answer)
    results = pathlib.Path(given.results)
    results.parent.mkdir(parents=True, exist_ok=True)
    known = {}
    if results.exists():
        for row in results.read_text().splitlines():
            row = row.split("\t")
            if len(row) > 5 and row[5] != "survives":
                known[key_of(row)] = row[5:]
    with tempfile.TemporaryDirectory() as folder:
        cover = pathlib.Path(folder) / "cover.js"
        cover.write_text(code.replace("(T===", "C(").replace("?F:", ",") + COVER.replace("SITES", str(len(writer.sites))))
        process = computed.node(cover, stdout=subprocess.PIPE)
        seen = json.loads(process.communicate()[0])
        if not all(case["holds"] for case in seen):
            sys.exit("a case does not hold before anything is turned: see tools/maintenance/computed.py")
        order = sorted(range(len(seen)), key=lambda n: seen[n]["time"])
        open_tries, rows = [], {}
        for key, (number, answer) in tries.items():
            if key in known:
                rows[key] = known[key]
                continue
            come = [n for n in order if int(seen[n]["seen"][number]) & (1 if answer else 2)]
            if come:
                open_tries.append((key, json.dumps({"site": number, "answer": answer, "cases": come})))
            else:
                by = any(int(case["seen"][number]) for case in seen)
                rows[key] = ["survives", "always %s" % str(answer).lower() if by else "no case comes by"]
        file = pathlib.Path(folder) / "try.js"
        file.write_text(code + TRY)
        keys = {tries[key]: key for key in tries}
        parts = [open_tries[n::given.jobs] for n in range(given.jobs)]
        processes = []
        for part in parts:
            source = pathlib.Path(folder) / ("tries%d" % len(processes))
            source.write_text("".join(text + "\n" for _, text in part))
            processes.append(computed.node(file, stdin=source.open(), stdout=subprocess.PIPE))
        print("%d conditions turned, %d tries to make, %d cases" % (len(tries), len(open_tries), len(seen)), file=sys.stderr, flush=True)
        with results.open("a") as kept:
            for process in processes:
                for line in process.stdout:
                    found = json.loads(line)
                    key = keys[found["site"], found["answer"]]
                    rows[key] = [found["by"][0], found["by"][1], found["by"][2]] if found["by"] else ["survives", "no case shows it"]
                    print("\t".join(key + tuple(rows[key])), file=kept, flush=True)
                process.wait()
    results.write_text("".join("\t".join(key + tuple(rows[key])) + "\n" for key in tries if key in rows))
    settled, now = {}, []
    path = pathlib.Path(__file__).with_suffix(".txt")
    if path.exists():
        for row in path.read_text().splitlines():
            if row.strip() and not row.startswith("#"):
                row = row.split("\t")
                settled[row[0], row[1], row[2], row[3]] = row[4]
    left = 0
    for key in tries:
        if rows.get(key, ["?"])[0] in ("survives", "?"):
            if (key[0], key[1], key[3], key[4]) in settled or (key[0], key[1], "*", "*") in settled:
                left += 1
            else:
                now.append(key)
                print("%s/%s:%s\t%s\t%s\t%s" % (key + (rows.get(key, ["?", "not tried"])[1],)))
    print("%d turned, %d refused, %d settled, %d survive" % (len(tries), len(tries) - left - len(now), left, len(now)))
    sys.exit(1 if now else 0)


if __name__ == "__main__":
    main()
