#!/usr/bin/env python3
"""Runs the gate and says per crate when its proof and its tests were done, and when its edits began.

    tools/maintenance/gate_times.py [COMMAND ..]

The command is `rt ci` where none is given. What it prints is passed on; the table comes at the end, with seconds since the start, and
the status is the command's. Crates are worked on side by side, so a proof's seconds are those from its beginning to its end on this
machine beside the others; when the edits of a crate end the gate does not tell.
"""
import re
import subprocess
import sys
import time

MARKS = [
    ("began", r"^== (\w+)$"),
    ("proved", r"^rt: (\w+) proved$"),
    ("tests", r"^rt: (\w+): its tests are proved"),
    ("edits", r"^rt: (\w+): trying its must-fail edits"),
]


def main():
    begin = time.monotonic()
    seen = {}
    gate = subprocess.Popen(sys.argv[1:] or ["rt", "ci"], stdout=subprocess.PIPE, stderr=subprocess.STDOUT, text=True)
    for line in gate.stdout:
        sys.stdout.write(line)
        for mark, pattern in MARKS:
            found = re.match(pattern, line)
            if found:
                seen.setdefault(found.group(1), {}).setdefault(mark, time.monotonic() - begin)
    status = gate.wait()
    print("%-16s %8s %8s %8s %8s" % ("crate", "began", "proved", "tests", "edits"))
    for crate, marks in sorted(seen.items(), key=lambda entry: entry[1].get("began", 0)):
        print("%-16s" % crate, *("%8.0f" % marks[mark] if mark in marks else "%8s" % "" for mark, _ in MARKS))
    print("the whole %28.0f" % (time.monotonic() - begin))
    sys.exit(status)


main()
