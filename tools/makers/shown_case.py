#!/usr/bin/env python3
"""Writes, of runs that tools/makers/due_case.py has written, the lemmas that what is due makes them.

    tools/makers/shown_case.py tools/due_cases/one_read.scn .. > crates/due_model/proofs/RunCases.antt

They say that the rows, one after the other each the least that is due after those before it, are those of the report, to the last
nanosecond; that they show its history; and that nothing is due after them.
"""
import sys

import array_case
import run_lemmas

# Where tools/makers/due_case.py wrote the runs: those with tapes apart.
FILE = "TapeCases" if any(array_case.at_tapes(scn) for scn in sys.argv[1:]) else "Cases"

COMMENT = """-- Whole runs, computed from their scenarios by what is due, are those of the reports. Written by tools/makers/shown_case.py."""

USES = """use Rattle.due_model.specs.Next.{least}
use Rattle.due_model.specs.Run.{run_from, run_by_due}"""


def print_lemma(name, scn):
    """That the run of this scenario, which is so long, shows what its report does."""
    fuel = len(array_case.rows(scn[: -len("scn")] + "out")) + 1
    print("%s_run : shown (run_by_due %s %d) ≡ %s_shown" % (name, name, fuel, name))
    print("%s least run_from\n%s_run = refl" % (run_lemmas.UNFOLDING, name))


def main():
    names = [array_case.name_of(scn, "_due") for scn in sys.argv[1:]]
    print(COMMENT)
    print("use Rattle.std.proofs.Common.{◌≡◌, refl}")
    print(run_lemmas.SHARED)
    print(USES)
    print("use Rattle.due_model.proofs.%s.{shown, %s}" % (FILE, ", ".join("%s, %s_shown" % (name, name) for name in names)))
    for name, scn in zip(names, sys.argv[1:]):
        print()
        print_lemma(name, scn)


if __name__ == "__main__":
    main()
