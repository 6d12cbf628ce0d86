#!/usr/bin/env python3
"""Turns scenarios and their reports into whole runs and the lemmas that what is due makes them.

    tools/makers/guard_case.py tools/guard_cases/*.scn > crates/bus_cases/proofs/GuardCases.antt

Beside each NAME.scn stands its report NAME.out, which comes from outside this repository. Each of these runs guards a condition of the
definitions which no other kept run decides: with an error in that condition its rows or its history would be others. They stand whole in
`bus_cases`, so that a further one makes nothing else to be proved again.
"""
import sys

import array_case
import due_case
import run_lemmas
import shown_case

HEAD = """-- Whole runs, computed from their scenarios by what is due, are those of their reports, which an independent simulator printed. Each
-- decides a condition of the definitions that no other run does. Written by tools/makers/guard_case.py."""

DRIVES = due_case.DEFINITIONS[: due_case.DEFINITIONS.index("-- What a report shows")]


def main():
    lines = (due_case.HEAD + array_case.HEAD).splitlines()
    others = (run_lemmas.SHARED + "\n" + shown_case.USES).splitlines() + ["use Rattle.due_model.proofs.Cases.{Shows, shown}"]
    # The run itself and its history are named by what shows them.
    uses = [line for line in lines if line.startswith("use ") and not line.endswith("Run.{Run, history_of}")]
    rest = [line for line in lines if not line.startswith(("use ", "-- "))]
    print("\n".join([HEAD] + list(dict.fromkeys(uses + others))) + "\n" + DRIVES + "\n".join(rest).strip("\n") + "\n")
    for scn in sys.argv[1:]:
        name = array_case.name_of(scn, "_guard")
        due_case.print_run(name, scn)
        shown_case.print_lemma(name, scn)
        print()


main()
