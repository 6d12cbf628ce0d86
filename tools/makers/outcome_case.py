#!/usr/bin/env python3
"""Writes, of runs, the lemmas that each command ended with the outcome of its report, by the first row that ends it.

    tools/makers/outcome_case.py tools/due_cases/NAME.scn .. tools/limit_cases/NAME.scn .. tools/outcome_cases/*.scn \
        > crates/delivery_laws/proofs/OutcomeCases.antt

Runs of tools/due_cases and tools/cases stand in crates/due_model/proofs/Cases.antt, those of tools/limit_cases in proofs/LimitCases.antt; of the others
scenario and rows are written. Beside each NAME.scn stands its report NAME.out, which comes from outside this repository; the outcomes are those that it shows. The lemmas are computed: of what the
story of the rows tells (`outcome_of`), and of the first row that ends the command (`first_outcome`).
"""
import sys

import array_case
import run_lemmas

COMMENT = """-- In some runs: how each command ended, and by which row, computed; each outcome is met. Written by tools/makers/outcome_case.py."""

USES = """use Rattle.due_model.proofs.Seams.{onto}
use Rattle.bus_trace.specs.LineSet.{set_of}
use Rattle.bus_trace.specs.declared.Row.{Row}
use Rattle.bus_trace.specs.declared.Kind.TheVariants.{Drives, Fault}
use Rattle.due_model.specs.story_model.specs.Outcomes.{ended_aborted, ended_check, ended_full, ended_good, ended_lost, ended_reset, ended_unanswered}
use Rattle.delivery_laws.proofs.Limits.{outcome_told}"""


DEFINITIONS = """
abbrev drive : ℕ → ℕ → ℕ → Row
drive time dev lines = record { time = time; dev = dev; kind = Drives (set_of lines) }

abbrev strike : ℕ → ℕ → ℕ → Row
strike time dev bit = record { time = time; dev = dev; kind = Fault bit }
"""


def outcome(words):
    """The outcome that a line of the report shows."""
    plain = {"QFULL": "ended_full", "SELTIMEOUT": "ended_unanswered", "LOST": "ended_lost", "RESET": "ended_reset", "ABORTED": "ended_aborted"}
    if words[0] in plain:
        return plain[words[0]]
    if words[0] == "GOOD":
        return "(ended_good %s)" % (array_case.octets(words[1]) if len(words) > 1 else "[]")
    if words[1] == "none":
        return "(ended_check None)"
    return "(ended_check (Some (%s)))" % array_case.sense(words[1:])


def main():
    limits = [scn for scn in sys.argv[1:] if "limit_cases" in scn]
    own = [scn for scn in sys.argv[1:] if "outcome_cases" in scn]
    dues = [scn for scn in sys.argv[1:] if scn not in limits + own]
    lines = (run_lemmas.SHARED + "\n" + USES + "\n" + array_case.HEAD).splitlines()
    print(COMMENT)
    print("\n".join(sorted({line for line in lines if line.startswith("use ")}, key=lines.index)))
    for module, kind, scenarios in (("Rattle.due_model.proofs.Cases", "_due", dues), ("Rattle.delivery_laws.proofs.LimitCases", "_limit", limits)):
        names = [array_case.name_of(scn, kind) for scn in scenarios]
        print("use %s.{%s}" % (module, ", ".join("%s, %s_rows" % (name, name) for name in names)))
    print(DEFINITIONS)
    for scn in dues + limits + own:
        name = array_case.name_of(scn, "_limit" if scn in limits else "_outcome" if scn in own else "_due")
        out = scn[: -len("scn")] + "out"
        if scn in own:
            array_case.print_scenario(name, scn)
            array_case.print_rows(name, out)
        for w in array_case.report(out)["replies"]:
            print("%s_%s : outcome_told %s (onto %s_rows []) %s %s ≡ true" % (name, w[1], name, name, w[1], outcome(w[2:])))
            print("%s\n%s_%s = refl\n" % (run_lemmas.UNFOLDING, name, w[1]))


main()
