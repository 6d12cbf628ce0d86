#!/usr/bin/env python3
"""Turns scenarios and their reports into lemmas that read each history off the rows of its trace.

    tools/makers/story_case.py tools/cases/*.scn > crates/story_model/proofs/Cases.antt

Beside each NAME.scn stands its report NAME.out, which comes from outside this repository. The lemmas say that the
history which the rows tell is that of the report, and so are the outcomes and the bytes that were carried; and that the
faults of the scenario strike what the fault rows name.
"""
import sys

import array_case
from array_case import items

UNFOLDING = "unfolding need_of sent_of ones union_below line_of form_out form_in"

HEAD = """-- Whole runs, read off the rows of their traces and computed: the histories are those of the reports, which an
-- independent simulator printed. Written by tools/makers/story_case.py.
use Rattle.bus_trace.specs.LineSet.{set_of, line_of}
use Rattle.bus_trace.specs.View.{union_below}
use Rattle.bus_trace.specs.declared.Row.{Row}
use Rattle.bus_trace.specs.declared.Kind.TheVariants.{Drives, Fault}
use Rattle.msg_grammar.specs.Messages.{form_out, form_in}
use Rattle.story_model.specs.Story.{Story}
use Rattle.story_model.specs.TraceHistory.{story}
use Rattle.story_model.specs.Outcomes.{Outcome, outcomes, ended_good, ended_check, ended_full, ended_unanswered, ended_lost, ended_reset, ended_aborted}
use Rattle.story_model.specs.Right.{all_carried}
use Rattle.story_model.specs.Samples.{expected_strikes, row_strikes}
"""

DEFINITIONS = """
abbrev drive : ℕ → ℕ → ℕ → Row
drive time dev lines = record { time = time; dev = dev; kind = Drives (set_of lines) }

abbrev strike : ℕ → ℕ → ℕ → Row
strike time dev bit = record { time = time; dev = dev; kind = Fault bit }

-- What the rows of a run tell: its history, how each command ended, and whether each process carried just its bytes. The story of the
-- rows is computed once for all three.
record Shows : Type 0 where
  history : List Event
  ends : List (Option Outcome)
  carried : Bool

abbrev shown : ScenarioValue → Story → List Event → Shows
shown s b told = record { history = b.history; ends = outcomes s b; carried = all_carried s b told }
"""


def outcome(w):
    """The outcome that a line of the replies names."""
    if w[2] == "GOOD":
        return "ended_good %s" % array_case.octets(w[3] if len(w) > 3 else "")
    if w[2] == "CHECK" and w[3] == "none":
        return "ended_check None"
    if w[2] == "CHECK":
        return "ended_check (Some (%s))" % array_case.sense(w[3:])
    return {"QFULL": "ended_full", "SELTIMEOUT": "ended_unanswered", "LOST": "ended_lost", "RESET": "ended_reset", "ABORTED": "ended_aborted"}[w[2]]


def main():
    lines = (HEAD + array_case.HEAD).splitlines()
    uses = [line for line in lines if line.startswith("use ")]
    rest = [line for line in lines if line not in uses and not line.startswith("-- ")]
    print("\n".join(HEAD.splitlines()[:2] + uses) + "\n" + DEFINITIONS + "\n".join(rest))
    for scn in sys.argv[1:]:
        name = array_case.name_of(scn, "_run")
        out = scn[: -len("scn")] + "out"
        parts = array_case.report(out)
        s = array_case.print_scenario(name, scn)
        array_case.print_rows(name, out)
        array_case.print_events(name, parts)
        wanted = items("Some (%s)" % outcome(w) for w in parts["replies"])
        rows = "(story %s (reverse %s_rows)) (reverse %s_events)" % (name, name, name)
        print("%s_told : shown %s %s ≡ record { history = reverse %s_events; ends = %s; carried = true }" % (name, name, rows, name, wanted))
        print("%s\n%s_told = refl\n" % (UNFOLDING, name))
        if s["faults"]:
            print("%s_struck : expected_strikes %s (reverse %s_rows) ≡ row_strikes %s_rows" % (name, name, name, name))
            print("%s\n%s_struck = refl\n" % (UNFOLDING, name))


main()
