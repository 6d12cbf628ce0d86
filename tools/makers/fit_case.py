#!/usr/bin/env python3
"""Writes, of scenarios and their reports, the lemmas that each row fits: the transcript goes on with it as the story does.

    tools/makers/fit_case.py tools/cases/NAME.scn .. > crates/transcript_laws/proofs/FitCases.antt

Beside each NAME.scn stands its report NAME.out, which comes from outside this repository. The test is `keep_fit` of
crates/transcript_laws/specs/RowTests.antt.
"""
import sys

import array_case

UNFOLDING = "unfolding need_of sent_of ones union_below line_of form_out form_in by_change closed_by"

HEAD = """-- Whole runs, computed: each of their rows fits. An independent simulator printed the rows. Written by tools/makers/fit_case.py.
use Rattle.std.proofs.Common.{ℕ, ◌≡◌, true, false, List, [], ◌∷◌, refl}
use Rattle.std.specs.Prelude.{Option, Some, None}
use lib.Count.{ones}
use Rattle.bus_base.specs.declared.ProcId.{ProcId}
use Rattle.bus_base.specs.declared.AbortKind.TheVariants as aborts
use Rattle.bus_base.specs.declared.events.Pick.TheVariants as picks
use Rattle.scenario.specs.declared.value.Policy.TheVariants as policies
use Rattle.scenario.specs.declared.value.Tag.TheVariants as tags
use Rattle.scenario.specs.declared.value.Payload.TheVariants as payloads
use Rattle.scenario.specs.Value.{ScenarioValue}
use Rattle.scenario.specs.Needs.{need_of, sent_of}
use Rattle.bus_trace.specs.LineSet.{set_of, line_of}
use Rattle.bus_trace.specs.View.{union_below}
use Rattle.bus_trace.specs.declared.Row.{Row}
use Rattle.bus_trace.specs.declared.Kind.TheVariants.{Drives, Fault}
use Rattle.msg_grammar.specs.Messages.{form_out, form_in}
use Rattle.story_model.specs.Story.{empty_story}
use Rattle.bus_transcript.specs.Rows.{by_change, closed_by, nothing_seen}
use Rattle.transcript_laws.specs.RowTests.{keep_fit}

abbrev drive : ℕ → ℕ → ℕ → Row
drive time dev lines = record { time = time; dev = dev; kind = Drives (set_of lines) }

abbrev strike : ℕ → ℕ → ℕ → Row
strike time dev bit = record { time = time; dev = dev; kind = Fault bit }
"""


def main():
    print(HEAD)
    for scn in sys.argv[1:]:
        name, stem = array_case.name_of(scn, "_run"), scn[: -len("scn")]
        array_case.print_scenario(name, scn)
        array_case.print_rows(name, stem + "out")
        print("%s_fits : keep_fit %s nothing_seen empty_story %s_rows ≡ true" % (name, name, name))
        print("%s\n%s_fits = refl\n" % (UNFOLDING, name))


main()
