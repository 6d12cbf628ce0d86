#!/usr/bin/env python3
"""Writes, of runs that stand for most of their time on no connection, the lemmas that they are lawful and sound.

    tools/makers/law_case.py tools/law_cases/*.scn > crates/bus_laws/proofs/Cases.antt

Beside each NAME.scn stands its report NAME.out, which comes from outside this repository. The lemmas say of its rows that each is the
next one, that they obey every rule, and that after each of them the devices drive what the stage of the bus says and nothing due lies
in the past.
"""
import sys

import array_case

UNFOLDING = "unfolding need_of sent_of ones union_below line_of form_out form_in least run_from seen_with"

HEAD = """-- Runs with few connections: their rows are prompt, lawful and sound, computed. Written by tools/makers/law_case.py.
use Rattle.bus_trace.specs.LineSet.{set_of, line_of}
use Rattle.bus_trace.specs.View.{union_below}
use Rattle.bus_trace.specs.declared.Row.{Row}
use Rattle.bus_trace.specs.declared.Kind.TheVariants.{Drives, Fault}
use Rattle.msg_grammar.specs.Messages.{form_out, form_in}
use Rattle.bus_rules.specs.declared.verdict.Verdict.{Verdict}
use Rattle.bus_rules.specs.declared.verdict.Verdict.TheVariants.{Lawful}
use Rattle.bus_rules.specs.Seen.{seen_with}
use Rattle.bus_rules.specs.Rules.{judged}
use Rattle.due_model.specs.Next.{least}
use Rattle.due_model.specs.Run.{run_from, run_by_due}
use Rattle.due_model.specs.Sound.{sound}
"""

DEFINITIONS = """
abbrev drive : ℕ → ℕ → ℕ → Row
drive time dev lines = record { time = time; dev = dev; kind = Drives (set_of lines) }

abbrev strike : ℕ → ℕ → ℕ → Row
strike time dev bit = record { time = time; dev = dev; kind = Fault bit }

-- What is computed of a run.
record Shows : Type 0 where
  rows : List Row
  verdict : Verdict
  soundly : Bool

abbrev shown : ScenarioValue → ℕ → Shows
shown s fuel = record { rows = (run_by_due s fuel).rows; verdict = judged (run_by_due s fuel).rows; soundly = sound s (run_by_due s fuel).rows }
"""


def main():
    lines = (HEAD + array_case.HEAD).splitlines()
    uses = [line for line in lines if line.startswith("use ")]
    print(HEAD.splitlines()[0] + "\n" + "\n".join(uses) + "\n" + DEFINITIONS)
    for scn in sys.argv[1:]:
        name = array_case.name_of(scn, "_law")
        out = scn[: -len("scn")] + "out"
        array_case.print_scenario(name, scn)
        array_case.print_rows(name, out)
        print("%s_shows : shown %s %d ≡ record { rows = reverse %s_rows; verdict = Lawful; soundly = true }" % (name, name, len(array_case.rows(out)) + 1, name))
        print("%s\n%s_shows = refl\n" % (UNFOLDING, name))


main()
