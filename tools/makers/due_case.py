#!/usr/bin/env python3
"""Turns scenarios and their reports into definitions on which lemmas stand that compute whole runs by what is due.

    tools/makers/due_case.py tools/due_cases/*.scn > crates/due_model/proofs/Cases.antt

Beside each NAME.scn stands its report NAME.out, which comes from outside this repository. Of each the scenario is written, the rows of
the report, and what it shows of the run. The lemmas are of tools/makers/shown_case.py, and of others that are given the same scenarios.
"""
import sys

import array_case

HEAD = """-- Whole runs: their scenarios, and the rows and histories of their reports, which an independent simulator printed.
-- Written by tools/makers/due_case.py.
use Rattle.bus_trace.specs.LineSet.{set_of}
use Rattle.bus_trace.specs.declared.Row.{Row}
use Rattle.bus_trace.specs.declared.Kind.TheVariants.{Drives, Fault}
use Rattle.due_model.specs.Run.{Run, history_of}
"""

DEFINITIONS = """
abbrev drive : ℕ → ℕ → ℕ → Row
drive time dev lines = record { time = time; dev = dev; kind = Drives (set_of lines) }

abbrev strike : ℕ → ℕ → ℕ → Row
strike time dev bit = record { time = time; dev = dev; kind = Fault bit }

-- What a report shows of a run: its rows, its history, and that it is over.
pub record Shows : Type 0 where
  pub rows : List Row
  pub history : List Event
  pub ended : Bool

abbrev pub shown : Run → Shows
shown r = record { rows = r.rows; history = history_of r; ended = r.ended }
"""


def print_run(name, scn):
    """The scenario, the rows of its report, and what that shows of the run."""
    out = scn[: -len("scn")] + "out"
    array_case.print_scenario(name, scn, is_public=True)
    array_case.print_rows(name, out)
    array_case.print_events(name, array_case.report(out))
    print("abbrev pub %s_shown : Shows" % name)
    print("%s_shown = record { rows = reverse %s_rows; history = reverse %s_events; ended = true }\n" % (name, name, name))


def main():
    lines = (HEAD + array_case.HEAD).splitlines()
    uses = [line for line in lines if line.startswith("use ")]
    rest = [line for line in lines if line not in uses and not line.startswith("-- ")]
    print("\n".join(HEAD.splitlines()[:2] + uses) + "\n" + DEFINITIONS + "\n".join(rest))
    for scn in sys.argv[1:]:
        print_run(array_case.name_of(scn, "_due"), scn)


if __name__ == "__main__":
    main()
