#!/usr/bin/env python3
"""Writes, of runs that tools/makers/due_case.py has written, the lemmas that each of their rows is as it is due to be, and that the books hold
after it.

    tools/makers/books_case.py tools/due_cases/*.scn > crates/book_laws/proofs/Cases.antt
    tools/makers/books_case.py --whole tools/cases/*.scn > crates/book_laws/proofs/StoryCases.antt
    tools/makers/books_case.py --reads tools/due_cases/one_read.scn .. > crates/right_laws/proofs/Cases.antt
    tools/makers/books_case.py --given tools/due_cases/one_read.scn .. > crates/right_laws/proofs/GivenCases.antt
    tools/makers/books_case.py --debts tools/due_cases/hold_of_a_unit.scn .. > crates/progress_laws/proofs/DebtCases.antt
    tools/makers/books_case.py --measure tools/due_cases/*.scn .. > crates/measure_laws/proofs/MeasureCases.antt

With `--reads` and `--given` the lemmas say instead what processes have carried of their data, and what is asked of each row of it (`ReadTests` and
`GivenTests` of crates/right_laws/specs). With `--debts` they say which senses are owed (`DebtTests` of crates/progress_laws/specs), with `--measure` that the measure of what is still to come
falls (`MeasureTests` of crates/measure_laws/specs). With `--whole` it writes the scenarios and their rows, too, those of the report NAME.out beside each NAME.scn, which comes from outside
this repository. The books are stated as tests in `Tests` of crates/book_laws/specs, what is asked of a row in `RowTests`.
"""
import sys

import array_case

HEAD = """%s Written by tools/makers/books_case.py.
use Rattle.std.proofs.Common.{◌≡◌, true, refl}
use lib.Count.{ones}
use Rattle.bus_trace.specs.LineSet.{line_of}
use Rattle.bus_trace.specs.View.{union_below}
use Rattle.msg_grammar.specs.Messages.{form_out, form_in}
use Rattle.scenario.specs.Needs.{need_of, sent_of}
use Rattle.due_model.specs.RunSteps.{first_run_state}
use %s"""

# What the lemmas say of a run: in words, by which test, and where that stands.
BOOKS = ("-- Each row of some runs is as it is due to be, and the books hold after it.", "keep_books", "Rattle.book_laws.specs.RowTests.{keep_books}")
READS = ("-- In some runs what processes have carried of their data is a front of what they send or give, and the pointers stand as they should.",
         "keep_reads", "Rattle.right_laws.specs.ReadTests.{keep_reads}")
GIVEN = ("-- In some runs what is asked of each row of what processes give of their replies holds.", "give_well", "Rattle.right_laws.specs.GivenTests.{give_well}")
DEBTS = ("-- In some runs those to whom a sense is owed stand in the hold, and no two senses are owed to one initiator at one unit.", "keep_debts",
         "Rattle.progress_laws.specs.DebtTests.{keep_debts}")
MEASURE = ("-- The measure of some runs is within the budget at their start, and falls with each row.", "is_measured", "Rattle.measure_laws.specs.MeasureTests.{is_measured}")
UNFOLDING = "unfolding need_of sent_of ones union_below line_of form_out form_in"


DEFINITIONS = """
abbrev drive : ℕ → ℕ → ℕ → Row
drive time dev lines = record { time = time; dev = dev; kind = Drives (set_of lines) }

abbrev strike : ℕ → ℕ → ℕ → Row
strike time dev bit = record { time = time; dev = dev; kind = Fault bit }"""

ROWS = """use Rattle.bus_trace.specs.LineSet.{set_of}
use Rattle.bus_trace.specs.declared.Row.{Row}
use Rattle.bus_trace.specs.declared.Kind.TheVariants.{Drives, Fault}"""


def print_lemma(name, test):
    """The lemma of one run."""
    lemma = "%s_%s" % (name, test.split("_")[1])
    state = "" if test == "is_measured" else " (first_run_state %s)" % name
    print("\n%s : %s %s%s %s_rows ≡ true" % (lemma, test, name, state, name))
    print("%s\n%s = refl" % (UNFOLDING, lemma))


def print_whole(head, test, paths):
    """The runs that stand nowhere else, with their scenarios and rows."""
    others = [line for line in array_case.HEAD.splitlines() if line.startswith("use ") and line not in head.splitlines()]
    print("\n".join([head, ROWS] + others) + "\n" + DEFINITIONS)
    for scn in paths:
        name = array_case.name_of(scn, "_story")
        array_case.print_scenario(name, scn)
        array_case.print_rows(name, scn[: -len("scn")] + "out")
        print_lemma(name, test)


def main():
    paths = [word for word in sys.argv[1:] if not word.startswith("--")]
    words, test, module = READS if "--reads" in sys.argv else GIVEN if "--given" in sys.argv else DEBTS if "--debts" in sys.argv else MEASURE if "--measure" in sys.argv else BOOKS
    head = HEAD % (words, module)
    if test == "is_measured":
        head = "\n".join(line for line in head.splitlines() if "first_run_state" not in line)
    if "--whole" in sys.argv:
        return print_whole(head, test, paths)
    names = [array_case.name_of(scn, "_due") for scn in paths]
    print(head)
    file = "TapeCases" if any(array_case.at_tapes(scn) for scn in paths) else "Cases"
    print("use Rattle.due_model.proofs.%s.{%s}" % (file, ", ".join("%s, %s_rows" % (name, name) for name in names)))
    for name in names:
        print_lemma(name, test)


main()
