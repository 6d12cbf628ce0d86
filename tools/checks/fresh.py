#!/usr/bin/env python3
"""Finds generated cases that are not what their makers write now.

    tools/checks/fresh.py

A maker's output and the file are compared without blanks and line ends, since the file was laid out; a file imports no name that its
maker does not, by the way that crates.txt leaves (tools/checks/imports.py). Ends with status 1 where one differs.
"""
import pathlib
import re
import subprocess
import sys

import imports

ROOT = pathlib.Path(__file__).resolve().parent.parent.parent
CASES = sorted(str(path) for path in (ROOT / "tools" / "cases").glob("*.scn"))
DUES = sorted(str(path) for path in (ROOT / "tools" / "due_cases").glob("*.scn"))
RUNS = DUES + [
    str(ROOT / "tools" / "cases" / (name + ".scn"))
    for name in ("called_again_for_sense", "failures", "negotiation", "read_whole_after_a_part", "two_aborts")
]
# Those that are computed again with each edit of the definitions of due_model; the others stand where nothing is edited.
NEAR = [
    str(ROOT / "tools" / "due_cases" / (name + ".scn"))
    for name in ("late_entry", "one_read", "pulses_out", "ready_units", "resets_dropped", "tag_aborted", "unanswered")
]
FAR = [path for path in RUNS if path not in NEAR]
READS = [
    str(ROOT / "tools" / "due_cases" / (name + ".scn"))
    for name in (
        "one_read", "data_in_given_up", "pulsed_read_struck", "burst_without_tags", "many_pulses", "reset_in_a_data_phase", "data_out_given_up",
        "absent_unit", "given_up", "queue_orders", "own_processes_aborted", "text_two",
    )
] + [str(ROOT / "tools" / "cases" / "read_whole_after_a_part.scn")]
DEBTS = [
    str(ROOT / "tools" / "due_cases" / (name + ".scn"))
    for name in (
        "hold_of_a_unit", "held_reselection", "given_up", "lost", "status_given_up", "command_given_up", "data_in_given_up", "data_out_given_up",
        "own_processes_aborted", "device_reset_by_message", "absent_unit", "queue_cleared", "status_struck",
    )
]
STORIES = [path for path in CASES if path not in RUNS]
# Whole runs with tapes, as rows.
TAPE_RUNS = [str(ROOT / "tools" / "tape_cases" / "room_known_late.scn")] + [
    str(ROOT / "tools" / "tape_runs" / (name + ".scn"))
    for name in (
        "check_by_pulses", "check_without_sense", "length_changed_by_another", "lost_after_run", "read_given_up", "reset_in_data",
        "tag_aborted",
    )
]
DUMPS = sorted(str(path) for path in (ROOT / "tools" / "dump_cases").glob("*.out"))
TOLD = [path for path in CASES if pathlib.Path(path).with_suffix(".transcript").exists()]
TRANSCRIPTS = sorted(str(path) for path in (ROOT / "tools" / "transcript_cases").glob("*.out"))
MAKES = sorted(str(path) for path in (ROOT / "tools" / "make_cases").glob("*.scsi"))
SMALL = sorted(str(path) for path in (ROOT / "tools" / "run_cases").glob("*.scn"))
GUARDS = sorted(str(path) for path in (ROOT / "tools" / "guard_cases").glob("*.scn"))
TAPES = sorted(str(path) for path in (ROOT / "tools" / "tape_cases").glob("*.scn"))
# Histories with tapes, played on the plain disk array.
REELS = [
    str(ROOT / "tools" / "tape_cases" / (name + ".scn"))
    for name in ("end_of_medium", "full_tape", "space_over_blocks", "space_over_filemarks")
] + [
    str(ROOT / "tools" / "tape_runs" / (name + ".scn"))
    for name in (
        "attention_kept", "beside_a_disk", "conflict_picked_last", "device_reset", "hold", "inquiry_and_absent_unit", "queue_cleared",
        "tag_aborted",
    )
]
# Whole reports among the tests: small ones, with a CHECK CONDITION and data, by handshakes and by pulses.
TAPE_REPORTS = [
    str(ROOT / "tools" / "tape_runs" / (name + ".scn"))
    for name in ("check_by_pulses", "check_without_sense")
]
LAWS = sorted(str(path) for path in (ROOT / "tools" / "law_cases").glob("*.scn"))
# Runs at the limit of the faults that a command bears, below and above it; and runs with each outcome.
LIMITS = [
    str(ROOT / "tools" / "due_cases" / (name + ".scn"))
    for name in (
        "command_struck_twice", "request_of_a_target_struck", "pulsed_read_struck", "pulsed_write_struck", "selected_id_struck",
        "tagged_opening_struck", "command_given_up", "data_in_given_up", "lost", "status_given_up", "given_up", "status_struck",
        "opening_given_up", "complete_struck",
    )
] + sorted(str(path) for path in (ROOT / "tools" / "limit_cases").glob("*.scn"))
OUTCOMES = (
    [
        str(ROOT / "tools" / "due_cases" / (name + ".scn"))
        for name in (
            "full_queue", "lost", "command_given_up", "data_in_given_up", "data_out_given_up", "held_reselection", "hold_of_a_unit",
            "own_processes_aborted", "tag_aborted", "queue_cleared", "device_reset_by_message", "overlapping_resets",
            "reset_in_a_selection", "unanswered", "absent_unit",
        )
    ]
    + [str(ROOT / "tools" / "cases" / (name + ".scn")) for name in ("failures", "two_aborts")]
    + [str(ROOT / "tools" / "limit_cases" / (name + ".scn")) for name in ("absent_target", "ids_twice")]
    + sorted(str(path) for path in (ROOT / "tools" / "outcome_cases").glob("*.scn"))
)
# Of each generated file its maker's words, and the file that the maker reads from standard input, where there is one.
MADE = {
    "crates/bus_cases/proofs/RuleCases.antt": (["tools/makers/rule_cases.py"], "tools/rule_cases.txt"),
    "crates/array_model/proofs/Stories.antt": (["tools/makers/array_case.py"] + CASES, None),
    "crates/array_model/proofs/TapeStories.antt": (["tools/makers/array_case.py"] + REELS, None),
    "crates/tape_unit/proofs/Cases.antt": (["tools/makers/tape_case.py"] + TAPES, None),
    "crates/story_model/proofs/Cases.antt": (["tools/makers/story_case.py"] + CASES, None),
    "crates/story_model/proofs/TapeCases.antt": (["tools/makers/story_case.py"] + TAPE_RUNS, None),
    "crates/due_model/proofs/TapeCases.antt": (["tools/makers/due_case.py"] + TAPE_RUNS, None),
    "crates/bus_cases/proofs/TapeRuns.antt": (["tools/makers/shown_case.py"] + TAPE_RUNS, None),
    "crates/due_model/proofs/Cases.antt": (["tools/makers/due_case.py"] + RUNS, None),
    "crates/due_model/proofs/RunCases.antt": (["tools/makers/shown_case.py"] + NEAR, None),
    "crates/due_model/proofs/SeamCases.antt": (["tools/makers/seam_case.py", "Cases"] + NEAR, None),
    "crates/bus_cases/proofs/GuardCases.antt": (["tools/makers/guard_case.py"] + GUARDS, None),
    "crates/bus_cases/proofs/RunCases.antt": (["tools/makers/shown_case.py"] + FAR, None),
    "crates/bus_cases/proofs/SeamCases.antt": (["tools/makers/seam_case.py", "Cases"] + FAR, None),
    "crates/bus_laws/proofs/HeardCases.antt": (["tools/makers/heard_case.py", "Cases"] + RUNS, None),
    "crates/book_laws/proofs/Cases.antt": (["tools/makers/books_case.py"] + RUNS, None),
    "crates/book_laws/proofs/StoryCases.antt": (["tools/makers/books_case.py", "--whole"] + STORIES, None),
    "crates/right_laws/proofs/Cases.antt": (["tools/makers/books_case.py", "--reads"] + READS, None),
    "crates/right_laws/proofs/GivenCases.antt": (["tools/makers/books_case.py", "--given"] + READS, None),
    "crates/progress_laws/proofs/DebtCases.antt": (["tools/makers/books_case.py", "--debts"] + DEBTS, None),
    "crates/measure_laws/proofs/MeasureCases.antt": (["tools/makers/books_case.py", "--measure"] + RUNS, None),
    "crates/bus_laws/proofs/WrittenCases.antt": (["tools/makers/written_case.py", "Cases"] + RUNS, None),
    "crates/disk_target/proofs/AttendedCases.antt": (["tools/makers/attended_case.py", "Cases"] + RUNS, None),
    "crates/book_laws/proofs/CauseRunCases.antt": (["tools/makers/cause_case.py", "Cases"] + RUNS, None),
    "crates/bus_laws/proofs/Cases.antt": (["tools/makers/law_case.py"] + LAWS, None),
    "crates/delivery_laws/proofs/LimitCases.antt": (["tools/makers/limit_case.py"] + LIMITS, None),
    "crates/delivery_laws/proofs/OutcomeCases.antt": (["tools/makers/outcome_case.py"] + OUTCOMES, None),
    "crates/vcd_text/proofs/TraceCases.antt": (["tools/makers/dump_case.py"] + DUMPS, None),
    "crates/bus_transcript/proofs/Cases.antt": (["tools/makers/transcript_case.py"] + TRANSCRIPTS, None),
    "crates/bus_transcript/proofs/ToldCases.antt": (["tools/makers/told_case.py"] + TOLD, None),
    "crates/transcript_laws/proofs/FitCases.antt": (["tools/makers/fit_case.py"] + TOLD, None),
    "crates/scenario/proofs/MadeCases.antt": (["tools/makers/make_case.py"] + MAKES, None),
    "crates/bus_tests/src/whole_program/small_runs.rt": (["tools/makers/run_case.py"] + SMALL + TAPE_REPORTS, None),
    "crates/sync_nego/proofs/Cases.antt": (["tools/makers/nego_case.py"], None),
}
USE = re.compile(r"^use ([\w.]+)\.\{(.*)\}$")


def uses(text):
    """Each name that a file imports, with its module."""
    found = (USE.match(line) for line in text.splitlines())
    return {(use[1], name.strip()) for use in found if use for name in use[2].split(",")}


def body(text):
    """A file without its imports, blanks and line ends."""
    return "".join("".join(line.split()) for line in text.splitlines() if not line.startswith("use "))


def made(command, source):
    """What a maker writes now."""
    given = (ROOT / source).read_text() if source else ""
    return subprocess.run([sys.executable] + command, cwd=ROOT, input=given, capture_output=True, text=True, check=True).stdout


def main():
    stale = []
    for name, (command, source) in MADE.items():
        new, old = imports.homely(made(command, source)), imports.homely((ROOT / name).read_text())
        if body(new) != body(old) or not uses(old) <= uses(new):
            stale.append("%s is not what %s writes" % (name, command[0]))
    print("\n".join(stale) if stale else "the generated cases are fresh")
    sys.exit(1 if stale else 0)


if __name__ == "__main__":
    main()
