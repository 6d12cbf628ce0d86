#!/usr/bin/env python3
"""Writes, of runs that tools/makers/due_case.py has written, the lemmas that what targets rest on beside what they hear holds.

    tools/makers/attended_case.py Cases tools/due_cases/*.scn > crates/disk_target/proofs/AttendedCases.antt

The first word is the module of crates/due_model/proofs in which the runs of these scenarios stand. What is computed is stated in
crates/disk_target/specs/Attended.antt, and crates/disk_target/proofs/AttendedRuns.antt says what such a lemma means.
"""
import run_lemmas

COMMENT = """-- What targets rest on beside what they hear holds after each row of some runs. Written by tools/makers/attended_case.py."""

USES = """use Rattle.due_model.proofs.Seams.{onto}
use Rattle.disk_target.specs.Attended.{attended}
use Rattle.disk_target.proofs.AttendedRuns.{all_attended}"""

run_lemmas.write(COMMENT, "◌≡◌, true, [], refl", USES, "attended", "all_attended", "attended R RS ≡ true")
