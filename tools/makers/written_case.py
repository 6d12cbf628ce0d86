#!/usr/bin/env python3
"""Writes, of runs that tools/makers/due_case.py has written, the lemmas that writes come whole.

    tools/makers/written_case.py Cases tools/due_cases/*.scn > crates/bus_laws/proofs/WrittenCases.antt

The first word is the module of crates/due_model/proofs in which the runs of these scenarios stand. What is computed is stated in
crates/scsi_device/specs/Writes.antt, and crates/bus_laws/proofs/WrittenRuns.antt says what such a lemma means.
"""
import run_lemmas

COMMENT = """-- Writes come whole, after each row of some runs. Written by tools/makers/written_case.py."""

USES = """use Rattle.due_model.proofs.Seams.{onto}
use Rattle.scsi_device.specs.Writes.{written}
use Rattle.bus_laws.proofs.WrittenRuns.{all_written}"""

run_lemmas.write(COMMENT, "◌≡◌, true, [], refl", USES, "written", "all_written", "written R RS ≡ true")
