#!/usr/bin/env python3
"""Writes, of runs that tools/makers/due_case.py has written, the lemmas that what targets hear is of the processes that they serve.

    tools/makers/heard_case.py Cases tools/due_cases/*.scn > crates/bus_laws/proofs/HeardCases.antt

The first word is the module of crates/due_model/proofs in which the runs of these scenarios stand. What is computed is stated in
crates/scsi_device/specs/Heard.antt, and crates/bus_laws/proofs/HeardRuns.antt says what such a lemma means.
"""
import run_lemmas

COMMENT = """-- What targets hear is of the processes that they serve, after each row of some runs. Written by tools/makers/heard_case.py."""

USES = """use Rattle.due_model.proofs.Seams.{onto}
use Rattle.scsi_device.specs.Heard.{heard}
use Rattle.bus_laws.proofs.HeardRuns.{all_heard}"""

run_lemmas.write(COMMENT, "◌≡◌, true, [], refl", USES, "heard", "all_heard", "heard R RS ≡ true")
