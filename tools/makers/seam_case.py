#!/usr/bin/env python3
"""Writes, of runs that tools/makers/due_case.py has written, the lemmas that the four seams hold at each of their rows.

    tools/makers/seam_case.py Cases tools/due_cases/*.scn > crates/due_model/proofs/SeamCases.antt

The first word is the module of crates/due_model/proofs in which the runs of these scenarios stand. The seams are stated in
`Faithful`, `Telling`, `Allowed` and `Sound` of crates/due_model/specs, and `proofs/Seams.antt` says what such a lemma means.
"""
import run_lemmas

COMMENT = """-- What crossed is what was to be said, each end shows the events that the rows show, the array permits them, and the bus is
-- sound, after each row of some runs. Written by tools/makers/seam_case.py."""

USES = """use Rattle.due_model.proofs.Seams.{Hold, onto, all_hold}"""

run_lemmas.write(COMMENT, "[], refl", USES, "holds", "all_hold", "Hold R RS")
