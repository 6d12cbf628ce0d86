#!/usr/bin/env python3
"""Writes, of runs that tools/makers/due_case.py has written, the lemmas that what the causes of endings rest on holds.

    tools/makers/cause_case.py Cases tools/due_cases/*.scn > crates/book_laws/proofs/CauseRunCases.antt

The first word is the module of crates/due_model/proofs in which the runs of these scenarios stand. What is computed is stated in
crates/book_laws/specs/WrongParity.antt, and crates/book_laws/proofs/Forward.antt says what such a lemma means.
"""
import run_lemmas

COMMENT = """-- In some runs the target goes to BUS FREE only where it is due to, and each complaint of the initiator is of a phase in which a byte was
-- struck. Written by tools/makers/cause_case.py."""

USES = """use Rattle.due_model.proofs.Seams.{onto}
use Rattle.book_laws.proofs.Forward.{Hold, all_hold}"""

run_lemmas.write(COMMENT, "[], refl", USES, "holds", "all_hold", "Hold R RS")
