#!/usr/bin/env python3
"""Writes, of scenarios that were made of numbers, the lemmas that the definition makes the same texts.

    tools/makers/make_case.py tools/make_cases/*.scsi > crates/scenario/proofs/MadeCases.antt

SEED_N.scsi is what an independent simulator makes of SEED with N commands.
"""
import pathlib
import sys

HEAD = """-- Scenarios of numbers, as an independent simulator makes them. tools/makers/make_case.py writes this file.
use Rattle.std.proofs.Common.{◌≡◌, refl}
use Rattle.std.specs.Prelude.{codes}
use Rattle.std.specs.Fmt.{digits}
use Rattle.scenario.specs.Writing.{text_of, host_sync_text, initiator_text, target_seek_text, target_disc_text, target_text, unit_text, cmd_tag_text, cmd_text}
use Rattle.scenario.specs.Making.{made}
"""

LEMMA = """
made_%s_%s : text_of (made %s %s)
    ≡ codes "%s"
unfolding digits initiator_text host_sync_text target_text target_disc_text target_seek_text unit_text cmd_text cmd_tag_text
made_%s_%s = refl
"""


def numbers(path):
    """The two numbers of a scenario, by its name."""
    return [int(part) for part in pathlib.Path(path).stem.split("_")]


def main():
    out = HEAD
    for path in sorted(sys.argv[1:], key=numbers):
        seed, n = numbers(path)
        text = pathlib.Path(path).read_text().replace("\n", "\\n")
        out += LEMMA % (seed, n, seed, n, text, seed, n)
    sys.stdout.write(out)


if __name__ == "__main__":
    main()
