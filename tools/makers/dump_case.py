#!/usr/bin/env python3
"""Writes, of value change dumps and their traces, the lemmas that each dump says the rows and the end, and is what is written of them.

    tools/makers/dump_case.py tools/dump_cases/*.out > crates/vcd_text/proofs/TraceCases.antt

Beside each report or trace text NAME.out stands its dump NAME.vcd; both come from outside this repository. Dumps named from_TOOL
were written by that tool: they are only read.
"""
import sys

import array_case

HEAD = """-- Traces and their dumps: written and read, computed. Written by tools/makers/dump_case.py.
use Rattle.std.proofs.Common.{◌≡◌, ℕ, refl, List, [], ◌∷◌, ◌++◌}
use Rattle.std.specs.Prelude.{Ok, codes}
use Rattle.std.specs.Fmt.{digits}
use Rattle.bus_trace.specs.LineSet.{set_of}
use Rattle.bus_trace.specs.declared.rows.Row.{Row}
use Rattle.bus_trace.specs.declared.rows.Kind.TheVariants.{Drives}
use Rattle.vcd_text.specs.DumpText.{dump_text}
use Rattle.vcd_text.specs.Reading.{vcd_of}

abbrev drive : ℕ → ℕ → ℕ → Row
drive time dev lines = record { time = time; dev = dev; kind = Drives (set_of lines) }
"""

# How many lines of a dump stand in one string.
PART = 40


def end(out):
    """The time of the end of a report."""
    return next(line.split()[1] for line in open(out) if line.startswith("end "))


def text(path):
    """The bytes of a file."""
    lines = open(path).read().splitlines()
    quoted = [line.replace("\\", "\\\\").replace('"', '\\"').replace("\t", "\\t") + "\\n" for line in lines]
    parts = ["".join(quoted[at:at + PART]) for at in range(0, len(lines), PART)]
    return " ++ (".join('codes "%s"' % part for part in parts) + ")" * (len(parts) - 1)


def main():
    print(HEAD)
    for out in sys.argv[1:]:
        name = array_case.name_of(out, "")
        array_case.print_rows(name, out)
        print("abbrev %s_dump : List ℕ\n%s_dump = %s\n" % (name, name, text(out[: -len("out")] + "vcd")))
        if not name.startswith("from_"):
            print("%s_written : dump_text %s_rows %s ≡ %s_dump\nunfolding digits\n%s_written = refl\n" % (name, name, end(out), name, name))
        print("%s_read : vcd_of %s_dump ≡ Ok (%s_rows, %s)\n%s_read = refl\n" % (name, name, name, end(out), name))


if __name__ == "__main__":
    main()
