#!/usr/bin/env python3
"""Runs a program over the examples and over inputs that it refuses, and compares what it writes and its exit status.

    tools/checks/examples.py [PROGRAM]

PROGRAM is the one that the gate has proved and built, crates/scsibus/out/scsibus, where no other is named. The gate itself runs the program
on one input; here each word stands with each status that an input can ask for, so that a program which hands on its first word alone, or
always ends with 0, is found. Each file of examples/ that the program can write is what it writes, and so is each report of tools/tape_cases and
tools/tape_runs, which an independent simulator of the bus wrote. Ends with status 1 where one differs.
"""
import pathlib
import subprocess
import sys

ROOT = pathlib.Path(__file__).resolve().parent.parent.parent
EXAMPLES = ROOT / "examples"
# Scenarios, each with its report beside it.
REPORTS = sorted((ROOT / "tools").glob("tape_*/*.scn"))
# The words by which each kind of file is written, and the kind of file that is read.
KINDS = {
    ".out": (["run"], ".scsi"),
    ".short": (["run", "--short"], ".scsi"),
    ".transcript": (["run", "--transcript"], ".scsi"),
    ".vcd": (["vcd"], ".out"),
}
# A trace whose second device enters the arbitration a nanosecond too late, and what is refused, with the line and the status of each.
BROKEN = b"trace 1\n1200 7 00280\n3001 6 00240\nend 3001\n"
USAGE = b"usage: scsibus run [--short|--transcript] | judge | make SEED N | transcript | vcd | unvcd\n"
REFUSALS = [
    ([], b"", USAGE, 1),
    (["walk"], b"", USAGE, 1),
    (["run", "--long"], b"", USAGE, 1),
    (["run"], b"scenario 1\nhost 8\n", b"scenario line 1 reason 2\n", 2),
    (["judge"], BROKEN, b"broken 2 4\n", 6),
    (["transcript"], BROKEN, b"broken 2 4\n", 6),
    (["judge"], b"trace 1\nend\n", b"trace line 2\n", 7),
    (["unvcd"], b"$end\n", b"vcd line 1\n", 10),
]


def written(program, words, given):
    """What the program writes by these words, and its exit status."""
    ran = subprocess.run([program, *words], input=given, capture_output=True, timeout=120)
    return ran.stdout, ran.returncode


def main(words):
    program = str(pathlib.Path(words[0]).resolve()) if words else str(ROOT / "crates" / "scsibus" / "out" / "scsibus")
    wrong, count = [], 0

    def compare(what, got, wanted):
        nonlocal count
        count += 1
        if got != wanted:
            wrong.append(f"{what}: status {got[1]} in place of {wanted[1]}" if got[1] != wanted[1] else f"{what}: other bytes")

    for path in REPORTS:
        report = path.with_suffix(".out").read_bytes()
        compare(path.name, written(program, ["run"], path.read_bytes()), (report, 0))
        compare(f"{path.stem}.out, judged", written(program, ["judge"], report), (b"lawful\n", 0))
    for path in sorted(EXAMPLES.iterdir()):
        if path.suffix in KINDS:
            asked, kind = KINDS[path.suffix]
            compare(path.name, written(program, asked, path.with_suffix(kind).read_bytes()), (path.read_bytes(), 0))
        if path.suffix == ".out":
            compare(f"{path.name}, judged", written(program, ["judge"], path.read_bytes()), (b"lawful\n", 0))
            told = written(program, ["run", "--transcript"], path.with_suffix(".scsi").read_bytes())
            compare(f"{path.name}, its transcript", written(program, ["transcript"], path.read_bytes()), told)
        if path.suffix == ".vcd":
            trace, status = written(program, ["unvcd"], path.read_bytes())
            compare(f"{path.name}, read back", written(program, ["vcd"], trace), (path.read_bytes(), status))
    compare("made_1_2.scsi", written(program, ["make", "1", "2"], b""), ((EXAMPLES / "made_1_2.scsi").read_bytes(), 0))
    for asked, given, line, status in REFUSALS:
        compare(" ".join(["refused:", *asked]), written(program, asked, given), (line, status))
    print("\n".join(wrong) if wrong else f"{count} answers over the examples are as they stand")
    return 1 if wrong else 0


if __name__ == "__main__":
    sys.exit(main(sys.argv[1:]))
