#!/usr/bin/env python3
"""Times the C library on one long lawful trace, beside `judge` of the program and of another simulator's program.

    benches/library.py OUR_PROGRAM OTHER_PROGRAM [ROUNDS]

The other program makes the trace (`make 7 4096`, run), of which the first million rows are taken. Prints the best
processor times in ns a row: of the library for rows in memory, and of both programs, which read the text as well.
"""
import os
import pathlib
import subprocess
import sys
import tempfile

ROOT = pathlib.Path(__file__).resolve().parent.parent
ROWS = 1_000_000


def trace(other):
    """The first rows of a long run, as a trace, and how many they are."""
    scenario = subprocess.run([other, "make", "7", "4096"], capture_output=True, check=True).stdout
    report = subprocess.run([other, "run"], input=scenario, capture_output=True, check=True).stdout
    rows = report.split(b"\nend ", 1)[0].split(b"\n")[1:][:ROWS]
    return b"\n".join([b"trace 1"] + rows + [b"end " + rows[-1].split(b" ")[0], b""]), len(rows)


def seconds(program, path):
    """The processor time of `judge`, in seconds."""
    with open(path, "rb") as text:
        child = subprocess.Popen([program, "judge"], stdin=text, stdout=subprocess.DEVNULL)
        _, _, usage = os.wait4(child.pid, 0)
        child.returncode = 0
    return usage.ru_utime + usage.ru_stime


def main():
    if len(sys.argv) not in (3, 4):
        sys.exit(__doc__)
    ours, other, rounds = *map(os.path.abspath, sys.argv[1:3]), int(sys.argv[3]) if len(sys.argv) == 4 else 5
    library = subprocess.run([ROOT / "tools/library"], stdout=subprocess.PIPE, check=True, text=True).stdout.split()[-1]
    text, rows = trace(other)
    with tempfile.TemporaryDirectory() as room:
        path, program = room + "/rows.trace", room + "/library"
        pathlib.Path(path).write_bytes(text)
        subprocess.run(["cc", "-O2", "-I", library + "/include", "-o", program, ROOT / "benches/library.c", library + "/lib/libscsibus.a"], check=True)
        print("%d rows, ns a row" % rows)
        print(subprocess.run([program, str(rounds), path], stdout=subprocess.PIPE, check=True, text=True).stdout, end="")
        for name, it in (("our program", ours), ("the other program", other)):
            print("%s: %.1f" % (name, min(seconds(it, path) for _ in range(rounds)) / rows * 1e9))


main()
