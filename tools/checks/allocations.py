#!/usr/bin/env python3
"""Refuses a program each of its allocations in turn, and compares what it writes and its exit status.

    tools/checks/allocations.py [PROGRAM]

PROGRAM is the one that the gate has proved and built, crates/scsibus/out/scsibus, where no other is named. By each word that takes memory
it is run on the smallest example, once for each allocation that it makes there: that one is refused, and in another run it and all after it.
The answer must be that with ample memory; or the status is 5, and what was written is the line of that status. `judge` asks for no memory
once it runs. Ends with status 1 where an answer is another. No contract says when memory suffices, so this is tested alone.
"""
import os
import pathlib
import subprocess
import sys
import tempfile

ROOT = pathlib.Path(__file__).resolve().parent.parent.parent
EXAMPLES = ROOT / "examples"
MEMORY = (b"no memory\n", 5)
# The allocator of the C library, which refuses the calls from the one to the other number, counted from 1. It tells on standard error,
# where the program writes nothing, how many calls there were.
ALLOCATOR = r"""
#include <stdio.h>
#include <stdlib.h>
#include <string.h>
#include <unistd.h>
extern void *__libc_malloc(size_t), *__libc_realloc(void *, size_t);
static long calls, first, last;
static int is_refused(void) { return ++calls >= first && calls <= last; }
__attribute__((constructor)) static void begin(void) {
    const char *from = getenv("REFUSED_FROM"), *to = getenv("REFUSED_TO");
    calls = 0;
    first = from ? atol(from) : 1;
    last = to ? atol(to) : 0;
}
__attribute__((destructor)) static void end(void) {
    char text[32];
    int size = snprintf(text, sizeof text, "%ld\n", calls);
    if (write(2, text, size) != size) _exit(99);
}
void *malloc(size_t size) { return is_refused() ? 0 : __libc_malloc(size); }
void *realloc(void *old, size_t size) { return is_refused() ? 0 : __libc_realloc(old, size); }
"""
LAST = 1 << 62


def main(words):
    program = str(pathlib.Path(words[0]).resolve()) if words else str(ROOT / "crates" / "scsibus" / "out" / "scsibus")
    scenario, report = (EXAMPLES / "read6.scsi").read_bytes(), (EXAMPLES / "read6.out").read_bytes()
    asked = [
        (["run"], scenario),
        (["run", "--short"], scenario),
        (["run", "--transcript"], scenario),
        (["make", "1", "2"], b""),
        (["transcript"], report),
        (["vcd"], report),
        (["unvcd"], (EXAMPLES / "read6.vcd").read_bytes()),
        (["judge"], report),
    ]
    wrong, count = [], 0
    with tempfile.TemporaryDirectory() as folder:
        (pathlib.Path(folder) / "allocator.c").write_text(ALLOCATOR)
        library = f"{folder}/allocator.so"
        subprocess.run(["cc", "-O1", "-shared", "-fPIC", "-o", library, f"{folder}/allocator.c"], check=True)

        def ran(words, given, first, last):
            """What the program writes by these words, its status, and how often it asked for memory."""
            how = {**os.environ, "LD_PRELOAD": library, "REFUSED_FROM": str(first), "REFUSED_TO": str(last)}
            done = subprocess.run([program, *words], input=given, capture_output=True, timeout=120, env=how)
            return (done.stdout, done.returncode), int(done.stderr or b"-1")

        for words, given in asked:
            ample, calls = ran(words, given, 1, 0)
            if ample[1] or calls < 0:
                wrong.append(f"{' '.join(words)}: status {ample[1]} with ample memory, {calls} allocations")
            for first in range(1, calls + 1):
                for last in (first, LAST):
                    count += 1
                    got = ran(words, given, first, last)[0]
                    if got not in (ample, MEMORY):
                        wrong.append(f"{' '.join(words)}: allocation {first} refused{', and all after it' if last == LAST else ''}: {got[1]} {got[0][:60]}")
    for line in wrong:
        print(line)
    print(f"{count} refusals of an allocation: {len(wrong)} answers are wrong")
    return 1 if wrong else 0


sys.exit(main(sys.argv[1:]))
