#!/usr/bin/env python3
"""Times each word of the program beside another simulator's program, and writes the tables of docs/speed.md.

    benches/words.py OUR_PROGRAM OTHER_PROGRAM [--rounds N] [--write] [WORD..]

The other program makes the inputs: scenarios of seed 7 with 10 to 4096 commands (`make`), their reports (`run`), the dumps of these (`vcd`), and
a scenario of 60 reads and writes with synchronous data transfer and faults. In each round both programs run in turn, so that both meet the same
load; the ratio is the median of those of the rounds, in processor time. Their answers have to be the same.

The first table has, of the largest input of each word: rows, ns a row of each program, the ratio, instructions a row of each and the memory that
each had resident at most. Instructions are counted over the input of 101 commands, without those of an empty input, by `perf stat` where the
machine has a counter, else by valgrind, else not at all. The second has ns a row of our program from 10^4 to 4 * 10^6 rows, without the time
that an empty input takes. WORD.. are those that are measured, by their names in the table; --write puts the tables into docs/speed.md.
"""
import argparse
import os
import pathlib
import re
import shutil
import statistics
import subprocess
import sys
import tempfile

PAGE = pathlib.Path(__file__).resolve().parent.parent / "docs/speed.md"
COMMANDS = (10, 101, 1012, 4096)
COUNTED = 101
# The greatest text of a scenario, in bytes.
SCENARIO_LIMIT = 4_194_304


def mixed():
    """60 reads and writes of up to 32 blocks at three targets."""
    lines = ["scsi 1"]
    lines += ["initiator %d latency 0 open 4 retries 5 sync 50 8 lag 100" % dev for dev in (7, 6)]
    for dev, policy in enumerate(("command", "burst 8", "never")):
        lines.append("target %d latency 0 retries 5 disc %s pick first seek 50000 sync 50 8" % (dev, policy))
    lines += ["unit %d 0 blocks 4096 size 512 depth 8" % dev for dev in range(3)]
    for number in range(1, 61):
        blocks = 4 * (1 + number % 8)
        writes = number % 4 < 2
        cdb = bytes((0x2A if writes else 0x28, 0)) + (40 * number).to_bytes(4, "big") + bytes((0,)) + blocks.to_bytes(2, "big") + bytes((0,))
        sent = "out from %02x" % (number & 255) if writes else "none"
        lines.append("cmd %d %d 0 at 0 simple %d cdb %s %s" % (7 if number % 2 else 6, number % 3, number, cdb.hex(), sent))
    lines += ["fault at %d bit %d" % (k * 1000000, k) for k in range(1, 6)]
    return ("\n".join(lines + ["end"]) + "\n").encode()


def refused():
    """A scenario of 4 MiB that is refused at its last line, which follows on `end`: fills, 4096 commands, and a comment that fills the text up."""
    lines = [
        "scsi 1",
        "initiator 7 latency 0 open 32 retries 2 sync 0 0 lag 0",
        "target 0 latency 0 retries 2 disc never pick first seek 0 sync 0 0",
        "unit 0 0 blocks 65536 size 16 depth 256",
    ]
    lines += ["fill 0 0 %d %s" % (lba, "a5" * 16) for lba in range(0, 65536)]
    lines += ["cmd 7 0 0 at %d simple %d cdb 0800%04x0100 none" % (1000 * n, n % 256, n) for n in range(4096)]
    body, tail = "\n".join(lines) + "\n", "end\nend\n"
    return (body + "#" + "x" * (SCENARIO_LIMIT - len(body) - len(tail) - 2) + "\n" + tail).encode()


class Input:
    """A text that a word reads, and how many rows (or, of `make` and a refusal, commands or lines) it is about."""

    def __init__(self, path, rows, words):
        self.path, self.rows, self.words = path, rows, words


class Inputs:
    """The inputs of all words, made by the other program in a folder."""

    def __init__(self, other, folder):
        self.other, self.folder = other, folder
        self.scenarios, self.reports, self.dumps, self.counts = {}, {}, {}, {}
        self.empty = {
            "scenario": self.kept("empty.scn", b"scsi 1\nend\n"),
            "trace": self.kept("empty.trace", b"trace 1\nend 0\n"),
        }
        self.empty["dump"] = self.said("empty.vcd", ["vcd"], self.empty["trace"])
        for count in COMMANDS:
            self.scenarios[count] = self.said("%d.scn" % count, ["make", "7", str(count)], os.devnull)
            self.reports[count] = self.said("%d.out" % count, ["run"], self.scenarios[count])
            self.dumps[count] = self.said("%d.vcd" % count, ["vcd"], self.reports[count])
            self.counts[count] = rows_of(self.reports[count])
        self.mixed = self.kept("mixed.scn", mixed())
        self.refused = self.kept("refused.scn", refused())

    def kept(self, name, text):
        path = os.path.join(self.folder, name)
        with open(path, "wb") as file:
            file.write(text)
        return path

    def said(self, name, words, of):
        path = os.path.join(self.folder, name)
        with open(of, "rb") as text, open(path, "wb") as out:
            subprocess.run([self.other, *words], stdin=text, stdout=out, check=True)
        return path

    def of(self, name):
        """The inputs of a word of the table, the empty one first, by rising length."""
        if name == "make":
            return [Input(os.devnull, count, ["make", "7", str(count)]) for count in (1, *COMMANDS)]
        if name == "run of 60 by pulses":
            report = self.said("mixed.out", ["run"], self.mixed)
            return [Input(self.empty["scenario"], 0, ["run"]), Input(self.mixed, rows_of(report), ["run"])]
        if name == "refusal of 4 MiB":
            return [Input(self.empty["scenario"], 0, ["run"]), Input(self.refused, 4096 + 65536, ["run"])]
        kind, texts = {
            "run": ("scenario", self.scenarios),
            "run --short": ("scenario", self.scenarios),
            "unvcd": ("dump", self.dumps),
        }.get(name, ("trace", self.reports))
        return [Input(self.empty[kind], 0, name.split())] + [Input(texts[it], self.counts[it], name.split()) for it in COMMANDS]


NAMES = ("judge", "vcd", "unvcd", "transcript", "run", "run --short", "run of 60 by pulses", "make", "refusal of 4 MiB")


def rows_of(report):
    """How many rows a trace has."""
    with open(report, "rb") as text:
        return text.read().split(b"\nend ", 1)[0].count(b"\n")


def seconds(program, it, out):
    """The processor time of one run, in seconds."""
    with open(it.path, "rb") as text, open(out, "wb") as said:
        child = subprocess.Popen([program, *it.words], stdin=text, stdout=said, stderr=subprocess.DEVNULL)
        _, status, usage = os.wait4(child.pid, 0)
        child.returncode = status
    return usage.ru_utime + usage.ru_stime


def peak(program, it):
    """The most memory that was resident, in MiB, which GNU time tells."""
    with open(it.path, "rb") as text:
        command = ["/usr/bin/time", "-q", "-f", "%M", program, *it.words]
        done = subprocess.run(command, stdin=text, stdout=subprocess.DEVNULL, stderr=subprocess.PIPE, check=False)
    return int(done.stderr.split()[-1]) / 1024


def counter():
    """How instructions are counted here: the words before a command and what finds the number in what it says; None where nothing counts them."""
    ways = (
        (["perf", "stat", "-x,", "-e", "instructions:u"], r"(?m)^(\d+),[^,]*,instructions"),
        (["valgrind", "--tool=cachegrind", "--cache-sim=no", "--cachegrind-out-file=/dev/null"], r"I\s+refs:\s+([\d,]+)"),
    )
    for words, found in ways:
        if shutil.which(words[0]):
            done = subprocess.run([*words, "true"], capture_output=True, text=True, check=False)
            if re.search(found, done.stderr):
                return words, found
    return None


def instructions(how, program, it):
    """How many instructions one run takes."""
    words, found = how
    with open(it.path, "rb") as text:
        done = subprocess.run([*words, program, *it.words], stdin=text, stdout=subprocess.DEVNULL, stderr=subprocess.PIPE, text=True, check=False)
    return int(re.search(found, done.stderr)[1].replace(",", ""))


def a_row(how, program, inputs):
    """Instructions a row over the input of COUNTED commands, without those of the empty input."""
    if how is None:
        return "-"
    it = inputs[min(len(inputs) - 1, 1 + COMMANDS.index(COUNTED))]
    less = inputs[0]
    return "%.0f" % ((instructions(how, program, it) - instructions(how, program, less)) / max(it.rows - less.rows, 1))


class Bench:
    """Both programs, and where their answers are put."""

    def __init__(self, programs, folder, rounds):
        self.programs, self.rounds = programs, rounds
        self.outs = [os.path.join(folder, which) for which in ("ours", "others")]

    def pairs(self, it, rounds):
        """The processor times of both programs, in turn, in seconds."""
        times = [[seconds(program, it, out) for program, out in zip(self.programs, self.outs)] for _ in range(rounds)]
        with open(self.outs[0], "rb") as ours, open(self.outs[1], "rb") as others:
            if ours.read() != others.read():
                sys.exit("the answers differ: %s < %s" % (" ".join(it.words), it.path))
        return times

    def line(self, name, inputs, how):
        """The line of a word in the first table."""
        it = inputs[-1]
        times = self.pairs(it, self.rounds)
        own, their = (statistics.median(column) / it.rows * 1e9 for column in zip(*times))
        ratio = statistics.median(mine / max(other, 1e-9) for mine, other in times)
        counts = [a_row(how, program, inputs) for program in self.programs]
        memory = [peak(program, it) for program in self.programs]
        return "| `%s` | %s | %.0f | %.0f | **%.2f** | %s | %s | %.1f | %.1f |" % (name, format(it.rows, ","), own, their, ratio, *counts, *memory)

    def lengths(self, name, inputs):
        """The line of a word in the second table: ns a row of our program by length."""
        start = statistics.median(seconds(self.programs[0], inputs[0], self.outs[0]) for _ in range(31))
        cells = []
        for it in inputs[1:]:
            # Short runs are repeated, since the clock of a process is coarse beside them.
            times = [seconds(self.programs[0], it, self.outs[0]) for _ in range(max(self.rounds, min(201, 2_000_000 // it.rows)))]
            cells.append("%.0f" % ((statistics.median(times) - start) / it.rows * 1e9))
        return "| `%s` | %s |" % (name, " | ".join(cells))


def tables(bench, inputs, names):
    """Both tables, line by line."""
    how = counter()
    by = "instructions a row by %s" % how[0][0] if how else "no counter of instructions here"
    yield "<!-- words.py: begin -->"
    yield "Medians of %d pairs of runs; %s. A row of `make` is a command, of a refusal a line." % (bench.rounds, by)
    yield ""
    yield "| Word | rows | ns a row, ours | other | ratio | instructions a row, ours | other | MiB, ours | other |"
    yield "|---|---|---|---|---|---|---|---|---|"
    for name in names:
        yield bench.line(name, inputs.of(name), how)
    yield ""
    yield "ns a row of our program by length, without what an empty input takes:"
    yield ""
    yield "| Word | %s |" % " | ".join("%s rows" % format(inputs.counts[it], ",") for it in COMMANDS)
    yield "|---|%s" % ("---|" * len(COMMANDS))
    for name in names:
        if len(inputs.of(name)) > len(COMMANDS) and name != "make":
            yield bench.lengths(name, inputs.of(name))
    yield "<!-- words.py: end -->"


def main():
    words = argparse.ArgumentParser(description=__doc__, formatter_class=argparse.RawDescriptionHelpFormatter)
    words.add_argument("ours")
    words.add_argument("other")
    words.add_argument("--rounds", type=int, default=9)
    words.add_argument("--write", action="store_true")
    words.add_argument("names", nargs="*", metavar="WORD")
    given = words.parse_args()
    wrong = [name for name in given.names if name not in NAMES]
    if wrong or given.rounds < 1 or (given.write and given.names):
        words.error("a WORD is one of %s; --rounds is at least 1; --write goes with all words" % ", ".join(NAMES))
    with tempfile.TemporaryDirectory() as folder:
        bench = Bench([os.path.abspath(given.ours), os.path.abspath(given.other)], folder, given.rounds)
        said = []
        for line in tables(bench, Inputs(bench.programs[1], folder), given.names or NAMES):
            print(line, flush=True)
            said.append(line)
    if given.write:
        page = PAGE.read_text(encoding="utf-8")
        written, places = re.subn(r"(?s)<!-- words.py: begin -->.*<!-- words.py: end -->", lambda _: "\n".join(said), page)
        if places != 1:
            sys.exit("docs/speed.md has no place for the tables")
        PAGE.write_text(written, encoding="utf-8")


if __name__ == "__main__":
    main()
