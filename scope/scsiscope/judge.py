"""The judge: the one module that asks what is lawful.

All other modules ask a `Judge`. It answers by the program `scsibus`, one process a question. A judge in this process, over a shared
library, takes its place by the same two methods.
"""
import importlib.util
import os
import shutil
import subprocess
import sys
from pathlib import Path

from .trouble import Trouble

USAGE = b"usage: scsibus"


def program_path(given=None):
    """The program: as given, of the environment variable SCSIBUS, of this checkout, or of PATH."""
    for place, said in ((given, "--program"), (os.environ.get("SCSIBUS"), "SCSIBUS")):
        if place:
            found = shutil.which(place)
            if not found:
                raise Trouble("%s: no program %s" % (said, place))
            return found
    checkout = checkout_path()
    if checkout:
        return kept_program(checkout) or str(checkout / "scsibus")
    found = shutil.which("scsibus")
    if not found:
        raise Trouble("no program scsibus: give its path by --program or in the environment variable SCSIBUS, or put it on PATH")
    return found


def checkout_path():
    """The checkout of the project that this package or the working directory stands in, or None."""
    for start in (Path(__file__).resolve(), Path.cwd() / "x"):
        for folder in start.parents:
            if (folder / "crates" / "scsibus").is_dir() and (folder / "scsibus").is_file():
                return folder
    return None


def kept_program(checkout):
    """The program that this checkout keeps of its sources, proved if there is one; or None, and `./scsibus` makes one at its first call."""
    place = checkout / "tools" / "programs.py"
    if place.is_file():
        try:
            spec = importlib.util.spec_from_file_location("scsibus_programs", place)
            programs = importlib.util.module_from_spec(spec)
            was, sys.dont_write_bytecode = sys.dont_write_bytecode, True
            try:
                spec.loader.exec_module(programs)
                sources = programs.key()
                kept = [(kind, programs.kept(kind, sources)) for kind in ("proved", "unproved")]
            finally:
                sys.dont_write_bytecode = was
        except Exception:  # Another version of the checkout: its own script knows.
            return None
        for kind, program in kept:
            if os.access(program, os.X_OK):
                if kind == "unproved":
                    sys.stderr.write("scsiscope: the judge is UNPROVED: no proved program of these sources is here; ./prove makes it\n")
                return str(program)
        return None
    built = checkout / ".build" / "scsibus"
    return str(built) if os.access(built, os.X_OK) else None


class Refused(Exception):
    """The text is no trace text (its line), no dump, or no scenario: what the program said of it."""

    def __init__(self, line):
        super().__init__(line)
        self.said = line


class Judge:
    """Asks the program. `questions` counts what was asked."""

    def __init__(self, program=None):
        self.program = program
        self.questions = 0

    def words(self, words, text):
        """What the program answers to these words and this input: its status and its output."""
        if self.program is None:
            self.program = program_path()
        self.questions += 1
        try:
            done = subprocess.run([self.program, *words], input=text, stdout=subprocess.PIPE)
        except OSError as error:
            raise Trouble("%s: %s" % (self.program, error.strerror)) from None
        if done.stdout.startswith(USAGE):
            raise Trouble("%s does not know the words `%s`: it is older than this scsiscope" % (self.program, " ".join(words)))
        if done.returncode in (3, 4, 5) or done.returncode not in (0, 2, 6, 7, 8, 10):
            raise Trouble("%s %s: %s (status %d)" % (
                self.program, " ".join(words), done.stdout[:80].decode(errors="replace").strip() or "no answer", done.returncode))
        return done.returncode, done.stdout

    def verdict(self, text):
        """The verdict on the text of a trace: None where it is lawful, else the row and the rule. Raises Refused."""
        status, said = self.words(["judge"], text)
        if status == 0:
            return None
        if status == 6:
            _, row, rule = said.split()
            return int(row), int(rule)
        raise Refused(said.decode(errors="replace").strip())

    def after(self, trace, count, rows, end):
        """The verdict on the first `count` rows of a trace with these rows after them, (time, device, value), and this end."""
        text = [trace.prefix(count)]
        text += [row_text(*row) for row in rows]
        text.append(b"end %d\n" % end)
        return self.verdict(b"".join(text))

    def breaks(self, trace, count, rows):
        """The lowest rule that the last of these rows breaks after the first `count` of a trace and the others; 0 where it breaks
        none, and None where a row before it breaks one."""
        said = self.after(trace, count, rows, rows[-1][0])
        if said is None or said[0] > count + len(rows):
            return 0
        return said[1] if said[0] == count + len(rows) else None


def row_text(time, device, value):
    """A row as a trace text has it. A value below zero is a fault on the bit -1 - value."""
    if value < 0:
        return b"%d %d f%d\n" % (time, device, -1 - value)
    return b"%d %d %05x\n" % (time, device, value)
