#!/usr/bin/env python3
"""Finds lines of code, specs and proofs that are over 120 columns: clauses, statements and comments.

    tools/checks/widths.py [--check | --write]

Prints each with its file, its number and its width, and ends with status 1 where there is one. With `--write` it
breaks clauses of the code first: after a field of a record, before an arrow, another relation or an argument, as far
outside in the clause as can be; `rt fmt` then lays out the fields of a record. A further line stands 4 columns further
in. Lines of specs and proofs are broken by tools/maintenance/columns.py.
Imports of the code and attributes, which the kit lays out, and lines that are one literal are left as they are, and so
are the cases that makers write (tools/checks/fresh.py): a line of theirs is a report or its rows, which nobody reads,
and the check that they are fresh compares them with what their makers write now.
"""
import pathlib
import re
import sys

import fresh

ROOT = pathlib.Path(__file__).resolve().parent.parent.parent
MOST = 120
# How much further in the rest of a clause stands.
STEP = 4
# How many columns of a clause a line has at least, where it is broken.
LEAST = 24
CLAUSE = re.compile(r"(requires|ensures|invariant|ghost (view|inverse|invariant))\b")
# Lines that stay: imports, attributes, literals; of specs and proofs literals, and imports of one name.
STAYING = re.compile(r'(pub )?(ghost )?use |#!?\[|\*?b?"')
STAYING_LOGIC = re.compile(r'"|use [^,]*$')
# What a further line may begin with, the best first.
MARKS = ("→ ", "× ", "≡ ", "≤ ", "< ", "++ ", "(λ ", "in ", "(", "∷ ")


def places(line, start):
    """Where a clause may be broken after `start`: depth within brackets, rank of the mark, column."""
    depth = 0
    for column, mark in enumerate(line):
        if column > start and line[column - 1] == " ":
            if line[column - 2] == ";":
                yield depth, 0, column
            for rank, word in enumerate(MARKS):
                if line.startswith(word, column):
                    yield depth, rank, column
        depth += (mark in "({[") - (mark in ")}]")


def broken(line, indent):
    """The lines of a clause, none over the limit where it can be helped."""
    if len(line) <= MOST:
        return [line]
    start = len(line) - len(line.lstrip())
    # (where it can be helped, not in the first words, which would then stand alone)
    fitting = [place for place in places(line, start + STEP) if place[2] <= MOST]
    fitting = [place for place in fitting if place[2] >= start + LEAST] or fitting
    if not fitting:
        return [line]
    outmost = min((depth, rank) for depth, rank, _ in fitting)
    at = max(column for depth, rank, column in fitting if (depth, rank) == outmost)
    return [line[:at].rstrip()] + broken(" " * indent + line[at:], indent)


def rewritten(text):
    """A file's text with its clauses broken."""
    lines = []
    for line in text.splitlines():
        clause = line.lstrip()
        lines += broken(line, len(line) - len(clause) + STEP) if CLAUSE.match(clause) else [line]
    return "\n".join(lines) + "\n"


def too_wide(text, staying=STAYING):
    """The numbers and widths of the lines that are over the limit."""
    for number, line in enumerate(text.splitlines(), 1):
        word = line.lstrip()
        if len(line) > MOST and not staying.match(word):
            yield number, len(line)


def logic():
    """The files of specs and proofs, without those that makers write."""
    for part in ("specs", "proofs"):
        for path in sorted((ROOT / "crates").glob("*/%s/**/*.antt" % part)):
            if str(path.relative_to(ROOT)) not in fresh.MADE:
                yield path


def main():
    wide = []
    for path in sorted((ROOT / "crates").glob("*/src/**/*.rt")):
        text = path.read_text()
        if "--write" in sys.argv[1:] and rewritten(text) != text:
            text = rewritten(text)
            path.write_text(text)
        wide += ["%s:%d: %d columns" % (path.relative_to(ROOT), *line) for line in too_wide(text)]
    for path in logic():
        wide += ["%s:%d: %d columns" % (path.relative_to(ROOT), *line) for line in too_wide(path.read_text(), STAYING_LOGIC)]
    print("\n".join(wide) if wide else "no line of code, specs and proofs is over %d columns" % MOST)
    sys.exit(1 if wide else 0)


main()
