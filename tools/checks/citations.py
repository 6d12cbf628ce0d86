#!/usr/bin/env python3
"""Finds citations of clauses that docs/standard.md does not have, and those that give a message another clause than it: in comments of
code, definitions and proofs, and in pages.

    tools/checks/citations.py

Prints each with its file and line, and ends with status 1 where there is one.
"""
import pathlib
import re
import sys

ROOT = pathlib.Path(__file__).resolve().parent.parent.parent
# A number of two parts or more, from clause 5 on, that is no decimal, version, time, share or name of a process without a tag.
CLAUSE = re.compile(r"(?<![\w.,])([5-9](?:\.\d{1,2}){1,3})(?![\w.]*\d)(?!\.-)(?!\s*(?:ns|s|MiB|times|GiB|KiB|MB)\b)(?!\s*%)")
# A name in capitals with its clauses, as in ABORT TAG (6.6.2) or IDENTIFY (6.1.4, 6.6.7); what holds from one to another is of several names.
NAMED = re.compile(r"\b([A-Z]{2,}(?: [A-Z]{2,})*) \(([5-9]\.[\d., ]*\d)\)")
COMMENTS = {".antt": "--", ".rt": "//"}


def cited(path):
    """Each line of a file in which clauses may be cited, with its number."""
    mark = COMMENTS.get(path.suffix)
    for number, line in enumerate(path.read_text().splitlines(), 1):
        if mark is None:
            yield number, line
        elif mark in line:
            yield number, line.split(mark, 1)[1]


def files():
    for folder in sorted((ROOT / "crates").iterdir()):
        for part in ("src", "specs", "proofs"):
            yield from sorted((folder / part).rglob("*.antt"))
            yield from sorted((folder / part).rglob("*.rt"))
    # (docs/speed.md has measurements, and cites no clause)
    yield from sorted(path for path in (ROOT / "docs").glob("*.md") if path.name not in ("standard.md", "speed.md"))


def main():
    table = (ROOT / "docs" / "standard.md").read_text()
    rows = re.findall(r"^\| ([\d.]+) \| (.*?) \|", table, re.MULTILINE)
    known = {clause for clause, _ in rows}
    titled = {title: clause for clause, title in rows if title.isupper()}
    wrong = []
    for path in files():
        for number, line in cited(path):
            place = "%s:%d" % (path.relative_to(ROOT), number)
            wrong += ["%s: %s is not in docs/standard.md" % (place, clause) for clause in CLAUSE.findall(line) if clause not in known]
            wrong += [
                "%s: %s is %s in docs/standard.md, not %s" % (place, name, titled[name], clauses)
                for name, clauses in NAMED.findall(line)
                if name in titled and titled[name] not in clauses.split(", ")
            ]
    print("\n".join(wrong) if wrong else "every citation is in docs/standard.md")
    sys.exit(1 if wrong else 0)


main()
