#!/usr/bin/env python3
"""Finds names and paths that the pages speak of and that nothing has.

    tools/checks/doc_names.py

A name between backquotes has to stand somewhere in the crates, in tools/, scope/ or include/, a path has to lead to a file or a folder, from the top,
from crates/ or from a crate. Prints each that does not with its page and line, and ends with status 1 where there is one.
"""
import pathlib
import re
import sys

ROOT = pathlib.Path(__file__).resolve().parent.parent.parent
NAME = re.compile(r"[A-Za-z_]\w*")
PATH = re.compile(r"(?:[\w-]+/)+[\w.-]*|\w+\.(?:antt|rt|py)")


def names():
    """Every word of code, definitions, proofs, tools and scope/, and each must-fail edit's name."""
    found = {edit.stem for edit in ROOT.glob("crates/*/must-fail/*.edit")}
    for pattern in ("src/**/*.rt", "specs/**/*.antt", "proofs/**/*.antt"):
        for path in ROOT.glob("crates/*/" + pattern):
            found.update(NAME.findall(path.read_text()))
    for pattern in ("tools/**/*.py", "scope/*/*.py", "include/*.h"):
        for path in ROOT.glob(pattern):
            found.update(NAME.findall(path.read_text()))
    return found


def leads_somewhere(path):
    """Whether there is a file, a folder or a module at this path."""
    places = ("", "crates/", "crates/*/", "crates/*/specs/")
    if "/" not in path:
        return any(ROOT.glob("crates/*/*/**/" + path)) or any(ROOT.glob("tools/**/" + path))
    crate, rest = path.split("/", 1)
    module = ROOT / "crates" / crate / "specs" / (rest + ".antt")
    return path.startswith("out/") or module.exists() or any(any(ROOT.glob(place + path)) for place in places)


def main():
    known = names()
    wrong = []
    for page in [ROOT / "README.md", ROOT / "CONTRIBUTING.md"] + sorted((ROOT / "docs").glob("*.md")):
        for number, line in enumerate(page.read_text().splitlines(), 1):
            for word in re.findall(r"`([^`]+)`", line):
                lost = NAME.fullmatch(word) and word not in known or PATH.fullmatch(word) and not leads_somewhere(word)
                if lost:
                    wrong.append("%s:%d: nothing has %s" % (page.relative_to(ROOT), number, word))
    print("\n".join(wrong) if wrong else "every name of the pages stands in the tree")
    sys.exit(1 if wrong else 0)


main()
