#!/usr/bin/env python3
"""Lists the files of definitions on which a statement stands, and how many lines they have without imports, comments and blanks.

    tools/reading.py FILE..

FILE is one of specs/, as crates/bus_rules/specs/Rules.antt.
"""
import pathlib
import re
import sys

ROOT = pathlib.Path(__file__).resolve().parent.parent
USE = re.compile(r"\s*(?:pub )?use Rattle\.([\w.]+)")
# What is no line of a definition.
BESIDE = re.compile(r"\s*(?:--|(?:pub )?(?:use|mod) |$)")


def file_of(module):
    """The file of definitions that an import names, also where it goes through crates that hand it on."""
    parts = module.rstrip(".").split(".")
    if "specs" not in parts:
        return None
    at = len(parts) - 1 - parts[::-1].index("specs")
    for end in range(len(parts), at, -1):
        path = ROOT / "crates" / parts[at - 1] / "specs" / ("/".join(parts[at + 1 : end]) + ".antt")
        if path.is_file():
            return path
    return None


def below(path, found):
    """A file and all that it imports, each once, what is imported first."""
    if path in found:
        return
    found[path] = None
    for line in path.read_text().splitlines():
        use = USE.match(line)
        low = use and file_of(use[1])
        if low:
            below(low, found)
    found[path] = sum(not BESIDE.match(line) for line in path.read_text().splitlines())


def main():
    if len(sys.argv) < 2:
        sys.exit(__doc__)
    found = {}
    for name in sys.argv[1:]:
        below(pathlib.Path(name).resolve(), found)
    for path, lines in sorted(found.items()):
        print("%5d %s" % (lines, path.relative_to(ROOT)))
    print("%5d in %d files" % (sum(found.values()), len(found)))


main()
