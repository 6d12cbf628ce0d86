#!/usr/bin/env python3
"""Writes each import by the way that crates.txt leaves for it, or finds those that go another way.

    tools/checks/imports.py [--check] [CRATE ..]

A crate names what it imports by its home, `Rattle.HOME.specs` or `HOME::`, where its line of crates.txt has HOME; else through one
crate of that line which hands HOME on, `Rattle.HUB.specs.HOME.specs` or `HUB::the_HOME::`. HUB hands on definitions and lemmas by
a line `pub use .. HOME` of its specs/Lib.antt, and code by `pub use .. as the_HOME;` in its src/lib.rt. Where several crates of a line
hand HOME on, the one that hands on most is taken, and of equal ones the first; where none does, that is said, and the status is 1. Where a crate
has a hub of names, proofs/Names.antt, its proofs take them from there (hubs.py says how). Without names it goes over all crates; rt fmt puts the
lines in order afterwards. With --check nothing is written, and the status is 1 where a file would change.
"""
import pathlib
import re
import sys

import hubs

ROOT = pathlib.Path(__file__).resolve().parent.parent.parent
HANDED_LOGIC = re.compile(r"(?m)^pub use Rattle\.(?:\w+\.specs\.)*(\w+)$")
HANDING = re.compile(r"(?m)^pub use [^;]*\bthe_\w+[^;]*;")
HANDED_CODE = re.compile(r"\bthe_(\w+)(?=\s*[,;}])")


def lists():
    """Each crate and those of the repository that its line has."""
    rows = (line.partition(":") for line in (ROOT / "crates.txt").read_text().splitlines())
    found = {name.split()[0]: uses.split() for name, colon, uses in rows if colon and not name.startswith("#")}
    return {name: [low for low in uses if low in found] for name, uses in found.items()}


GRAPH = lists()
ANY = "|".join(sorted(GRAPH, key=len, reverse=True))
FAR_LOGIC = re.compile(rf"\bRattle\.(?:{ANY})\.specs\.({ANY})\.(?=specs\b|proofs\b)")
FAR_CODE = re.compile(rf"(?<![\w:.])(?:{ANY})::the_({ANY})::")
HOME_LOGIC = re.compile(rf"\bRattle\.({ANY})\.(?=specs\b|proofs\b)")
HOME_CODE = re.compile(rf"(?<![\w:.])({ANY})::")


def below(name, known):
    """All crates below this one."""
    if name not in known:
        known[name] = set(GRAPH[name]).union(*(below(low, known) for low in GRAPH[name]))
    return known[name]


def handed_logic(name):
    """The crates whose definitions and lemmas this one hands on."""
    path = ROOT / "crates" / name / "specs" / "Lib.antt"
    return [low for low in HANDED_LOGIC.findall(path.read_text()) if low in GRAPH] if path.is_file() else []


def handed_code(name):
    """The crates whose code this one hands on."""
    path = ROOT / "crates" / name / "src" / "lib.rt"
    lines = HANDING.findall(path.read_text()) if path.is_file() else []
    return [low for line in lines for low in HANDED_CODE.findall(line) if low in GRAPH]


def homely(text):
    """Text whose imports all name the home of what they import."""
    changed = 1
    while changed:
        text, changed = FAR_LOGIC.subn(r"Rattle.\1.", text)
    return FAR_CODE.sub(r"\1::", text)


def hub(name, low, hands):
    """The crate of this one's line through which it names another, None where none hands that on."""
    known = [other for other in GRAPH[name] if low in hands[other]]
    return max(known, key=lambda other: len(hands[other]), default=None)


def led(name, text, under, logic, code):
    """A text of this crate with each import by its way."""

    def as_logic(found):
        low = found[1]
        way = None if low == name or low in GRAPH[name] or low not in under else hub(name, low, logic)
        return f"Rattle.{way}.specs.{low}." if way else found[0]

    def as_code(found):
        low = found[1]
        way = None if low == name or low in GRAPH[name] or low not in under else hub(name, low, code)
        return f"{way}::the_{low}::" if way else found[0]

    def line_of(line):
        written, slashes, comment = line.partition("//")
        return HOME_CODE.sub(as_code, HOME_LOGIC.sub(as_logic, homely(written))) + slashes + comment

    return "\n".join(map(line_of, text.split("\n")))


def main(words):
    is_check = "--check" in words
    names = [word for word in words if word != "--check"] or list(GRAPH)
    known = {}
    logic = {name: handed_logic(name) for name in GRAPH}
    code = {name: handed_code(name) for name in GRAPH}
    changed, lost = 0, 0
    for name in names:
        folder = ROOT / "crates" / name
        texts = {}
        for path in sorted(path for part in ("src", "specs", "proofs", "must-fail") for path in folder.glob(part + "/**/*.*")):
            if path.suffix not in (".rt", ".antt", ".edit") or path == folder / "specs" / "Lib.antt":
                continue
            text = path.read_text(encoding="utf-8")
            # The lines that hand on stay as they are, and they are the last of a root file.
            first = min((found.start() for found in HANDING.finditer(text)), default=len(text))
            texts[path] = text, led(name, text[:first], below(name, known), logic, code) + text[first:]
        if hubs.is_hub(folder / "proofs" / hubs.FILE):
            proofs = {str(path.relative_to(folder / "proofs")): new for path, (_, new) in texts.items() if folder / "proofs" in path.parents}
            for path, new in hubs.folded(name, list(GRAPH), proofs).items():
                texts[folder / "proofs" / path] = texts[folder / "proofs" / path][0], new
        for path, (text, new) in texts.items():
            for low in sorted(set(HOME_LOGIC.findall(new)) - {name, *GRAPH[name]}):
                lost += 1
                print(f"{path.relative_to(ROOT)} names {low}, which no crate of the line of {name} hands on")
            if new != text:
                changed += 1
                print(path.relative_to(ROOT))
                if not is_check:
                    path.write_text(new, encoding="utf-8")
    if is_check:
        print("the imports go by crates.txt" if not changed | lost else f"{changed + lost} files name a crate by another way")
    return 1 if lost or is_check and changed else 0


if __name__ == "__main__":
    sys.exit(main(sys.argv[1:]))
