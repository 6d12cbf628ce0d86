#!/usr/bin/env python3
"""Compares the public contracts and the definitions of the tree with those of a revision.

    tools/maintenance/contracts.py REVISION

A contract is the head of a public function, from its name to its body, with all clauses; a definition is a paragraph of specs/. Comments,
imports, blanks and the crate and file that something stands in do not count, so that a move or another way of an import is no difference.
Prints what the revision alone has, by `-`, and what the tree alone has, by `+`, each with its file. Ends with status 1 where there is any.
"""
import collections
import pathlib
import re
import subprocess
import sys

ROOT = pathlib.Path(__file__).resolve().parent.parent.parent
FUNCTION = re.compile(r"^( *)pub (?:const )?fn ")
IMPORT = re.compile(r"\s*(?:pub |ghost |unfoldable )*use ")


def bare(text, mark):
    """The lines of a text without its comments and imports."""
    lines = (re.sub(rf"(?:^|\s){mark}.*$", "", line) for line in re.sub(r"(?m)^\s*(?:pub )?use [^;{]*\{[^}]*\};$", "", text).split("\n"))
    return [line for line in lines if not IMPORT.match(line)]


def contracts(text):
    """The heads of the public functions of a file of code."""
    head, deep = None, ""
    for line in bare(text, "//"):
        begun = FUNCTION.match(line)
        if begun:
            head, deep = [], begun[1]
        if head is not None:
            head.append(line)
            if line in (deep + "{", deep + "{}") or begun and line.endswith(("{", "{}", ";")):
                yield " ".join(" ".join(head).rstrip("{} ").split())
                head = None


def definitions(text):
    """The paragraphs of a file of definitions."""
    for part in re.split(r"\n\s*\n", "\n".join(bare(text, "--"))):
        # (without the marks and blanks by which a record, a pair or an `elim` is laid out part by part)
        words = re.sub(r"(?<=[({[]) (?:\| )?|[;,]?(?= [)}\]])| (?=[)}\]])", "", " ".join(part.split()))
        if words and not all(re.match(r"\s*(?:pub )?mod \w+\s*$", line) for line in part.split("\n") if line.strip()):
            yield words


def said(files):
    """Each contract and definition of these files, with where it stands."""
    found = collections.defaultdict(list)
    for path, text in files:
        parts = path.split("/")
        if parts[2] == "src" and path.endswith(".rt"):
            for one in contracts(text):
                found[one].append(path)
        elif parts[2] == "specs" and path.endswith(".antt"):
            for one in definitions(text):
                found[one].append(path)
    return found


def files_of(revision):
    """The files of the crates at a revision, or of the tree."""
    if revision is None:
        for path in sorted(ROOT.glob("crates/*/s*/**/*")):
            if path.suffix in (".rt", ".antt"):
                yield str(path.relative_to(ROOT)), path.read_text()
        return
    names = subprocess.run(["git", "ls-tree", "-r", "--name-only", revision, "crates"], cwd=ROOT, capture_output=True, text=True, check=True).stdout
    for path in names.splitlines():
        if path.endswith((".rt", ".antt")) and path.split("/")[2] in ("src", "specs"):
            yield path, subprocess.run(["git", "show", f"{revision}:{path}"], cwd=ROOT, capture_output=True, text=True, check=True).stdout


def main(words):
    if len(words) != 1:
        sys.exit(__doc__)
    old, new = said(files_of(words[0])), said(files_of(None))
    count = 0
    for mark, ours, others in (("-", old, new), ("+", new, old)):
        for one, places in ours.items():
            for place in places[len(others.get(one, [])) :]:
                count += 1
                print(f"{mark} {place}: {one}")
    print(f"{sum(map(len, old.values()))} before, {sum(map(len, new.values()))} now, {count} differ")
    return 1 if count else 0


if __name__ == "__main__":
    sys.exit(main(sys.argv[1:]))
