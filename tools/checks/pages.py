#!/usr/bin/env python3
"""Runs the commands of the pages for users, compares what they print with what the pages say, and follows every link of every page.

    tools/checks/pages.py [PROGRAM]

The commands are the lines after `$ ` of blocks ```console; what follows such a line, to the next one, is what it prints on standard output, where a line
`..` stands for any lines. They run in a folder of their own, page by page, with PROGRAM (./scsibus where none is named) as ./scsibus. A link leads
to a file or a folder here, and behind `#` to a heading. Ends with status 1 where something differs.
"""
import os
import pathlib
import re
import subprocess
import sys
import tempfile

ROOT = pathlib.Path(__file__).resolve().parent.parent.parent
PAGES = [ROOT / "README.md", ROOT / "CONTRIBUTING.md", ROOT / "CHANGELOG.md", *sorted((ROOT / "docs").glob("*.md")), *sorted((ROOT / "examples").glob("*.md"))]
BLOCK = re.compile(r"(?ms)^```console\n(.*?)^```$")
LINK = re.compile(r"!?\[[^\]\n]*\]\(([^)\s]+)\)")
SECONDS = 120


def slug(heading):
    """The name by which a link leads to a heading."""
    return re.sub(r"[^\w\- ]", "", heading.strip().lower().replace("`", "")).replace(" ", "-")


def lost_links(page):
    text = re.sub(r"(?ms)^```.*?^```$", "", page.read_text())
    for target in LINK.findall(text):
        path, _, anchor = target.partition("#")
        to = (page.parent / path).resolve() if path else page
        if target.startswith(("http://", "https://")):
            yield "the link %s leads away from the repository" % target
        elif not to.exists() or not to.is_relative_to(ROOT):
            yield "the link %s leads nowhere" % target
        elif anchor and anchor not in {slug(line.lstrip("#")) for line in to.read_text().splitlines() if line.startswith("#")}:
            yield "the link %s leads to no heading" % target


def commands(text):
    """Each command of a page with the lines that it is to print."""
    for block in BLOCK.findall(text):
        command, wanted = None, []
        for line in block.splitlines():
            if line.startswith("$ "):
                if command is not None:
                    yield command, wanted
                command, wanted = line[2:], []
            else:
                wanted.append(line)
        if command is not None:
            yield command, wanted


def fits(wanted, lines):
    """Whether the lines are the wanted ones, where `..` stands for any."""
    if ".." not in wanted:
        return wanted == lines
    at = wanted.index("..")
    if wanted[:at] != lines[:at]:
        return False
    return any(fits(wanted[at + 1 :], lines[start:]) for start in range(at, len(lines) + 1))


def run_page(page, program):
    """What is wrong with the commands of a page, and how many there are."""
    found, count = [], 0
    with tempfile.TemporaryDirectory(prefix="pages-") as room:
        for name in ("examples", "docs", "tools", "crates"):
            os.symlink(ROOT / name, pathlib.Path(room) / name)
        with open(pathlib.Path(room) / "scsibus", "w") as file:
            file.write('#!/bin/sh\nexec "%s" "$@"\n' % program)
        os.chmod(pathlib.Path(room) / "scsibus", 0o755)
        for command, wanted in commands(page.read_text()):
            count += 1
            try:
                ran = subprocess.run(["bash", "-c", command], cwd=room, stdin=subprocess.DEVNULL, capture_output=True, text=True, timeout=SECONDS)
            except subprocess.TimeoutExpired:
                found.append("`%s` did not end in %d seconds" % (command, SECONDS))
                continue
            if not fits(wanted, ran.stdout.splitlines()):
                found.append("`%s` prints\n%s%sand not\n%s" % (command, ran.stdout, ran.stderr, "".join(line + "\n" for line in wanted)))
    return found, count


def main():
    program = str(pathlib.Path(sys.argv[1] if len(sys.argv) > 1 else ROOT / "scsibus").resolve())
    wrong, all_commands = [], 0
    for page in PAGES:
        found, count = run_page(page, program)
        all_commands += count
        wrong += ["%s: %s" % (page.relative_to(ROOT), said) for said in [*lost_links(page), *found]]
    print("\n".join(wrong) if wrong else "%d commands of the pages print what the pages say, and every link leads somewhere" % all_commands)
    sys.exit(1 if wrong else 0)


main()
