#!/usr/bin/env python3
"""Finds sentences of pages and definitions that speak of what is done as to be done, and what no page names.

    tools/checks/stale.py

Words as `so far` and `not yet` stand in pages and in the comments of definitions only in the phrases of WANTED. Each file of tools/ and benches/
stands in one line of docs/tools.md, each crate of crates.txt in one line of docs/crates.md, each generated file that tools/checks/fresh.py compares in
CONTRIBUTING.md, each example in examples/README.md, and each page of docs/ in README.md; the README has at most 200 lines. Ends with status 1 where
one of these is not so.
"""
import pathlib
import re
import sys

ROOT = pathlib.Path(__file__).resolve().parent.parent.parent
STALE = re.compile(r"\b(so far|will say|not yet|no contract yet|to be written|for now|at present|TODO|coming soon)\b", re.I)
# What such words say rightly: of a moment in a trace, a text or a call, and of what ./prove keeps.
WANTED = (
    "rows so far", "made so far", "items so far", "bytes of COMMAND so far", "calls so far", "not yet handed out", "messages so far", "MESSAGE OUT phase so far",
    "connection so far", "carried so far", "said so far", "processes so far", "read so far", "scenario so far", "counts so far", "put so far",
    "void so far", "parts so far", "reach so far", "written so far", "account of a connection of this process so far", "message so far",
    "open or not yet sent", "again (b), or not yet",
)
PAGES = [ROOT / "README.md", ROOT / "CONTRIBUTING.md", *sorted((ROOT / "docs").glob("*.md")), *sorted((ROOT / "examples").glob("*.md"))]
MOST = 200


def stale_sentences():
    for path in PAGES + sorted(ROOT.glob("crates/*/specs/**/*.antt")):
        before = ""
        for number, line in enumerate(path.read_text().splitlines(), 1):
            _, mark, comment = line.partition("--") if path.suffix == ".antt" else ("", "", line)
            # A phrase may begin in the line before.
            whole = before + " " + comment.strip()
            wanted = [found.span() for phrase in WANTED for found in re.finditer(re.escape(phrase), whole)]
            for found in STALE.finditer(whole, max(0, len(before) - 8)):
                if found.end() > len(before) and not any(start <= found.start() and found.end() <= end for start, end in wanted):
                    yield "%s:%d: %s" % (path.relative_to(ROOT), number, comment.strip()[:100])
            before = comment.strip()


def rows_of(page, pattern):
    return re.findall(pattern, (ROOT / page).read_text(), re.M)


def compared(page, what, named, there):
    for name in sorted(set(named) ^ set(there)):
        yield "%s: %s %s is %s" % (page, what, name, "named and not there" if name in named else "there and not named")
    for name in sorted({name for name in named if named.count(name) > 1}):
        yield "%s: %s %s is named twice" % (page, what, name)


def unnamed():
    tools = [str(path.relative_to(ROOT)) for folder in ("tools", "benches") for path in (ROOT / folder).rglob("*") if path.is_file()]
    tools = [name for name in tools if name.endswith(".py") or "." not in pathlib.Path(name).name and "cases" not in name]
    yield from compared("docs/tools.md", "the file", rows_of("docs/tools.md", r"^\| `((?:tools|benches)/[\w./]+)` \|"), tools)
    crates = re.findall(r"^(\w+)(?: \w+)?:", (ROOT / "crates.txt").read_text(), re.M)
    yield from compared("docs/crates.md", "the crate", rows_of("docs/crates.md", r"^\| `(\w+)` \|"), crates)
    examples = {path.name.split(".")[0] for path in (ROOT / "examples").iterdir() if path.suffix not in (".md", "")}
    yield from compared("examples/README.md", "the example", rows_of("examples/README.md", r"^\| `(\w+)` \|"), examples)
    fresh = next((ROOT / "tools").rglob("fresh.py")).read_text()
    contributing = (ROOT / "CONTRIBUTING.md").read_text()
    for path in re.findall(r'^    "(crates/[\w/.]+)":', fresh, re.M):
        if path not in contributing and "`%s`" % pathlib.Path(path).name not in contributing:
            yield "CONTRIBUTING.md: the generated file %s is not named" % path
    readme = (ROOT / "README.md").read_text()
    for page in sorted((ROOT / "docs").glob("*.md")):
        if "docs/" + page.name not in readme:
            yield "README.md: the page docs/%s is not named" % page.name
    if len(readme.splitlines()) > MOST:
        yield "README.md has more than %d lines" % MOST


def main():
    wrong = [*stale_sentences(), *unnamed()]
    print("\n".join(wrong) if wrong else "no page speaks of what is done as to be done, and each tool, crate and page is named")
    sys.exit(1 if wrong else 0)


main()
