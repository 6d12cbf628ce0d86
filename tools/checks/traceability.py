#!/usr/bin/env python3
"""Writes docs/traceability.md: of each rule and each reaction its clause, definition, function, cases and edits.

    tools/checks/traceability.py           writes the page
    tools/checks/traceability.py --check   ends with status 1 where the page is stale, a rule has no clause, definition, function or
                                    case, or a reaction no definition
"""
import pathlib
import re
import sys

ROOT = pathlib.Path(__file__).resolve().parent.parent.parent
PAGE = ROOT / "docs" / "traceability.md"
RULES = range(1, 29)
# The crates in which reactions are defined, and the file of each heading of docs/behaviour.md in them.
REACTING = ["reaction_model", "dialogue_model", "due_model"]
# The crates in which reactions are code, one function of the same name for each.
CODED = ["connect", "handshake"]

HEAD = """# Traceability

Written by `tools/checks/traceability.py`. Of each rule of [rules.md](rules.md): its clause in ANSI X3.131-1994, the definition, the function
that judges it, how many traces in `tools/rule_cases.txt` break it, and the edits of its function that the check refuses. Of each
reaction of [behaviour.md](behaviour.md): its clause, its definitions, the functions of the same name, and the edits of both that the
check refuses.

## Rules

| Rule | Clause | Definition | Function | Cases | Edits |
|---|---|---|---|---|---|
"""

REACTIONS = """
## Reactions

| Reaction | Clause | Definitions | Functions | Edits |
|---|---|---|---|---|
"""


def text(path):
    return path.read_text()


def clauses():
    """The clause of each rule, as docs/rules.md has it."""
    rows = re.findall(r"^\| (\d+) \| .* \| ([^|]*) \|$", text(ROOT / "docs" / "rules.md"), re.MULTILINE)
    return {int(number): clause for number, clause in rows}


def named(folder, pattern, suffix):
    """Of each rule the file and the first name that this pattern gives after its comment, with the lines from the rule before."""
    found = {}
    for path in sorted((ROOT / "crates" / "bus_rules" / folder).glob("*" + suffix)):
        lines = text(path).splitlines()
        first = 0
        for at, line in enumerate(lines):
            rule = re.search(r"(?:--|//+) Rule (\d+)[.:]", line)
            if not rule:
                continue
            name = next((m.group(1) for m in (re.match(pattern, later) for later in lines[at + 1:]) if m), None)
            end = "}" if suffix == ".rt" else ""
            last = next((k for k in range(at + 1, len(lines)) if lines[k] == end), len(lines))
            found[int(rule.group(1))] = (path, name, first, last)
            first = last + 1
    return found


def edits(crate):
    """The edits of a crate: name, file, and the texts that they replace."""
    for path in sorted((ROOT / "crates" / crate / "must-fail").glob("*.edit")):
        lines = text(path).splitlines()
        file = next(line[6:] for line in lines if line.startswith("file: "))
        yield path.stem, ROOT / "crates" / crate / file, [line[5:] for line in lines if line.startswith("old: ")]


def lines_of(path, old):
    """The line in which an edit's text stands."""
    for number, line in enumerate(text(path).splitlines()):
        if old in line:
            return number
    return -1


def edits_within(crate, path, first, last):
    return [name for name, file, olds in edits(crate) if file == path and any(first <= lines_of(file, old) <= last for old in olds)]


def tests():
    """The definition that tests each rule, and the file in which it stands."""
    folder = ROOT / "crates" / "bus_rules" / "specs"
    found = {}
    for number, name in re.findall(r"n == (\d+) then (\w+) s", text(folder / "Rules.antt").split("stands_in_reset")[0]):
        file = next((path for path in sorted(folder.glob("*.antt")) if re.search(r"abbrev pub %s :" % name, text(path))), None)
        found[int(number)] = (name, file)
    return found


def rule_rows(problems):
    definitions = tests()
    functions = named("src", r"(?:pub )?fn (\w+)\(", ".rt")
    cases = re.findall(r"broken \d+ (\d+)", text(ROOT / "tools" / "rule_cases.txt"))
    known = clauses()
    for rule in RULES:
        definition, file = definitions.get(rule, (None, None))
        function = functions.get(rule)
        count = cases.count(str(rule))
        stated = file and re.search(r"-- Rule %d\." % rule, text(file))
        for what, there in (("clause", rule in known), ("definition", stated), ("function", function), ("case", count)):
            if not there:
                problems.append("rule %d has no %s" % (rule, what))
        refused = edits_within("bus_rules", *((function[0],) + function[2:])) if function else []
        yield "| %d | %s | `%s` (`%s`) | `%s` (`%s`) | %d | %s |" % (
            rule,
            known.get(rule, ""),
            definition,
            file and file.stem,
            function and function[1],
            function and function[0].name,
            count,
            ", ".join("`%s`" % name for name in refused),
        )


def places():
    """Where each definition of the reactions stands: the crate, the file, and its lines."""
    found = {}
    for crate in REACTING:
        for path in sorted((ROOT / "crates" / crate / "specs").glob("*.antt")):
            lines = text(path).splitlines()
            for at, line in enumerate(lines):
                name = re.match(r"abbrev pub (\w+) :", line)
                if name:
                    last = next((k for k in range(at + 1, len(lines)) if not lines[k]), len(lines))
                    found.setdefault(name.group(1), (crate, path, at, last))
    return found


def code():
    """Where each function of the reactions stands: the crate, the file, its lines, and the names that it calls."""
    found = {}
    for crate in CODED:
        for path in sorted((ROOT / "crates" / crate / "src").glob("*.rt")):
            lines = text(path).splitlines()
            for at, line in enumerate(lines):
                name = re.match(r"(?:pub )?fn (\w+)\(", line)
                if name:
                    last = next((k for k in range(at + 1, len(lines)) if lines[k] == "}"), len(lines))
                    calls = re.findall(r"(\w+)\(", "\n".join(lines[at + 1:last]))
                    found.setdefault(name.group(1), (crate, path, at, last, calls))
    return found


def with_helpers(name, functions, named):
    """This function, and those that it calls which are no reactions of their own."""
    reached, left = [], [name]
    while left:
        one = left.pop()
        if one in functions and one not in reached and (one == name or one not in named):
            reached.append(one)
            left.extend(functions[one][4])
    return reached


def reaction_rows(problems):
    where = places()
    functions = code()
    named = set(re.findall(r"`(\w+)`", text(ROOT / "docs" / "behaviour.md")))
    heading = ""
    for line in text(ROOT / "docs" / "behaviour.md").splitlines():
        if line.startswith("## "):
            clause = re.search(r"; ([\d. to,and]+)\)", line)
            heading = clause.group(1) if clause else ""
        reaction = re.match(r"\*([^*]+)\* (?:\*[^*]+\* )?\(((?:`\w+`(?:, )?)+)", line)
        if not reaction:
            continue
        names = re.findall(r"`(\w+)`", reaction.group(2))
        missing = [name for name in names if name not in where and not re.match(r"[A-Z]", name)]
        problems.extend("%s: there is no definition %s" % (reaction.group(1), name) for name in missing)
        there = [where[name] for name in names if name in where]
        if not there:
            continue
        coded = [name for name in names if name in where and name in functions]
        parts = [functions[part][:4] for name in coded for part in with_helpers(name, functions, named)]
        refused = sorted({edit for crate, path, first, last in there + parts for edit in edits_within(crate, path, first, last)})
        yield "| %s | %s | %s | %s | %s |" % (
            reaction.group(1),
            heading,
            ", ".join("`%s` (`%s/%s`)" % (name, where[name][0], where[name][1].stem) for name in names if name in where),
            ", ".join("`%s` (`%s/src/%s`)" % (name, functions[name][0], functions[name][1].name) for name in coded),
            ", ".join("`%s`" % edit for edit in refused),
        )


def main():
    problems = []
    page = HEAD + "\n".join(rule_rows(problems)) + "\n" + REACTIONS + "\n".join(reaction_rows(problems)) + "\n"
    if sys.argv[1:] == ["--check"]:
        if not PAGE.exists() or text(PAGE) != page:
            problems.append("docs/traceability.md is stale")
    else:
        PAGE.write_text(page)
    print("\n".join(problems) if problems else "every rule has a clause, a definition, a function and a case")
    sys.exit(1 if problems else 0)


main()
