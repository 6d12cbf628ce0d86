#!/usr/bin/env python3
"""Lists what says the same twice: declarations of specs and proofs that are equal but for names, the order of their equations and what
they are imported as; lemmas of one statement, whatever their proofs; and functions of one body.

    tools/maintenance/twins.py [LINES]

A row is a group, with the lines of its longest member; groups whose second member has fewer than LINES lines (6) are left out. Equal is
what its imports make equal: a name that two files import from two places is two names. Generated cases are left out. What is wanted
twice stands in docs/DECISIONS.md.
"""
import collections
import glob
import re
import sys

GENERATED = re.compile(r"(Cases|Stories|Rights|Answers|Invariants|Measures)\.antt$")
TOKEN = re.compile(r"[A-Za-z_][\w'\-]*(?:\.[\w'\-]+)*|\S")
HEAD = re.compile(r"(?:abbrev |unfoldable )?(?:pub )?(?:abbrev )?([\w'\-]+) :(.*)$")
IMPORT = re.compile(r"(?:ghost |pub )?use ([\w.\-]+)(?:\.\{([^}]*)\}| as (\w+))?;?\s*$")
KEPT = {"zero", "suc", "true", "false", "refl", "tt", "cc", "inl", "inr", "let", "in", "if", "then", "else", "where", "record"}


def declarations(text):
    """The name, line and lines of each declaration."""
    found, now = [], None
    for number, line in enumerate(text.split("\n"), 1):
        if not line.strip() or line.startswith("--"):
            continue
        head = None if line[0] == " " else HEAD.match(line)
        if head and not line.startswith("use "):
            now = (head.group(1), number, ["%s :%s" % head.groups()])
            found.append(now)
        elif now and (line[0] == " " or line.split()[0] in (now[0], "unfolding", "}")):
            now[2].append(line)
        else:
            now = None
    return found


def place(full):
    """Where a name really stands: a type of the code by its crate alone, and what std hands on by its own name."""
    if full.startswith(("Rattle.std", "mathlib", "lib.", "native")):
        return full.split(".")[-1]
    declared = re.match(r"Rattle\.(\w+)\.specs\.declared\.(.*)$", full)
    if not declared:
        return full
    parts = [part for part in declared.group(2).split(".") if part != "TheVariants"]
    return declared.group(1) + "." + ".".join(parts[-2:] if "TheVariants." in full else parts[-1:])


def imports(path, text):
    names = {}
    for line in text.split("\n"):
        use = IMPORT.match(line)
        if not use:
            continue
        module, items, alias = use.groups()
        for item in (items or "").split(","):
            if item.strip():
                first, _, other = item.strip().partition(" as ")
                names[other or first] = place(module + "." + first)
        if items is None:
            names[alias or module.split(".")[-1]] = place(module)
    own = "Rattle." + path[len("crates/"):-len(".antt")].replace("/", ".")
    for kept in re.finditer(r"(?m)^(?:pub )?(?:record|data) ([\w'\-]+)|" + r"^(?:abbrev |unfoldable )?(?:pub )?(?:abbrev )?([\w'\-]+) :", text):
        name = kept.group(1) or kept.group(2)
        names.setdefault(name, own + "." + name)
    return names


def bound(text, name):
    found = set(re.findall(r"\blet ([a-z][\w'\-]*)", text))
    for group in re.finditer(r"[({λ]\s*([a-z][\w' \-]*?)\s*(?::|\.)", text):
        found.update(group.group(1).split())
    for line in text.split("\n"):
        left = re.match(r"\s*([\w'\-]+) (.*?) = ", line + " ")
        if left and " : " not in line:
            found.update(token for token in TOKEN.findall(left.group(2)) if re.match(r"[a-z][\w'\-]*$", token))
    return found - KEPT - {name}


def plain(text, name, names):
    """The text with its own names numbered, and those from elsewhere by where they stand."""
    own, numbers, out = bound(text, name), {}, []
    for token in TOKEN.findall(text):
        head, _, rest = token.partition(".")
        if token == name:
            out.append("@")
        elif head in own:
            out.append("v%d.%s" % (numbers.setdefault(head, len(numbers)), rest))
        elif token in names:
            out.append(names[token])
        elif head in names:
            out.append(names[head] + "." + rest)
        else:
            out.append(token)
    return " ".join(out)


def of_proofs(groups):
    for path in sorted(glob.glob("crates/*/specs/**/*.antt", recursive=True) + glob.glob("crates/*/proofs/**/*.antt", recursive=True)):
        if GENERATED.search(path):
            continue
        text = open(path).read()
        names = imports(path, text)
        for name, line, lines in declarations(text):
            parts, now = [], None
            for each in lines:
                if now is None or each.split()[0] == name and each[0] != " ":
                    now = [each]
                    parts.append(now)
                else:
                    now.append(each)
            entry = ("%s:%d %s" % (path[len("crates/"):], line, name), len(lines))
            statement = plain("\n".join(parts[0]), name, names)
            body = sorted(plain("\n".join(part), name, names) for part in parts[1:])
            groups["declaration", statement, tuple(body)].append(entry)
            if statement.startswith("@ : (") or statement.startswith("@ : {"):
                groups["statement", statement].append(entry)


def of_code(groups):
    start = re.compile(r"^(\s*)(?:pub(?:\(\w+\))? )?(?:const )?fn (\w+)")
    for path in sorted(glob.glob("crates/*/src/**/*.rt", recursive=True)):
        lines = open(path).read().split("\n")
        for number, line in enumerate(lines):
            head = start.match(line)
            if not head:
                continue
            indent, name = head.groups()
            end = next((at for at in range(number, len(lines)) if lines[at] == indent + "}"), number)
            text = re.sub(r"//.*", "", "\n".join(lines[number:end + 1]))
            if text.count("\n") < 3 or "\n" + indent + "{\n" not in text:
                continue
            signature, body = text.split("\n" + indent + "{\n", 1)
            own = set(re.findall(r"[(,]\s*(?:mut )?(\w+)\s*:", signature)) | set(re.findall(r"\b(?:let(?: mut)?|for) (\w+)", body))
            own |= set(re.findall(r"[(|](\w+)[)|]", body)) - {"None"}
            numbers, out = {}, []
            for token in re.findall(r"[A-Za-z_]\w*|\S", body):
                out.append("@" if token == name else "v%d" % numbers.setdefault(token, len(numbers)) if token in own else token)
            result = signature.split("\n")[0].rpartition("->")[2]
            groups["function", result.strip(), " ".join(out)].append(("%s:%d %s" % (path[len("crates/"):], number + 1, name), end + 1 - number))


def main():
    least = int(sys.argv[1]) if len(sys.argv) > 1 else 6
    groups = collections.defaultdict(list)
    of_proofs(groups)
    of_code(groups)
    told, rows = set(), []
    for key, members in groups.items():
        if len(members) > 1 and sorted(lines for _, lines in members)[-2] >= least:
            row = " ~ ".join(member for member, _ in members)
            if row not in told:
                told.add(row)
                rows.append((max(lines for _, lines in members), key[0], row))
    for lines, kind, row in sorted(rows, key=lambda each: -each[0]):
        print("%4d %-12s %s" % (lines, kind, row))
    print("%d groups" % len(rows))


main()
