#!/usr/bin/env python3
"""Writes proofs/MAP.md of each crate whose proofs have a hub: which proof says what, and who takes it.

    tools/checks/maps.py [--check]

A folder of proofs is a room: what is kept in it stands at the top of its file of mod lines, what a proof says at the top of the proof. Of a crate
whose proofs keep one record row by row the map begins with its fields: the room where each is shown to go on, and the fields whose next row asks
for it. With --check nothing is written, and the status is 1 where a map would change.
"""
import re
import sys

import hubs
import imports

ROOT = imports.ROOT
# The record that is kept row by row, the definitions that make it of the next row, and the other crates that show how a field goes on.
KEPT = {"trace_laws": ("Whole", "Whole", ("asked", "calm", "standing_next", "steps", "heard_next", "next"), ("row_laws", "story_laws"))}
MANY = 8


def modules_of(text):
    """The modules that a text takes from, by their home."""
    short, found = {}, set()
    for line in text.split("\n"):
        match = re.match(r"(?:(?:pub |unfoldable pub |ghost )*)use (.+?);?$", line)
        if not match:
            continue
        first, dot, rest = match[1].partition(".")
        path = short.get(first, first) + dot + rest
        if ".{" in path:
            found |= {module for module, _, _ in hubs.leaves(path)}
        else:
            module, _, here = path.partition(" as ")
            short[here or module.rpartition(".")[2]] = module
            found.add(module)
    return {imports.homely(module + ".").rstrip(".") for module in found}


def says(text):
    """The first sentence of the comment at a file's top."""
    lines = []
    for line in text.split("\n"):
        if not line.startswith("--") or line.startswith("-- ----"):
            break
        lines.append(line[2:].strip())
    words = " ".join(lines)
    return re.split(r"(?<=[a-z0-9)`])\.(?= [A-Z])", words + " ")[0].strip().rstrip(".").replace("|", "\\|")


def block(text, name):
    """A definition's clauses."""
    found = re.search(rf"(?ms)^{name} .*?(?=^(?!{name} )\S)", text + "\nx")
    # (each `let` and each field of a record on one line)
    lets = re.sub(r"(?ms)^    let .*? in$", lambda let: "    " + " ".join(let[0].split()), found[0] if found else "")
    return re.sub(r"\n(?: {7,}| {6}(?=[)}\]]))", " ", lets)


def kept_fields(file, record, makers, crates, text, names_of_hub):
    """Each field of the record with its type, the module that has its next row, and the fields that this asks for."""
    fields = re.findall(r"(?m)^  pub (\w+) : (.*)$", re.search(rf"(?ms)^pub record {record} .*?(?=^\n|\n\n)", text)[0])
    head = hubs.Head(text, names_of_hub)
    home = {here: imports.homely(module + ".").rstrip(".") for here, (module, _) in head.items.items()}
    is_shown = re.compile(rf"Rattle\.(?:{'|'.join(crates)})\.proofs\.(?!Impossible\b|Common\b)")
    blocks = {name: block(text, name) for name in makers}
    # of each field what it asks for itself; of local names, also by those fields that are made on the way
    asks, where, local, way = {}, {}, {}, {}
    names = {name for name, _ in fields}

    def look(words):
        """The fields that these words ask for, and the first proof that they name, by way of local names."""
        asked, proof = set(re.findall(r"\bwas\.(\w+)", words)), None
        for name in re.findall(r"(?<![\w.'])[\w']+(?:\.\w+)?", words):
            more, place = local.get(name) or local.get(name.partition(".")[0]) or (set(), None)
            if name in home and is_shown.match(home[name]):
                place = home[name]
            asked, proof = asked | more, proof or place
        return asked, proof

    for name, lines in blocks.items():
        # what is made of the records on the way is known field by field, not as a whole
        for found in re.finditer(r"(?ms)let (\w+)(?: :.*?)? = (.*?) in$", lines):
            if found[1] != "g":
                local[found[1]] = look(found[2])
                if found[2].startswith("standing_next "):
                    way["stood"] = local[found[1]]
                    local[found[1]] = {"stood"}, way["stood"][1]
        if name not in ("steps", makers[-1]):
            local[name] = look(lines)
        for field, value in re.findall(r"(?ms)^      (\w+) = (.*?);$", lines):
            if name == makers[-1]:
                asked, proof = look(value)
                more, place = way.get(field, (set(), None))
                asks[field], where[field] = asked | more, proof or place
            elif field in names:
                way[field] = way.get(field) or look(value)
                local["g." + field] = {field}, way[field][1]
            else:
                local["g." + field] = look(value)
    for field, _ in fields:
        where[field] = where.get(field) or file
    return fields, where, asks


def listed(names):
    names = sorted(names)
    return ", ".join(f"`{name}`" for name in names) if len(names) <= MANY else f"{len(names)} of them"


def page(crate, texts, takers):
    """The map of a crate, from its proofs by their modules, and those that take from each module."""
    lines = [
        f"# The proofs of `{crate}`", "",
        "Written by `tools/checks/maps.py` from the files' heads. A name without a folder is a proof of the room, or of this crate; crates stand in brackets.", "",
    ]
    rooms = [name for name in texts if any(other.startswith(name + ".") for other in texts)]
    if crate in KEPT:
        file, record, makers, others = KEPT[crate]
        hub = (ROOT / "crates" / crate / "proofs" / hubs.FILE).read_text(encoding="utf-8")
        fields, where, asks = kept_fields(file, record, makers, (crate, *others), texts[file], hubs.handed(hub))
        lines += [
            "## What is kept", "",
            f"`{record}` (`{file}.antt`) has after any rows of a prompt trace each of these; a field goes on with the next row by the proof in the second",
            "column, and the next rows of those in the last one ask for it.", "",
            "| Field | Says | Proved in | Who asks for it |", "|---|---|---|---|",
        ]
        for field, kind in fields:
            who = [other for other, asked in asks.items() if field in asked and other != field]
            home, _, place = where[field].rpartition(".proofs.")
            other = home.rpartition(".")[2]
            beside = f" ({other})" if other not in ("", crate) else ""
            lines.append(f"| `{field}` | `{kind}` | `{place.replace('.', '/')}.antt`{beside} | {listed(who) or '-'} |")
        lines.append("")
    if rooms:
        lines += ["## Rooms", "", "| Room | Keeps | Taken from by the rooms |", "|---|---|---|"]
        for room in rooms:
            users = {other.split(".")[0] for name in texts if name.startswith(room + ".") for other in takers[name] if not other.startswith("(")}
            lines.append(f"| [{room}](#{room.lower()}) | {says(texts[room])} | {listed(users - {room})} |")
        lines.append("")
    for room in rooms + [None]:
        named = [name for name in texts if name not in rooms and (name.startswith(room + ".") if room else "." not in name)]
        if room:
            lines += [f"## {room}", ""]
        elif rooms:
            lines += ["## In no room", ""]
        lines += ["| Proof | Says | Taken by |", "|---|---|---|"]
        for name in named:
            own = {other.rpartition(".")[2] if room and other.startswith(room + ".") else other.replace(".", "/") for other in takers[name] if not other.startswith("(")}
            others = " ".join(sorted(other for other in takers[name] if other.startswith("(")))
            lines.append(f"| `{name.rpartition('.')[2]}` | {says(texts[name])} | {' '.join(part for part in (listed(own), others) if part) or '-'} |")
        lines.append("")
    return "\n".join(lines).rstrip("\n") + "\n"


def main(words):
    is_check = "--check" in words
    crates = [name for name in imports.GRAPH if hubs.is_hub(ROOT / "crates" / name / "proofs" / hubs.FILE)]
    takers = {name: {} for name in crates}
    taken = []
    for path in sorted(path for pattern in ("src/**/*.rt", "specs/**/*.antt", "proofs/**/*.antt") for path in ROOT.glob("crates/*/" + pattern)):
        parts = path.relative_to(ROOT / "crates").with_suffix("").parts
        for module in modules_of(path.read_text(encoding="utf-8")):
            found = re.match(r"Rattle\.(\w+)\.proofs\.(.+)$", module)
            if found and found[1] in takers:
                taken.append((found[1], found[2], parts))
    changed = 0
    for crate in crates:
        folder = ROOT / "crates" / crate / "proofs"
        texts = {}
        for path in sorted(folder.glob("**/*.antt")):
            name = ".".join(path.relative_to(folder).with_suffix("").parts)
            if name not in ("Lib", hubs.HUB) and not name.startswith("laws."):
                texts[name] = path.read_text(encoding="utf-8")
        users = {name: set() for name in texts}
        for other, name, parts in taken:
            if other == crate and name in users:
                law = parts[1:3] == ("proofs", "laws") or parts[1] == "src"
                user = f"({parts[0]})" if parts[0] != crate else "(laws)" if law else ".".join(parts[2:])
                if user not in (name, hubs.HUB):
                    users[name].add(user)
        new, to = page(crate, texts, users), folder / "MAP.md"
        if not to.is_file() or to.read_text(encoding="utf-8") != new:
            changed += 1
            print(to.relative_to(ROOT))
            if not is_check:
                to.write_text(new, encoding="utf-8")
    if is_check:
        print("the maps of the proofs are as the proofs are" if not changed else f"{changed} maps would change")
    return 1 if is_check and changed else 0


if __name__ == "__main__":
    sys.exit(main(sys.argv[1:]))
