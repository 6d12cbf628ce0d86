"""The hub of a crate's proofs, proofs/Names.antt: the names of other crates and of the crate's definitions that its proofs speak of.

A crate that has the file names each of these there once, by its home; a proof then begins with `use Rattle.CRATE.proofs` and takes names by
`use proofs.Names.{..}`, lemmas of the same crate by `use proofs.{MODULE.{..}}`. Imports by their home that stand in a proof are moved into the
hub; names that no proof takes leave it. What a maker of tools/ writes stays as it is, and so does a file that the hub would not make shorter.
A name that two modules have is the hub's where most files want it, and comes by its home in the others. Variants that a file takes by another
name for their module are written behind their type, `Phase.DataIn`.

tools/checks/imports.py calls this for each crate that has the file.
"""
import collections
import re

MOST = 120
HUB = "Names"
FILE = HUB + ".antt"
FIRST = "-- The names of other crates, and of this crate's definitions,"
TOP = FIRST + """ that its proofs speak of, each by its home. A proof takes
-- them by `use proofs.Names.{..}`; tools/checks/imports.py brings in those that a proof imports by their home.
"""
USE = re.compile(r"^(pub |unfoldable pub )?use (.+)$")
LIBRARY = re.compile(r"^(Rattle\.(?:\w+\.specs\.)?(\w+)\.(specs|proofs))(?:\.|$)(.*)$")
VARIANTS = re.compile(r"^(Rattle\..*\.(\w+))\.TheVariants$")


def is_hub(path):
    """Whether a file is the hub of its crate's proofs, if an empty one."""
    return path.is_file() and (path.read_text(encoding="utf-8") or FIRST).startswith(FIRST)


def parts(text):
    """What stands between the commas of a text, those within braces apart."""
    deep, last = 0, 0
    for at, mark in enumerate(text):
        deep += (mark == "{") - (mark == "}")
        if mark == "," and not deep:
            yield text[last:at].strip()
            last = at + 1
    if text[last:].strip():
        yield text[last:].strip()


def leaves(path):
    """The pairs of a module and a name, and the name here, of the path of an import with braces."""
    outer, brace, inner = path.partition(".{")
    if not brace:
        item, _, other = path.partition(" as ")
        module, _, name = item.rpartition(".")
        yield module, name, other or name
        return
    for part in parts(inner[:-1]):
        if ".{" in part:
            for module, name, here in leaves(part):
                yield outer + "." + module, name, here
        else:
            item, _, here = part.partition(" as ")
            # a name of operators may have dots of its own, a path has them between words
            under, _, name = item.rpartition(".") if re.fullmatch(r"(?:\w+\.)+[^.]+", item) else ("", "", item)
            yield outer + "." + under if under else outer, name, here or name


class Head:
    """What a file imports: items by (module, name) with their name here, modules by their path with their name here, other lines as they are."""

    def __init__(self, text, names):
        self.items, self.modules, self.kept = {}, [], []
        self.lines = text.split("\n")
        self.at = [number for number, line in enumerate(self.lines) if line.startswith("use ")]
        short = {}
        for number in self.at:
            path = self.lines[number][len("use ") :]
            first, dot, rest = path.partition(".")
            if first in short:
                path = short[first] + dot + rest
            if ".{" not in path:
                module, _, here = path.partition(" as ")
                if re.fullmatch(r"Rattle\.\w+\.proofs", module) and not here:
                    short["proofs"] = module
                else:
                    self.modules.append((module, here or module.rpartition(".")[2]))
                continue
            for module, name, here in leaves(path):
                if names is not None and module.endswith(".proofs." + HUB) and name in names:
                    module, name = names[name]
                self.items[here] = (module, name)

    def with_head(self, head):
        """The text with these lines in the place of its imports."""
        if not self.at:
            return "\n".join(self.lines)
        gone = set(self.at)
        # blanks between imports go with them
        first, last = self.at[0], self.at[-1]
        gone |= {number for number in range(first, last) if not self.lines[number].strip()}
        rest = [line for number, line in enumerate(self.lines) if number not in gone and number >= first]
        return "\n".join(self.lines[:first] + head + rest)


def filled(begin, words, end="}"):
    """Lines of at most 120 columns, each with the beginning and as many of the words as it can hold."""
    lines, line = [], ""
    for word in words:
        more = line + ", " + word if line else begin + word
        if line and len(more) + len(end) > MOST:
            lines.append(line + end)
            more = begin + word
        line = more
    return lines + [line + end] if line else lines


def grouped(begin, named):
    """Lines of at most 120 columns `begin.{FOLDER.{MODULE.{..}, ..}, ..}` of names by their modules."""
    lines, line, opened = [], "", []
    for module, word in named:
        path = module.split(".")
        same = 0
        while same < min(len(path), len(opened)) and path[same] == opened[same]:
            same += 1
        more = "}" * (len(opened) - same) + ", " + "".join(part + ".{" for part in path[same:]) + word
        if line and len(unbraced(line + more + "}" * (len(path) + 1))) <= MOST:
            line += more
        else:
            if line:
                lines.append(line + "}" * (len(opened) + 1))
            line = begin + ".{" + "".join(part + ".{" for part in path) + word
        opened = path
    if line:
        lines.append(line + "}" * (len(opened) + 1))
    return list(map(unbraced, lines))


def unbraced(line):
    """A line without the braces that hold one thing alone, which has braces itself."""
    within = r"[^{},]*(?:\{(?:[^{}]|\{(?:[^{}]|\{(?:[^{}]|\{[^{}]*\})*\})*\})*\})"
    changed = 1
    while changed:
        line, changed = re.subn(rf"\.\{{({within})\}}", r".\1", line, count=1)
    return line


def as_here(name, here):
    return name if name == here else f"{name} as {here}"


def declared(text):
    """Every name that a text declares, and each that stands for itself in it."""
    return set(re.findall(r"(?m)^\s*(?:pub |abbrev |unfoldable |record |data |pattern )*([\w◌<≡-]+) ?:", text)) | set(
        re.findall(r"(?m)^(?:pub )?(?:record|data|ruleset) (\S+)", text)
    )


def unfolded(text):
    """The names that a text unfolds."""
    words = []
    for found in re.finditer(r"(?m)^\s*unfolding (.*)$|\bunfold ([^()]*?) in\b", text):
        words += (found[1] or found[2]).split()
    return set(words)


def behind_types(head, text):
    """The text with variants behind their type in place of another name for their module, where the type's name is free."""
    own = declared(text)
    for pair in list(head.modules):
        module, here = pair
        found = VARIANTS.match(module)
        if not found or here == "TheVariants":
            continue
        kind = found[2]
        taken = head.items.get(kind, (found[1], kind)) != (found[1], kind) or any(other == kind for _, other in head.modules)
        body = "\n".join(line for line in text.split("\n") if not line.startswith("use "))
        if taken or kind in own or re.search(rf"λ \(?{here}\b|\({here} [^()]*:", body):
            continue
        head.modules.remove(pair)
        behind = re.compile(rf"(?<![\w.]){here}\.(?=[^\W\d])")
        if behind.search(body):
            head.items[kind] = (found[1], kind)
            head.lines = [line if line.startswith("use ") else behind.sub(kind + ".", line) for line in head.lines]
    return head


def handed(text):
    """What a hub hands on: of each name its module there and its name in that; of its short names of libraries, (None, name), the library."""
    names = {}
    for line in text.split("\n"):
        if line.startswith("use "):
            module, _, here = line[len("use ") :].partition(" as ")
            names[None, here] = module
        elif USE.match(line):
            path = USE.match(line)[2]
            first, dot, rest = path.partition(".")
            for module, name, here in leaves(names.get((None, first), first) + dot + rest):
                names[here] = (module, name)
    return names


def folded(crate, order, texts):
    """The files of a crate's proofs, by their path below proofs/, with their imports through the hub, and the hub itself."""
    home = f"Rattle.{crate}.proofs"
    names = handed(texts[FILE])
    heads, opened = {}, {}
    for path, text in texts.items():
        if path.endswith("Lib.antt") or path == FILE or re.search(r"tools/makers/|^--.*[Ww]ritten by tools", text):
            continue
        heads[path] = behind_types(Head(text, names), text)
        opened[path] = unfolded(text)

    def is_own(module):
        return module == home or module.startswith(home + ".")

    # what is unfolded comes from its own module
    bared = {heads[path].items[here] for path, words in opened.items() for here in words if here in heads[path].items}
    # where a name is most wanted
    wanted = collections.defaultdict(collections.Counter)
    for head in heads.values():
        for module, name in head.items.values():
            if not is_own(module) and LIBRARY.match(module):
                wanted[name][module] += 1
    place = {}
    for name, modules in wanted.items():
        place[name] = max(modules, key=lambda module: ((module, name) in bared, modules[module], module.startswith("Rattle.std.proofs.Common"), module))
    # the words of the kit's library are the same by whichever module
    same = {(module, name): (place[name], name) for name, modules in wanted.items() for module in modules
            if module.startswith("Rattle.std.") and place[name].startswith("Rattle.std.")}

    # names that files take by another name, where that one is free in the hub
    other = collections.defaultdict(set)
    for head in heads.values():
        for here, (module, name) in head.items.items():
            if not is_own(module) and LIBRARY.match(module) and place[name] != module and here != name:
                other[here].add((module, name))
    called = {next(iter(whats)): here for here, whats in other.items() if len(whats) == 1 and here not in place}

    def key(module):
        """The place of a module in the hub."""
        library, low, part, rest = LIBRARY.match(module).groups()
        return (order.index(low) if low in order else -1, library, rest)

    taken, unfoldable, result = set(), set(), {}
    for path, head in heads.items():
        ours, others, own = [], [], []
        for here, (module, name) in head.items.items():
            module, name = same.get((module, name), (module, name))
            if is_own(module):
                own.append((module[len(home) + 1 :], as_here(name, here)))
            elif place.get(name) == module:
                ours.append((key(module), module, name, name, here))
            elif (module, name) in called:
                ours.append((key(module), module, name, called[module, name], here))
            else:
                others.append((module, as_here(name, here)))
        own.sort(key=lambda pair: pair[0])
        ours.sort(key=lambda one: one[0])
        modules = [f"use {module}" + ("" if module.rpartition(".")[2] == here else f" as {here}") for module, here in head.modules]
        direct = grouped_by_module([(module, as_here(name, here)) for here, (module, name) in head.items.items()])
        by_home = grouped_by_module(others)
        lines = grouped("use proofs", [(HUB, as_here(there, here)) for _, _, _, there, here in ours] + own)
        lines = [f"use {home}"] * bool(lines) + lines + by_home
        if len(lines) >= len(direct):
            lines = direct
        else:
            for _, module, name, there, here in ours:
                taken.add((module, name, there))
                if here in opened[path]:
                    unfoldable.add((module, name, there))
        result[path] = head.with_head(lines + modules)
    result[FILE] = TOP + "\n".join(hub_lines(taken, unfoldable, key)) + "\n"
    return result


def grouped_by_module(named):
    """A line for each module, with its names."""
    found = collections.OrderedDict()
    for module, word in named:
        found.setdefault(module, []).append(word)
    return [line for module, words in found.items() for line in filled(f"use {module}.{{", words)]


def hub_lines(taken, unfoldable, key):
    """The lines of the hub: each library, with what is taken of it."""
    libraries = collections.OrderedDict()
    for one in sorted(taken, key=lambda one: (key(one[0]), one[1:])):
        libraries.setdefault(LIBRARY.match(one[0])[1], []).append(one)
    lines = []
    for library, named in libraries.items():
        low, part = LIBRARY.match(library).groups()[1:3]
        short = low if part == "specs" else low + "_proofs"
        lines.append(f"use {library} as {short}")
        for mark, is_open in (("pub", False), ("unfoldable pub", True)):
            lines += grouped(
                f"{mark} use {short}",
                [(LIBRARY.match(one[0])[4], as_here(one[1], one[2])) for one in named if (one in unfoldable) == is_open],
            )
    return lines
