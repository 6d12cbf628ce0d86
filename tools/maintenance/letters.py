#!/usr/bin/env python3
"""Gives the letters that have one meaning in the laws to nothing else: s, p, n, k and j.

    tools/maintenance/letters.py [--check] [FILE.antt | FOLDER]..

Without names: the specs and proofs of all crates of laws, but for what makers write (tools/checks/fresh.py) and for the files in which the prover
fixes names. A statement is a signature with its clauses and what is local to it, or a record with its fields. In each that binds one of these letters
at another type, the letter is renamed as a whole token: to one that stands nowhere in the statement and that fits the type. What follows a dot, and
what stands before `=` in braces (a field, an argument by name), stays.

Where a letter has two meanings in a statement, its signature, its clauses and what is local to them are taken one by one, as far as they are apart.
A statement stays as it is, and is said, in which this cannot be, the letter is the name of a field or may come by an `open`, or is implicit and named
by a caller, or for which no letter is left. With --check nothing is written, each binder that is to be renamed is listed, and the status is 1 if
there is one.
"""
import pathlib
import re
import sys
from collections import Counter

ROOT = pathlib.Path(__file__).resolve().parent.parent.parent
sys.path.insert(0, str(ROOT / "tools" / "checks"))
MEANT = {"s": "ScenarioValue", "p": "List Row", "n": "Connection", "k": "RunState", "j": "RunState"}
# Letters that nothing else takes.
HELD = set(MEANT) | {"q"}
# The letters of a type, the first that is free is taken; of other types see `letters_for`.
LETTERS = {
    "ℕ": "m i l w u v x y z",
    "Bool": "q r b c x y z",
    "Process": "c t x y z",
    "ProcId": "d i x y z",
    "Plan": "l a f x y z",
    "Phase": "f h x y z",
    "OpenedValue": "o v z x y",
    "Call": "c h x y z",
    "LineSet": "l b x y z",
    "Command": "c x y z",
    "Progress": "g x y z",
    "Pace": "a x y z",
    "Summary": "u m x y z",
    "Speech": "h x y z",
    "ScenarioValue": "s",
    "List Row": "p",
    "Connection": "n",
    "RunState": "k j",
}
OTHERS = "x y z w v u"
# Of what a statement supposes, a type of several words; and where no better one is left.
SUPPOSED = "e h f g z y x w v u"
REST = "a b c d e f g h i l m o r t u v w x y z"
BY_PROVER = {"Answers.antt", "Invariants.antt"}
WORDS = re.compile(r'"(?:\\.|[^"\\])*"|[(){},;]|[^\s(){},;"]+')
OPENING, CLOSING = {"(": ")", "{": "}", "[": "]"}, {")", "}", "]"}
BEFORE_NAMES = {"pub", "abbrev", "unfoldable"}
BY_NAME = re.compile(r"(?<![\w.'-])(?:(\w+) +)?\(?([\w.'-]+)((?: \{[^{}]*\})*) \{(\w+'?) = ")


class Word:
    """A word of a statement: its line, its column, and the indent of the line if it begins one."""

    __slots__ = ("text", "line", "column", "begins")

    def __init__(self, text, line, column, begins):
        self.text, self.line, self.column, self.begins = text, line, column, begins


# ---- reading


def is_comment(line):
    return line.lstrip().startswith("--")


def statements(lines):
    """The statements of a file, as ranges of lines; imports and modules are none."""
    found, name = [], None
    for number, line in enumerate(lines):
        if not line.strip() or is_comment(line):
            continue
        if line[0] == " " or line[0] in ")}]":
            if found:
                found[-1][1] = number + 1
            continue
        words = [word for word in line.split() if word not in BEFORE_NAMES]
        if words[0] in ("use", "mod"):
            name = None
            found.append([number, number])
        elif words[0] in ("record", "data"):
            name = None
            found.append([number, number + 1])
        elif name is not None and (words[0] == name and words[1:2] != [":"] or words[0] == "unfolding"):
            found[-1][1] = number + 1
        else:
            name = words[0]
            found.append([number, number + 1])
    # (what goes on below an import goes on with it)
    return [(start, end) for start, end in found if not re.match(r"(?:pub |unfoldable )*(?:use|mod) ", lines[start])]


def words_of(lines, start, end):
    """The words of a statement, without its comments."""
    found = []
    for number in range(start, end):
        if is_comment(lines[number]):
            continue
        is_first = True
        for match in WORDS.finditer(lines[number]):
            found.append(Word(match[0], number, match.start(), match.start() if is_first else None))
            is_first = False
    return found


def matches(words):
    """The place where each bracket closes."""
    stack, found = [], {}
    for at, word in enumerate(words):
        if word.text in OPENING:
            stack.append(at)
        elif word.text in CLOSING:
            if not stack or OPENING[words[stack[-1]].text] != word.text:
                raise ValueError("brackets in line %d" % (word.line + 1))
            found[stack.pop()] = at
    if stack:
        raise ValueError("brackets in line %d" % (words[stack[-1]].line + 1))
    return found


def type_of(words):
    """A type as its words, each without its modules."""
    text = " ".join(re.sub(r"^(?:\w+\.)+(?=[A-Z])", "", word.text) for word in words)
    return re.sub(r"\( | \)", lambda found: found[0].strip(), text)


def is_name(text):
    return re.fullmatch(r"[^\W\d][\w'-]*", text) is not None


def group_at(words, closes, at):
    """The names of a binder `(x y : T)` at a bracket and where its type begins, or none."""
    after = at + 1
    while after < closes[at] and is_name(words[after].text):
        after += 1
    if after == at + 1 or words[after].text != ":" or words[at + 1].text == "let":
        return None
    return words[at + 1 : after], after + 1


def bound_by(words, kind):
    """What a pattern of a type binds, as far as its types are plain: a name, `(Some x)`, `(x ∷ ..)`, `(suc x)`."""
    texts = [word.text for word in words]
    if kind is None:
        return []
    if len(words) == 1:
        return [(words[0], kind)] if is_name(texts[0]) and texts[0][0].islower() else []
    inner = kind.partition(" ")[2]
    inner = inner[1:-1] if re.fullmatch(r"\([^()]*\)", inner) else inner
    if texts[:2] == ["(", "Some"] and len(words) == 4 and kind.startswith("Option "):
        return bound_by(words[2:3], inner)
    if texts[:2] == ["(", "suc"] and len(words) == 4 and kind == "ℕ":
        return bound_by(words[2:3], kind)
    if texts[2:3] == ["∷"] and kind.startswith("List "):
        return bound_by(words[1:2], inner) + (bound_by(words[3:4], kind) if len(words) == 5 else [])
    return []


def parts(words):
    """The parts of a statement: what begins at a line that is not further in than it, as ranges of words."""
    depth, starts = 0, []
    column = None
    for at, word in enumerate(words):
        if word.begins is not None and depth == 0 and word.text not in CLOSING and word.text != "where":
            if column is None or word.begins <= column or words[at - 1].text == "where":
                starts.append(at)
                column = word.begins
        depth += (word.text in OPENING) - (word.text in CLOSING)
    return list(zip(starts, starts[1:] + [len(words)]))


class Part:
    """A statement, a signature or a clause in it: its words from one place to another, and what is local to it."""

    def __init__(self, words, start, end):
        self.words, self.start, self.end, self.inner = words, start, end, []
        while start < end and words[start].text in BEFORE_NAMES:
            start += 1
        self.name = words[start].text

    def has_own(self, letter):
        """Whether a letter stands in it outside of what is local, or is the name of something local."""
        end = self.inner[0].start if self.inner else self.end
        return any(word.text.split(".")[0] == letter for word in self.words[self.start : end]) or any(part.name == letter for part in self.inner)

    def scopes(self, letter, bound):
        """The parts in which a letter has one meaning and not its own; none if there is a part where that cannot be told."""
        own = [it for it in bound if any(it[0] is word for word in self.words[self.start : self.end])]
        if all(kind == MEANT[letter] for _, kind, _ in own):
            return []
        if is_one_meaning({kind for _, kind, _ in own}, MEANT[letter]):
            return [self]
        if self.has_own(letter) or not self.inner:
            return None
        found = [part.scopes(letter, own) for part in self.inner]
        return None if None in found else sum(found, [])


def tree_of(words):
    """A statement as the tree of its parts."""
    root = Part(words, 0, len(words))
    if words[0].text in ("record", "data") or words[1].text in ("record", "data"):
        return root
    path = []
    for start, end in parts(words):
        part = Part(words, start, end)
        while path and words[path[-1].start].begins >= words[start].begins:
            path.pop()
        (path[-1] if path else root).inner.append(part)
        for outer in path:
            outer.end = end
        path.append(part)
    return root


def is_one_meaning(kinds, meant):
    """Whether types are such that one letter fits all, and none the meant one: the same, one and its `Option`, or all of what is supposed."""
    kept = {kind for kind in kinds if not (kind.startswith("Option ") and kind.partition(" ")[2] in kinds)}
    return meant not in kinds and len({" ".join(letters_for(kind)) for kind in kept}) == 1


def arguments(words, closes, start, end):
    """The types of the explicit arguments of a signature, in their order."""
    found, at = [], start
    while at < end:
        close = at
        while close < end and words[close].text != "→":
            close = closes.get(close, close) + 1
        place, groups = at, []
        while place < close and words[place].text in ("(", "{") and group_at(words, closes, place):
            names, begin = group_at(words, closes, place)
            if words[place].text == "(":
                groups += [type_of(words[begin : closes[place]])] * len(names)
            place = closes[place] + 1
        # (the last is the result)
        if close < end:
            found += groups if place == close else [type_of(words[at:close])]
        at = close + 1
    return found


def binders(words, closes):
    """Each name that a statement binds at a type that it says: its word, the type, and how it is bound."""
    found = []
    for at, word in enumerate(words):
        if word.text in ("(", "{") and group_at(words, closes, at):
            names, begin = group_at(words, closes, at)
            kind = "implicit" if word.text == "{" else "explicit"
            found += [(name, type_of(words[begin : closes[at]]), kind) for name in names]
        if word.text == "let" and words[at + 2 : at + 3] and words[at + 2].text == ":":
            after = at + 3
            while words[after].text != "=":
                after = closes.get(after, after) + 1
            found.append((words[at + 1], type_of(words[at + 3 : after]), "explicit"))
    signed = {}
    is_declared = words[0].text in ("record", "data") or words[1].text in ("record", "data")
    for start, end in parts(words):
        while words[start].text in BEFORE_NAMES:
            start += 1
        if start + 1 >= end:
            continue
        name = words[start]
        if words[start + 1].text == ":":
            while words[end - 1].text == "where":
                end -= 1
            signed[name.text] = arguments(words, closes, start + 2, end)
            found.append((name, type_of(words[start + 2 : end]), "field" if is_declared else "explicit"))
        elif name.text in signed:
            at = start + 1
            types = iter(signed[name.text])
            while at < end and words[at].text != "=":
                if words[at].text != "{":
                    found += [(word, kind, "clause") for word, kind in bound_by(words[at : closes.get(at, at) + 1], next(types, None))]
                at = closes.get(at, at) + 1
    return found


def named_by_callers():
    """The implicit arguments that are given by name somewhere: the name of what takes it, and its own."""
    found = set()
    for path in (ROOT / "crates").rglob("*.antt"):
        if "out" in path.relative_to(ROOT).parts:
            continue
        text = path.read_text(encoding="utf-8")
        for match in BY_NAME.finditer(text):
            if match[1] == "record" or match[2] == "record":
                continue
            found.add((match[2].split(".")[-1], match[4]))
            found.update((match[2].split(".")[-1], letter) for letter in re.findall(r"\{(\w+'?) = ", match[3]))
    return found


# ---- renaming


def letters_for(kind):
    """The letters for a type, the best first."""
    head = kind.split()[0].strip("(")
    initial = head[0].lower() if head[0].isalpha() and len(head) > 1 else "x"
    if kind in LETTERS:
        found = LETTERS[kind]
    elif "→" in kind:
        found = "f g h " + OTHERS
    elif head == "List":
        found = "xs ys zs"
    elif " " in kind and head not in ("Option", "Result"):
        found = SUPPOSED
    else:
        found = ("o " if head == "Option" else initial + " ") + OTHERS
    return [letter for letter in (found + " " + REST).split() if letter not in HELD or kind in LETTERS]


def is_field(words, at):
    """Whether a word is the name of a field or of an argument that is given."""
    return words[at - 1].text in ("{", ";") and at + 1 < len(words) and words[at + 1].text == "=" if at else False


def pieces_of(word):
    return set(re.split(r"\.", word.text))


def renamed(lines, words, old, new):
    """The lines of a statement with a letter renamed."""
    found = list(lines)
    places = [word for at, word in enumerate(words) if word.text.split(".")[0] == old and not is_field(words, at)]
    for word in sorted(places, key=lambda it: (it.line, it.column), reverse=True):
        line = found[word.line]
        found[word.line] = line[: word.column] + new + line[word.column + len(old) :]
    return found


def with_comments(lines, start, end, old, new):
    """The same for its comments and those right above it."""
    while start and is_comment(lines[start - 1]):
        start -= 1
    for number in range(start, end):
        if is_comment(lines[number]):
            lines[number] = re.sub(r"(?<![\w'.-])%s(?![\w'-])" % re.escape(old), new, lines[number])


class File:
    """A file, what is to be renamed in it, and what stays."""

    def __init__(self, path, named):
        self.path, self.named = path, named
        self.lines = path.read_text(encoding="utf-8").split("\n")
        self.counts, self.found, self.left = Counter(), [], []
        for start, end in statements(self.lines):
            self.statement(start, end)

    def statement(self, start, end):
        words = words_of(self.lines, start, end)
        closes = matches(words)
        meanings = {}
        for word, kind, how in binders(words, closes):
            if word.text in MEANT:
                meanings.setdefault(word.text, []).append((word, kind, how))
                if how != "clause":
                    self.counts[word.text, kind == MEANT[word.text]] += 1
        for old, bound in meanings.items():
            if all(kind == MEANT[old] for _, kind, _ in bound):
                continue
            place = self.path.relative_to(ROOT) if ROOT in self.path.parents else self.path
            why = self.rename(start, end, words, old, bound, place)
            if why:
                self.left.append("%s:%d: %s stays: %s" % (place, bound[0][0].line + 1, old, why))

    def rename(self, start, end, words, old, bound, place):
        """Renames a letter; says why if it does not."""
        kinds = sorted({kind for _, kind, _ in bound})
        # (an earlier letter of this statement may stand there by now)
        taken = set().union(*(pieces_of(word) for word in words_of(self.lines, start, end)))
        if any(how == "field" for _, _, how in bound):
            return "it is a field"
        if "open" in taken:
            return "there is an `open`"
        if any(how == "implicit" for _, _, how in bound) and any((text, old) in self.named for text in taken):
            return "it is an argument by name"
        scopes = tree_of(words).scopes(old, bound)
        if scopes is None:
            return "it is %s" % ", ".join(kinds)
        chosen, changes = {}, []
        for part in scopes:
            own = [it for it in bound if any(it[0] is word for word in words[part.start : part.end])]
            kinds = {kind for _, kind, _ in own}
            kind = next(kind for _, kind, _ in own if not (kind.startswith("Option ") and kind.partition(" ")[2] in kinds))
            if kind not in chosen:
                chosen[kind] = next((letter for letter in letters_for(kind) if letter not in taken), None)
                if not chosen[kind]:
                    return "no letter is left for %s" % kind
                taken.add(chosen[kind])
            changes.append((part, own, chosen[kind]))
        for part, own, new in changes:
            for word, kind, how in own:
                if how != "clause":
                    self.found.append("%s:%d: %s : %s, %s" % (place, word.line + 1, old, kind, new))
            first, last = words[part.start].line, words[part.end - 1].line + 1
            self.lines = renamed(self.lines, words_of(self.lines, first, last), old, new)
            with_comments(self.lines, first, last, old, new)
        return None


def files_of(names):
    """The files to look at."""
    import fresh

    folders = [pathlib.Path(name).resolve() for name in names] or sorted((ROOT / "crates").glob("*_laws"))
    paths = [path for folder in folders for path in (sorted(folder.rglob("*.antt")) if folder.is_dir() else [folder])]
    made = {ROOT / name for name in fresh.MADE}
    return [path for path in paths if path not in made and path.name not in BY_PROVER and "out" not in path.parts]


def main(words):
    named, counts, found, left, changed = named_by_callers(), Counter(), [], [], 0
    for path in files_of([word for word in words if not word.startswith("--")]):
        try:
            file = File(path, named)
        except (ValueError, IndexError) as error:
            left.append("%s: %s, left as it was" % (path, error))
            continue
        counts += file.counts
        found += file.found
        left += file.left
        if file.found and "--check" not in words:
            path.write_text("\n".join(file.lines), encoding="utf-8")
            changed += 1
    if "--check" in words:
        totals = {letter: counts[letter, True] + counts[letter, False] for letter in MEANT}
        said = ["%s is %s in %d of %d binders" % (letter, kind, counts[letter, True], totals[letter]) for letter, kind in MEANT.items()]
        print("\n".join(found + left + said))
        return 1 if found else 0
    print("\n".join(left + ["%d binders renamed in %d files, %d statements left" % (len(found), changed, len(left))]))
    return 0


if __name__ == "__main__":
    sys.exit(main(sys.argv[1:]))
