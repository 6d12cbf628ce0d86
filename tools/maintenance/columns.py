#!/usr/bin/env python3
"""Breaks the lines of specs and proofs that are over 120 columns.

    tools/maintenance/columns.py [--check] [FILE.antt | FOLDER]..

Without names: all crates, but for the cases that makers write (tools/checks/fresh.py). A statement that has a wide line is laid out anew, as far
outside as can be: a signature at its arrows, a clause after `=`, at its operators and at its arguments, a record, a pair and an `elim` at their
parts; imports become several lines, comments are filled again. All other statements stay as they are. Then `rattle fmt` has the last word.

What is read stays: the tokens of a file are those of before, in their order, but for the marks that the layout itself puts (`;` and `,` before a
closing bracket, the first `|` of an `elim`), imports bring the same names, and each statement begins with the same token; a file of which this does
not hold is left as it was, and said. What an edit of `must-fail/` has as `old:` is not broken where it can be helped; an edit that no
longer finds its text is said. With --check nothing is written, and the status is 1 where a line is too wide.
"""
import functools
import pathlib
import re
import shutil
import subprocess
import sys
from concurrent.futures import ProcessPoolExecutor

sys.setrecursionlimit(100000)
ROOT = pathlib.Path(__file__).resolve().parent.parent.parent
sys.path.insert(0, str(ROOT / "tools" / "checks"))
KIT = pathlib.Path(shutil.which("rt")).resolve().parent.parent
MOST = 120
# How much further in the rest of a statement stands, and the parts of a record.
REST, PART = 4, 2
# What a line over the limit costs; a break inside the text of an edit.
OVER, KEPT_WHOLE = 10**7, 10**5
WORDS = re.compile(r'"(?:\\.|[^"\\])*"|[(){},;]|[^\s(){},;"]+')
USE = re.compile(r"((?:unfoldable )?(?:pub )?use )([^{}]*\.)\{(.*)\}$")
OPENING, CLOSING = {"(": ")", "{": "}", "[": "]"}, {")", "}", "]"}
# Operators, the loosest first.
CLASSES = [("→", "↔"), ("⊎",), ("×",), ("≡", "≢", "≤", "<", "≥", ">", ">>="), ("||",), ("&&",), ("==",), ("∙",), ("∷", "++"), ("+", "-"), ("*", "/", "%"), ("^",)]
CLASS = {word: rank for rank, words in enumerate(CLASSES) for word in words}
# Words before which no line begins.
HELD = {"=", ":", "|", "↦", "where", "in", "[", "]", "as", "←"}
NEVER = float("inf")


class Token:
    """A word of a text: whether a blank stands before it, whether it begins a line, and where it is."""

    __slots__ = ("word", "blank", "first", "line", "match", "kept", "parted")

    def __init__(self, word, blank, first, line):
        self.word, self.blank, self.first, self.line = word, blank, first, line
        self.match, self.kept, self.parted = None, False, None


# ---- reading


def words_of(lines, start, end, kept):
    """The tokens of some lines; a comment is one. `kept` has the columns of each line that are not to be parted."""
    tokens = []
    for number in range(start, end):
        text = lines[number]
        if text.lstrip().startswith("--"):
            tokens.append(Token(text.strip(), True, True, number))
            continue
        last = None
        for found in WORDS.finditer(text):
            token = Token(found[0], last is None or found.start() > last, last is None, number)
            token.kept = any(a < found.start() < b for a, b in kept.get(number, ()))
            tokens.append(token)
            last = found.end()
    stack = []
    for at, token in enumerate(tokens):
        if token.word in OPENING:
            stack.append(at)
        elif token.word in CLOSING:
            if not stack or OPENING[tokens[stack[-1]].word] != token.word:
                raise ValueError("brackets")
            tokens[stack.pop()].match = at
    if stack:
        raise ValueError("brackets")
    return tokens


def depth_after(text, depth):
    """How many brackets are open after a line."""
    if text.lstrip().startswith("--"):
        return depth
    for found in WORDS.finditer(text):
        depth += (found[0] in OPENING) - (found[0] in CLOSING)
    return depth


def pieces(lines):
    """The file as statements (first line, line after the last, column) and the lines between them, in their order."""
    blocks, depth, opens, at, found = [0], 0, False, 0, []
    while at < len(lines):
        text = lines[at]
        word = text.strip()
        indent = len(text) - len(text.lstrip())
        if not word or word.startswith("--") or word == "where":
            found.append((at, at + 1, None))
            opens = opens or word == "where"
            at += 1
            continue
        if opens and indent > blocks[-1]:
            blocks.append(indent)
        while blocks[-1] > indent:
            blocks.pop()
        if blocks[-1] != indent:
            raise ValueError("line %d stands at no block" % (at + 1))
        end, depth = at + 1, depth_after(text, 0)
        while end < len(lines):
            # (comments and blank lines belong to what follows them, if that goes on)
            after = end
            while depth == 0 and after < len(lines) and (not lines[after].strip() or lines[after].lstrip().startswith("--")):
                after += 1
            if after == len(lines):
                break
            more = lines[after]
            begun = lines[end - 1].split()[-1] in ("where", "do", "mutual")
            if depth == 0 and (begun or more.strip() == "where" or len(more) - len(more.lstrip()) <= indent):
                break
            depth = depth_after(more, depth)
            end = after + 1
        opens = lines[end - 1].split()[-1] in ("where", "do", "mutual")
        found.append((at, end, indent))
        at = end
    return found


# ---- where a line may begin


def is_parted(tokens, at):
    """Whether a bracket is laid out part by part where a line is broken in it: a record, a pair, an `elim`."""
    opening = tokens[at]
    if opening.parted is None:
        opening.parted = is_laid_out_by_parts(tokens, at)
    return opening.parted


def is_laid_out_by_parts(tokens, at):
    """The same, of what stands there."""
    opening = tokens[at]
    if opening.match == at + 1:
        return False
    if opening.word == "[":
        return True
    if opening.word == "{":
        before = at - 1
        if before >= 0 and tokens[before].word != "record" and opening.blank:
            # (`record r {`, `record (f x) {`)
            if tokens[before].word in CLOSING:
                opened = next(i for i in range(before, -1, -1) if tokens[i].match == before)
                return opened > 0 and tokens[opened - 1].word == "record"
            return before > 0 and tokens[before - 1].word == "record"
        return before >= 0 and (tokens[before].word == "record" or tokens[before].word == "use" or tokens[before].word.endswith("."))
    return any(tokens[i].word == "," for i in level(tokens, at + 1, opening.match))


def level(tokens, start, end):
    """The places of a range outside of its brackets, closing ones left out."""
    at = start
    while at < end:
        yield at
        at = tokens[at].match + 1 if tokens[at].match else at + 1


def parts(tokens, at):
    """The parts of a bracket, as ranges that end with their separator."""
    start, found = at + 1, []
    for i in level(tokens, at + 1, tokens[at].match):
        if tokens[i].word in (";", ","):
            found.append((start, i + 1))
            start = i + 1
        elif tokens[i].word == "|":
            if i > start:
                found.append((start, i))
            start = i
    if start < tokens[at].match:
        found.append((start, tokens[at].match))
    return found


def cost(depth):
    return 10 * 2.2 ** min(depth, 6) + 50 * max(depth - 6, 0)


class Breaks:
    """What it costs to begin a line before each token of a range, and which of these breaks follow `=`."""

    def __init__(self, tokens, start, end):
        self.tokens, self.costs, self.plain, self.after_is = tokens, {}, set(), set()
        # What it costs that no line begins with a token; how deep a bracket stands; the operators between which a token stands.
        self.joined, self.depths, self.owners, self.nexts = {}, {}, {}, {}
        self.statement(start, end)

    def put(self, at, value, start):
        token = self.tokens[at]
        is_held = token.word in HELD or token.word == "{" and is_parted(self.tokens, at)
        if at > start and token.blank and not is_held and at not in self.costs:
            self.costs[at] = value + (KEPT_WHOLE if token.kept else 0)

    def statement(self, start, end):
        """A signature, a clause, a field or a case."""
        tokens = self.tokens
        if start < end and tokens[start].word == "|":
            start += 1
        places = [i for i in level(tokens, start, end) if tokens[i].word in ("=", ":", "↦", "←", "let", "λ", "if")]
        at = places[0] if places else None
        if at is None or tokens[at].word in ("let", "λ", "if"):
            self.term(start, end, 0)
        elif tokens[at].word == ":":
            self.term(start, at, 1)
            self.put(at + 1, cost(0) + 4, start)
            self.after_is.add(at + 1)
            self.term(at + 1, end, 0, is_type=True)
        else:
            self.term(start, at, 3)
            self.put(at + 1, cost(0) - 1, start)
            self.after_is.add(at + 1)
            if at + 1 < end and tokens[at + 1].word == "if":
                self.joined[at + 1] = 12
            self.plain.update(self.term(at + 1, end, 0))

    def term(self, start, end, depth, is_type=False):
        """Gives the arguments of the outermost application."""
        tokens = self.tokens
        if start >= end:
            return []
        places = list(level(tokens, start, end))
        word = tokens[start].word
        if word in ("λ", "∀"):
            dot = next((i for i in places if tokens[i].word.endswith(".") and i > start), None)
            if dot is None:
                return []
            self.put(dot + 1, cost(depth) + 10, start)
            return self.term(dot + 1, end, depth)
        if word == "let":
            return self.binding(start, end, depth, places)
        if word in ("if", "unfold"):
            return self.choice(start, end, depth, places)
        # (a term that reaches to the end stands as one operand)
        last = next((i for i in places if tokens[i].word in ("λ", "let", "if", "∀", "unfold") and i > start), end)
        if last < end and tokens[last].word in ("λ", "∀") and last + 1 < end and tokens[last + 1].word == ".":
            last = end
        ranks = [CLASS[tokens[i].word] for i in places if i < last and tokens[i].word in CLASS]
        if ranks:
            rank = min(ranks)
            cuts = [i for i in places if i < last and CLASS.get(tokens[i].word) == rank]
            begin = start
            for cut, after in zip([start] + cuts, cuts + [end]):
                for i in range(cut + 1, after):
                    if cut > start:
                        self.owners.setdefault(i, []).append(cut)
                    if after < end:
                        self.nexts.setdefault(i, []).append(after)
            for cut in cuts:
                # (a conclusion stands well alone, a binder beside what is said of it)
                is_bound = is_type and cut > begin and tokens[begin].match == cut - 1
                self.put(cut, cost(depth) - (2 if is_type and cut == cuts[-1] else 0) + (4 if is_bound else 0), start)
                self.term(begin, cut, depth + 1)
                begin = cut + 1
            self.term(begin, end, depth + 1, is_type)
            return []
        for i in places:
            if i < last:
                self.depths[i] = depth
                self.put(i, cost(depth) + (0 if tokens[i].match else 3), start)
                if tokens[i].match and not is_parted(tokens, i):
                    self.term(i + 1, tokens[i].match, depth + 1)
        if last < end:
            self.put(last, cost(depth), start)
            self.term(last, end, depth + 1)
        return [i for i in places if i <= last]

    def binding(self, start, end, depth, places):
        """`let x : T = e in body`."""
        tokens, open_lets, close = self.tokens, 0, None
        for i in places:
            open_lets += tokens[i].word == "let"
            if tokens[i].word == "in":
                open_lets -= 1
                if not open_lets:
                    close = i
                    break
        if close is None:
            return []
        is_at = next((i for i in places if start < i < close and tokens[i].word == "="), None)
        if is_at:
            self.term(start + 1, is_at, depth + 3)
            self.put(is_at + 1, cost(depth + 1) + 8, start)
            self.term(is_at + 1, close, depth + 1)
        self.put(close + 1, cost(depth) - 4, start)
        if not depth:
            self.joined[start], self.joined[close + 1] = 30, 20
        self.term(close + 1, end, depth)
        return []

    def choice(self, start, end, depth, places):
        """`if c then a else b`, `unfold f in e`."""
        tokens, nested, marks, begin = self.tokens, 0, [], start + 1
        for i in places:
            word = tokens[i].word
            nested += word == "if"
            if tokens[start].word == "unfold" and word == "in":
                marks = [i]
                break
            if nested == 1 and word in ("then", "else"):
                marks.append(i)
            if word == "else":
                nested -= 1
                if not nested:
                    break
        for mark in marks:
            is_then = tokens[mark].word == "then"
            if tokens[mark].word == "in":
                self.put(mark + 1, cost(depth), start)
            else:
                self.put(mark, cost(depth + 1) - 3 if is_then else cost(depth) - 3, start)
            self.term(begin, mark, depth + 2)
            begin = mark + 1
            if tokens[mark].word == "else" and tokens[begin].word == "if":
                self.joined[mark] = 8
        if marks and tokens[marks[-1]].word == "else":
            for i in range(start + 1, end):
                (self.owners if i > marks[-1] else self.nexts).setdefault(i, []).append(marks[-1])
        if marks:
            # (a further `if` goes on with the same choice)
            deeper = 0 if tokens[begin].word == "if" else 1
            if tokens[marks[-1]].word == "else":
                self.put(begin, cost(depth + 1), start)
            self.term(begin, end, depth + deeper)
        return []


# ---- laying out


class Layout:
    """The lines of a statement."""

    def __init__(self, tokens, wide, anew):
        self.tokens, self.wide, self.anew = tokens, wide, anew
        self.known = {}
        # Which brackets stand part by part already.
        self.parted = {
            i for i, token in enumerate(tokens) if token.match and tokens[i + 1].first and is_parted(tokens, i) and i + 1 < token.match
        }

    def text(self, start, end):
        return "".join((" " if token.blank and i else "") + token.word for i, token in enumerate(self.tokens[start:end]))

    def is_wide(self, start, end):
        """Whether a line of this range, outside of what stands part by part in it, is too wide."""
        at = start
        while at < end:
            if self.tokens[at].line in self.wide:
                return True
            at = self.tokens[at].match if at in self.parted else at + 1
        return False

    def lines(self, start, end, indent, lead="", mark=""):
        """The cost of the best layout of a range, and its lines; `lead` stands before it, `mark` after."""
        key = (start, end, indent)
        if key not in self.known:
            value, lines = NEVER, []
            if self.stands(start) and not self.is_wide(start, end):
                value, lines = self.as_it_was(start, end, indent)
            # (what stood further to the left may be too wide here)
            if not lines or max(map(len, lines)) > MOST:
                value, lines = self.broken(start, end, indent, len(lead), len(mark))
            lines = [" " * indent + lead + lines[0][indent:]] + lines[1:]
            self.known[key] = value, lines[:-1] + [lines[-1] + mark]
        return self.known[key]

    def stands(self, start):
        """Whether this range begins a line of the text already."""
        return self.tokens[start].first

    def inner(self, at, indent):
        """The parts of a bracket, each on lines of its own."""
        total, found = 0, []
        ranges = parts(self.tokens, at)
        for number, (start, end) in enumerate(ranges):
            mark = {"(": ",", "{": ";", "[": ""}[self.tokens[at].word]
            lead = "| " if self.tokens[at].word == "[" and self.tokens[start].word != "|" else ""
            value, lines = self.lines(start, end, indent + PART, lead, "" if self.tokens[end - 1].word == mark else mark)
            total += value
            found += lines
        return total, found

    def as_it_was(self, start, end, indent):
        """A range with its own breaks."""
        found, at, here, total = [], start, indent, 0
        begin = start
        while at < end:
            if at > begin and self.tokens[at].first:
                found.append(" " * here + self.text(begin, at))
                begin, here = at, indent + REST
            if at in self.parted:
                found.append(" " * here + self.text(begin, at + 1))
                value, lines = self.inner(at, here)
                total, found = total + value, found + lines
                at = begin = self.tokens[at].match
            at += 1
        found.append(" " * here + self.text(begin, end))
        return total + 10 * (len(found) - 1), found

    def broken(self, start, end, indent, lead, mark):
        """The cheapest lines of a range; so many columns are to be left before and after it."""
        tokens = self.tokens
        breaks = Breaks(tokens, start, end)
        comments = {i for i in range(start, end) if tokens[i].word.startswith("--")}
        widths = [len(token.word) + token.blank for token in tokens]
        inside = {}
        for i in level_all(tokens, start, end):
            if tokens[i].match and is_parted(tokens, i):
                for j in range(i + 1, tokens[i].match):
                    inside.setdefault(j, i)

        memo = {}

        def best(at, here, after_is):
            """What is cheapest from a line that begins with this token: its cost, and how its line ends."""
            key = (at, here, after_is)
            if key not in memo:
                memo[key] = begun(at, here, after_is)
            return memo[key]

        def begun(at, here, after_is):
            width, answer, joins = here - tokens[at].blank, (NEVER, None), 0
            width += lead if at == start else 0
            nexts = set(breaks.nexts.get(at, ()))
            i = at
            while i < end:
                if i > at and i in comments:
                    more = best(i, indent + REST, after_is)
                    return min(answer, (more[0], ("line", i)), key=lambda it: it[0]) if at not in comments else (more[0], ("line", i))
                width += widths[i]
                joins += (breaks.joined.get(i, 0) if i > at else 0) + (12 if i in nexts else 0)
                over = OVER + 20 * (width - MOST) if width > MOST else 0
                if i in inside:
                    i += 1
                    continue
                if at in comments and i + 1 < end:
                    return (best(i + 1, indent + REST, after_is)[0], ("line", i + 1))
                if tokens[i].match and is_parted(tokens, i):
                    value, lines = self.inner(i, here)
                    close = tokens[i].match
                    more = best(close, here, after_is)
                    total = over + joins + value + cost(breaks.depths.get(i, 0)) / 2 + 5 * len(lines) + more[0]
                    total += 20 if tokens[i].word == "(" else 0
                    # (the formatter puts a pair that stands part by part behind what is before it)
                    total += OVER if i == at > start else 0
                    if i in self.parted:
                        return min(answer, (total, ("parts", i)), key=lambda it: it[0])
                    if total < answer[0]:
                        answer = total, ("parts", i)
                if i + 1 == end:
                    over += OVER if width <= MOST < width + mark else 0
                    if over + joins < answer[0]:
                        answer = over + joins, ("end", end)
                    break
                if i + 1 in breaks.costs and i + 1 not in inside:
                    price = breaks.costs[i + 1] + (6 if after_is and i + 1 in breaks.plain else 0)
                    more = best(i + 1, indent + REST, after_is or i + 1 in breaks.after_is)
                    # (a line that holds little is none, but for the head of a statement)
                    price += 12 * sum(at < owner for owner in breaks.owners.get(i + 1, ()))
                    price += 0 if i + 1 in breaks.after_is else 8 * (max(0, MOST - width) / MOST) ** 2
                    total = over + joins + price + more[0]
                    if total < answer[0]:
                        answer = total, ("line", i + 1)
                if width > MOST and answer[0] < OVER:
                    break
                i += 1
            return answer

        found, at, here, after_is = [], start, indent, False
        total = best(start, indent, False)[0]
        while True:
            kind, place = best(at, here, after_is)[1]
            if kind == "parts":
                found.append(" " * here + self.text(at, place + 1))
                found += self.inner(place, here)[1]
                at = tokens[place].match
                continue
            found.append(" " * here + self.text(at, place))
            if kind == "end":
                return total, found
            after_is = after_is or place in breaks.after_is
            at, here = place, indent + REST


def level_all(tokens, start, end):
    """The places of a range outside of what stands part by part."""
    at = start
    while at < end:
        yield at
        at = tokens[at].match + 1 if tokens[at].match and is_parted(tokens, at) else at + 1


# ---- comments and imports


def filled(block, indent):
    """Lines of a comment, filled again where one is too wide. A line that ends early, a list and a heading end a paragraph."""
    if all(len(line) <= MOST for line in block):
        return block
    paragraphs, before = [], ""
    for line in block:
        text = line.strip()[2:].strip()
        is_new = not paragraphs or not text or not before or len(before) < 80 or re.match(r"[-*] |\d+\. |----", text) or before.startswith("----") or line.strip()[2:4] == "  "
        if is_new:
            paragraphs.append([line.strip()[2:].rstrip()])
        else:
            paragraphs[-1].append(" " + text)
        before = line.strip() if text else ""
    found = []
    for paragraph in paragraphs:
        text = "".join(paragraph)
        margin = re.match(r" *(?:[-*] +|\d+\. +)?", text)[0]
        line = " " * indent + "--" + margin
        is_empty = True
        for word in text[len(margin):].split():
            if not is_empty and len(line) + 1 + len(word) > MOST:
                found.append(line.rstrip())
                line, is_empty = " " * indent + "--" + " " * len(margin), True
            line += word if is_empty else " " + word
            is_empty = False
        found.append(line.rstrip())
    return found


def items_of(text):
    """The items of an import's list, those with a list of their own whole."""
    depth, item, found = 0, "", []
    for mark in text:
        depth += (mark == "{") - (mark == "}")
        if mark == "," and not depth:
            found.append(item.strip())
            item = ""
        else:
            item += mark
    return found + [item.strip()] if item.strip() else found


def imports_of(line):
    """An import as lines that bring the same names."""
    use = USE.match(line)
    if len(line) <= MOST or not use:
        return [line]
    begin, found, held = use[1] + use[2], [], []
    for item in items_of(use[3]):
        if held and len(begin) + len(", ".join(held + [item])) + 2 > MOST:
            found.append(held)
            held = []
        held.append(item)
    return ["%s{%s}" % (begin, ", ".join(held)) for held in found + [held]]


# ---- a file


def with_wheres_apart(lines):
    """The lines, where each `where` at the end of a clause that has a wide line stands on a line of its own."""
    found, inner = [], None
    for start, end, indent in pieces(lines):
        block = lines[start:end]
        if indent is not None and inner is not None and indent <= inner:
            inner = None
        if inner is not None:
            block = ["  " + line if len(line) - len(line.lstrip()) > inner else line for line in block]
        elif indent is not None and block[-1].endswith(" where") and re.search(r" = | =$", " ".join(block)) and max(map(len, block)) > MOST:
            inner = indent
            block = block[:-1] + [block[-1][: -len(" where")], " " * (indent + 2) + "where"]
        found += block
    return found


def rewritten(text, olds):
    """A file's text with its wide lines broken."""
    lines = with_wheres_apart(text.split("\n"))
    kept = {}
    for old in olds:
        for number, line in enumerate(lines):
            at = line.find(old)
            if at >= 0:
                kept.setdefault(number, []).append((at, at + len(old)))
    found = []
    comment = []

    def put_comment():
        if comment:
            indent = len(comment[0]) - len(comment[0].lstrip())
            found.extend(filled(comment, indent))
            comment.clear()

    for start, end, indent in pieces(lines):
        if indent is None:
            line = lines[start]
            if line.lstrip().startswith("--"):
                if comment and len(comment[0]) - len(comment[0].lstrip()) != len(line) - len(line.lstrip()):
                    put_comment()
                comment.append(line)
                continue
            put_comment()
            found.append(line)
            continue
        put_comment()
        wide = {number for number in range(start, end) if len(lines[number]) > MOST}
        if not wide:
            found += lines[start:end]
        elif end == start + 1 and USE.match(lines[start]):
            found += imports_of(lines[start])
        else:
            tokens = words_of(lines, start, end, kept)
            found += Layout(tokens, wide, False).lines(0, len(tokens), indent)[1]
    put_comment()
    return "\n".join(found)


def tokens_of(text):
    """What a text says: its tokens, each import by its names, and where statements begin; without the marks that the layout puts."""
    lines = text.split("\n")
    found, blocks = [], [0]
    for start, end, indent in pieces(lines):
        if indent is None:
            if lines[start].strip() == "where":
                found.append((len(blocks), ("where",)))
            continue
        while blocks[-1] > indent:
            blocks.pop()
        if blocks[-1] < indent:
            blocks.append(indent)
        use = USE.match(lines[start]) if end == start + 1 else None
        if use:
            found += [("use", use[1], use[2], item) for item in items_of(use[3])]
            continue
        words = [token.word for token in words_of(lines, start, end, {}) if not token.word.startswith("--")]
        held = []
        for at, word in enumerate(words):
            after = words[at + 1] if at + 1 < len(words) else ""
            if word in (";", ",") and after in CLOSING or word == "|" and at and words[at - 1] == "[":
                continue
            held.append(word)
        is_open = held and held[-1] == "where"
        found.append((len(blocks), tuple(held[:-1] if is_open else held)))
        found += [(len(blocks), ("where",))] if is_open else []
    return found


def olds_of(path):
    """What the edits of a crate want to find in a file."""
    crate = ROOT / "crates" / path.relative_to(ROOT / "crates").parts[0]
    name = str(path.relative_to(crate))
    found = []
    for edit in sorted(crate.glob("must-fail/*.edit")):
        file = None
        for line in edit.read_text().splitlines():
            if line.startswith("file: "):
                file = line[6:].strip()
            elif line.startswith("old: ") and file == name:
                found.append((line[5:], edit))
    return found


def is_wide(line):
    """Whether a line is too wide, and neither one literal nor the import of one name."""
    return len(line) > MOST and not re.match(r'\s*"|use [^,]*$', line)


def work(name):
    """Rewrites a file; gives what is to be said of it."""
    path = pathlib.Path(name)
    text = path.read_text(encoding="utf-8")
    if all(len(line) <= MOST for line in text.split("\n")):
        return name, None, []
    try:
        olds = olds_of(path) if ROOT in path.parents else []
        new = rewritten(text, [old for old, _ in olds])
        if tokens_of(new) != tokens_of(text):
            return name, None, ["%s: other tokens, left as it was" % name]
    except (ValueError, RecursionError) as error:
        return name, None, ["%s: %s, left as it was" % (name, error)]
    return name, new, []


def files_of(names):
    """The files to look at."""
    if names:
        paths = [pathlib.Path(name).resolve() for name in names]
        return sorted(file for path in paths for file in (path.rglob("*.antt") if path.is_dir() else [path]) if "out" not in file.parts)
    import fresh

    return sorted(
        path for part in ("specs", "proofs") for path in (ROOT / "crates").glob("*/%s/**/*.antt" % part) if str(path.relative_to(ROOT)) not in fresh.MADE
    )


def compared(pair):
    """Puts a file back whose layout says something else than its text did; gives what is to be said of it."""
    name, before = pair
    path = pathlib.Path(name)
    text = path.read_text(encoding="utf-8")
    if tokens_of(text) != tokens_of(before):
        path.write_text(before, encoding="utf-8")
        return ["%s: other tokens once laid out, left as it was" % name]
    olds = olds_of(path) if ROOT in path.parents else []
    return ["%s no longer finds: %s" % (edit.relative_to(ROOT), old) for old, edit in olds if before.count(old) == 1 != text.count(old)]


def wide_lines(files):
    """Each line of these files that is too wide, with its place."""
    for path in files:
        for number, line in enumerate(path.read_text(encoding="utf-8").split("\n"), 1):
            if is_wide(line):
                yield "%s:%d: %d columns" % (path, number, len(line))


def main(words):
    files = files_of([word for word in words if not word.startswith("--")])
    if "--check" in words:
        wide = list(wide_lines(files))
        print("\n".join(wide))
        return 1 if wide else 0
    before, said = {}, []
    with ProcessPoolExecutor() as pool:
        for name, new, notes in pool.map(work, map(str, files), chunksize=8):
            said += notes
            path = pathlib.Path(name)
            if new is not None and new != path.read_text(encoding="utf-8"):
                before[name] = path.read_text(encoding="utf-8")
                path.write_text(new, encoding="utf-8")
        # The formatter reads each, and what it makes of them says the same.
        names = list(before)
        batches = [["rattle", "fmt", "--write", *names[at : at + 100]] for at in range(0, len(names), 100)]
        list(pool.map(functools.partial(subprocess.run, executable=KIT / "bin" / "rattle", check=False), batches))
        for notes in pool.map(compared, before.items(), chunksize=8):
            said += notes
    wide = list(wide_lines(files))
    print("\n".join(said + wide + ["%d files changed, %d lines over %d columns are left" % (len(before), len(wide), MOST)]))
    return 1 if said or wide else 0


if __name__ == "__main__":
    sys.exit(main(sys.argv[1:]))
