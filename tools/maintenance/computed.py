#!/usr/bin/env python3
"""Computes the cases of proofs/ outside the prover, from the definitions of specs/: in milliseconds, by JavaScript that is written from them.

    tools/maintenance/computed.py [FOLDER]

Prints the cases of the repository in FOLDER (this one) that do not hold, and ends with status 1 where one does not. So an error that is
planted by hand in the definitions of a copy is seen at once; whether the prover refuses it too, `rt check` says, since nothing is proved here.
tools/maintenance/turned_conditions.py plants such errors by rule. It wants node.

What is read is the part of antt in which definitions are written here: equations by patterns, records, lists, numbers, tests. A case is a lemma whose
proof is `refl` or a law with `refl`: both sides of what is to be equal are computed. Constants and variants come from the code of the crates.
"""
import json
import os
import pathlib
import re
import resource
import subprocess
import sys
import tempfile
import threading

TOKEN = re.compile(
    r"(?P<blank>\s+)|(?P<comment>--[^\n]*)|(?P<number>0x[0-9a-fA-F_]+|[0-9][0-9_]*)|(?P<text>\"[^\"]*\")"
    r"|(?P<dotted>\.(?=[A-Za-z0-9_]))|(?P<name>«[^»]*»|[^\W\d][\w'\-]*(?:◌[\w'\-]*)*|◌[^\s(){};,.]+◌|_)"
    r"|(?P<sign>\[\]|==|&&|\|\||\+\+|>>=|[∷×≡→≢≤<+\-*/%^=:;,.(){}λ⊎↔])"
)
# The files of cases that compute, those of transcripts apart.
CASES = [
    ("reaction_model", "Cases"), ("dialogue_model", "Cases"), ("dialogue_model", "HearingCases"), ("dialogue_model", "WantCases"), ("story_model", "Small"),
    ("array_model", "Stories"), ("story_model", "Cases"), ("bus_cases", "RuleCases"), ("due_model", "RunCases"), ("bus_cases", "RunCases"),
    ("bus_cases", "GuardCases"), ("bus_cases", "ArrayCases"), ("bus_cases", "RightCases"), ("bus_cases", "DialogueCases"), ("bus_cases", "StoryCases"),
    ("bus_cases", "DueCases"),
    ("sync_nego", "Cases"), ("mixed_model", "MixedTraces"), ("due_model", "SeamCases"), ("bus_cases", "SeamCases"),
    ("bus_laws", "Cases"), ("bus_laws", "HeardCases"), ("bus_laws", "WrittenCases"), ("book_laws", "Cases"), ("book_laws", "StoryCases"),
    ("book_laws", "CauseRunCases"), ("disk_target", "AttendedCases"), ("right_laws", "Cases"), ("right_laws", "GivenCases"), ("progress_laws", "DebtCases"),
]
# So many of these are of the definitions themselves, the others of the laws above them.
NEAR = 20
BINARY = {"||": (30, "r"), "&&": (35, "r"), "==": (50, "n"), "++": (65, "l"), "+": (65, "l"), "-": (65, "l"), "∷": (67, "r"),
          "*": (70, "l"), "/": (70, "l"), "%": (70, "l"), "^": (75, "r")}
# What std's words compute, each with the number of its arguments.
BUILT = {
    "not": 1, "nat_lt": 2, "nat_le": 2, "is_some": 1, "is_none": 1, "length": 1, "take": 2, "drop": 2, "replicate": 2, "max": 2, "min": 2, "suc": 1,
    "codes": 1, "slice_index": 2, "slice_index_or": 3, "slice_get": 2, "slice_set": 3, "list_any": 2, "list_all": 2, "find": 2, "reverse": 1, "map": 2, "flat_map": 2,
    "nat_abs": 1, "twos_complement": 2, "decimal": 1,
    "big_number": 2, "big_bytes": 2, "bit_or": 2, "bit_and": 2, "bit_at": 2, "count_ones": 1, "option_map": 2, "filter": 2, "option_and_then": 2,
}
# Arguments that are computed only where they are wanted, by the place among the others: as many filemarks as a command counts, for which there is
# no room.
LATE = {("array_model", "TapeExecution", "write_execution"): {2}, ("array_model", "TapeExecution", "written_reel"): {2}}
COMPARISONS = {"nat_lt", "nat_le", "is_some", "is_none", "list_any", "list_all"}
VARIANTS = {"Some": 1, "None": 0, "Ok": 1, "Err": 1, "pos": 1, "negsuc": 1}
RUNTIME = r"""
'use strict';
const NIL = {t: '[]'}, NONE = {t: 'None'};
const cons = (h, t) => ({t: '∷', _0: h, _1: t}), some = x => ({t: 'Some', _0: x});
const app = (f, ...xs) => { for (const x of xs) f = f(x); return f; };
const std_not = a => !a, std_nat_lt = (a, b) => a < b, std_nat_le = (a, b) => a <= b;
const std_is_some = o => o.t === 'Some', std_is_none = o => o.t === 'None';
const std_length = l => { let n = 0; while (l !== NIL) { n++; l = l._1; } return n; };
const array = l => { const a = []; while (l !== NIL) { a.push(l._0); l = l._1; } return a; };
const onto = (a, l) => { for (let i = a.length - 1; i >= 0; i--) l = cons(a[i], l); return l; };
const std_take = (n, l) => { const a = []; while (n > 0 && l !== NIL) { a.push(l._0); l = l._1; n--; } return onto(a, NIL); };
const std_drop = (n, l) => { while (n > 0 && l !== NIL) { l = l._1; n--; } return l; };
const std_replicate = (n, x) => { let l = NIL; while (n > 0) { l = cons(x, l); n--; } return l; };
const std_max = (a, b) => a < b ? b : a, std_min = (a, b) => a < b ? a : b, std_suc = a => a + 1;
const std_slice_index_or = (l, n, d) => { while (l !== NIL) { if (n === 0) return l._0; n--; l = l._1; } return d; };
const std_slice_index = (l, n) => std_slice_index_or(l, n, 0);
const std_slice_get = (l, n) => { while (l !== NIL) { if (n === 0) return some(l._0); n--; l = l._1; } return NONE; };
const std_slice_set = (l, n, x) => { const a = array(l); if (n < a.length) a[n] = x; return onto(a, NIL); };
const std_list_any = (f, l) => { while (l !== NIL) { if (f(l._0)) return true; l = l._1; } return false; };
const std_list_all = (f, l) => { while (l !== NIL) { if (!f(l._0)) return false; l = l._1; } return true; };
const std_find = (f, l) => { while (l !== NIL) { if (f(l._0)) return some(l._0); l = l._1; } return NONE; };
const std_codes = s => onto([...s].map(c => c.codePointAt(0)), NIL);
const std_decimal = n => std_codes(String(n));
const std_filter = (f, l) => onto(array(l).filter(x => f(x)), NIL);
const std_reverse = l => { let r = NIL; while (l !== NIL) { r = cons(l._0, r); l = l._1; } return r; };
const std_map = (f, l) => onto(array(l).map(x => f(x)), NIL);
const std_flat_map = (f, l) => { let r = []; for (const x of array(l)) r = r.concat(array(f(x))); return onto(r, NIL); };
const std_option_map = (f, o) => o.t === 'Some' ? some(f(o._0)) : o;
const std_option_and_then = (o, f) => o.t === 'Some' ? f(o._0) : o;
const std_bit_or = (a, b) => Number(BigInt(a) | BigInt(b)), std_bit_and = (a, b) => Number(BigInt(a) & BigInt(b));
const std_bit_at = (n, k) => Math.floor(n / Math.pow(2, k)) % 2;
const std_count_ones = n => { let c = 0; while (n > 0) { c += n % 2; n = Math.floor(n / 2); } return c; };
const std_big_number = (n, l) => { let r = 0; while (n > 0 && l !== NIL) { r = r * 256 + l._0; l = l._1; n--; } return r; };
const std_big_bytes = (n, x) => { const a = []; for (let i = n - 1; i >= 0; i--) a.push(Math.floor(x / Math.pow(256, i)) % 256); return onto(a, NIL); };
const std_nat_abs = z => z.t === 'pos' ? z._0 : z._0 + 1;
const std_twos_complement = (n, x) => { const all = Math.pow(256, n); return x * 2 < all ? {t: 'pos', _0: x} : {t: 'negsuc', _0: all - x - 1}; };
const op_join = (a, b) => a === NIL ? b : onto(array(a), b);
const op_minus = (a, b) => a < b ? 0 : a - b;
const op_div = (a, b) => b === 0 ? 0 : Math.floor(a / b), op_rem = (a, b) => b === 0 ? a : a % b;
const equal = (a, b) => {
  for (;;) {
    if (a === b) return true;
    if (typeof a !== 'object' || typeof b !== 'object') return false;
    if (a.t !== b.t) return false;
    if (a.t === '∷') { if (!equal(a._0, b._0)) return false; a = a._1; b = b._1; continue; }
    const ks = Object.keys(a);
    if (ks.length !== Object.keys(b).length) return false;
    for (const k of ks) if (k !== 't' && !(k in b && equal(a[k], b[k]))) return false;
    return true;
  }
};
const unread = what => { throw new Error('cannot compute ' + what); };
const nothing = what => { throw new Error('no equation of ' + what); };
"""


class Unread(Exception):
    pass


class Token:
    __slots__ = ("kind", "text", "at", "end")

    def __init__(self, kind, text, at, end):
        self.kind, self.text, self.at, self.end = kind, text, at, end


def tokens(text, base):
    found, at = [], 0
    while at < len(text):
        match = TOKEN.match(text, at)
        if not match:
            raise Unread("sign %r" % text[at])
        if match.lastgroup not in ("blank", "comment"):
            found.append(Token(match.lastgroup, match.group(), base + at, base + match.end()))
        at = match.end()
    return found


class Node:
    """An expression: its form, its parts, and where it stands in the file."""
    __slots__ = ("form", "parts", "at", "end", "site")

    def __init__(self, form, parts, at, end):
        self.form, self.parts, self.at, self.end, self.site = form, parts, at, end, None


class Parser:
    def __init__(self, found):
        self.found, self.at = found, 0

    def peek(self, ahead=0):
        return self.found[self.at + ahead].text if self.at + ahead < len(self.found) else None

    def kind(self):
        return self.found[self.at].kind if self.at < len(self.found) else None

    def take(self, text=None):
        if self.at >= len(self.found) or (text is not None and self.peek() != text):
            raise Unread("%r where %r is wanted" % (self.peek(), text))
        self.at += 1
        return self.found[self.at - 1]

    def start(self):
        return self.found[self.at].at if self.at < len(self.found) else -1

    def last(self):
        return self.found[self.at - 1].end

    def expression(self, least=0):
        begun = self.start()
        left = self.operand()
        while self.peek() in BINARY and self.kind() == "sign":
            sign = self.peek()
            power, side = BINARY[sign]
            if power < least:
                break
            self.take()
            right = self.expression(power + 1)
            if sign == "∷":
                # A list is one node, however long it is.
                parts = [left, right]
                while self.peek() == "∷":
                    self.take()
                    parts.append(self.expression(power + 1))
                left = Node("list", parts, begun, self.last())
                continue
            if side == "r" and self.peek() == sign:
                self.take()
                right = Node("binary", [sign, right, self.expression(power)], right.at, self.last())
            left = Node("binary", [sign, left, right], begun, self.last())
        return left

    def operand(self):
        begun, word = self.start(), self.peek()
        if word == "if" and self.kind() == "name":
            self.take()
            test = self.expression()
            self.take("then")
            yes = self.expression()
            self.take("else")
            return Node("if", [test, yes, self.expression()], begun, self.last())
        if word == "let":
            self.take()
            name = self.take().text
            while self.peek() != "=":
                self.take()
            self.take("=")
            value = self.expression()
            self.take("in")
            return Node("let", [name, value, self.expression()], begun, self.last())
        if word == "λ":
            self.take()
            names = []
            while self.peek() != ".":
                if self.peek() == "(":
                    self.take()
                    while self.peek() != ":":
                        names.append(self.take().text)
                    depth = 1
                    while depth:
                        text = self.take().text
                        depth += (text == "(") - (text == ")")
                else:
                    names.append(self.take().text)
            self.take(".")
            return Node("lambda", [names, self.expression()], begun, self.last())
        head = self.atom()
        if head is None:
            raise Unread("%r where an expression is wanted" % word)
        parts = [head]
        while True:
            if self.peek() in ("λ", "let"):
                parts.append(self.operand())
                break
            more = self.atom()
            if more is None:
                break
            parts.append(more)
        return head if len(parts) == 1 else Node("apply", parts, begun, self.last())

    def atom(self):
        begun, word, kind = self.start(), self.peek(), self.kind()
        if kind == "number":
            self.take()
            node = Node("number", [int(word.replace("_", ""), 0)], begun, self.last())
        elif kind == "text":
            self.take()
            node = Node("text", [word], begun, self.last())
        elif word == "[]":
            self.take()
            node = Node("name", ["[]"], begun, self.last())
        elif word == "record":
            self.take()
            base = None
            if self.peek() != "{":
                base = self.atom()
            self.take("{")
            fields = []
            while self.peek() != "}":
                name = self.take().text
                self.take("=")
                fields.append((name, self.expression()))
                if self.peek() != "}":
                    self.take(";")
            self.take("}")
            node = Node("record", [base, fields], begun, self.last())
        elif word == "(":
            self.take()
            parts = [self.expression()]
            while self.peek() == ",":
                self.take()
                parts.append(self.expression())
            self.take(")")
            node = parts[0] if len(parts) == 1 else Node("tuple", parts, begun, self.last())
            if len(parts) == 1:
                node = Node("group", [node], begun, self.last())
        elif kind == "name" and word not in ("then", "else", "in", "if", "let", "where", "of"):
            self.take()
            node = Node("name", [word], begun, self.last())
        else:
            return None
        while self.kind() == "dotted":
            self.take()
            node = Node("field", [node, self.take().text], begun, self.last())
        return node


def plain(node):
    while node.form == "group":
        node = node.parts[0]
    return node


class Definition:
    def __init__(self, module, name, sort, at):
        self.module, self.name, self.sort, self.at = module, name, sort, at
        self.equations, self.problem, self.arity = [], None, None

    def is_test(self):
        return self.sort.split("→")[-1].strip() == "Bool"

    def is_kept(self):
        arguments = "→".join(self.sort.split("→")[:-1])
        return re.search(r"List (Row|Event)\b", arguments) is not None and bool(self.equations)

    def code_name(self):
        return mangled("%s__%s__%s" % (self.module.crate, self.module.path, self.name))


def left_side(definition, at):
    """The name of a definition, or of several equations the left side of that in which this place is."""
    if len(definition.equations) == 1:
        return definition.name
    begun = max(begun for begun, _ in definition.equations if begun <= at)
    return " ".join(dict(definition.equations)[begun].split(" = ")[0].split(" =\n")[0].split())


def mangled(name):
    return "".join(c if c.isalnum() and ord(c) < 128 or c == "_" else "$%x$" % ord(c) for c in name)


HEAD = re.compile(r"(?:unfoldable )?(?:abbrev )?(?:pub )?([^\W\d][\w'\-]*) :\s")


class Module:
    """A file of specs/ or proofs/: its imports, definitions and cases."""

    def __init__(self, tree, crate, folder, path, text):
        self.tree, self.crate, self.folder, self.path, self.text = tree, crate, folder, path, text
        self.imports, self.aliases, self.handed = {}, {}, []
        self.definitions, self.variants, self.cases = {}, {}, []
        self.file = "crates/%s/%s/%s.antt" % (crate, folder, path.replace(".", "/"))
        self.read()

    def items(self):
        """The items of the file, each with where it begins: a line that begins at the margin, and those that follow it."""
        at, now, begun, margin = 0, [], 0, 0
        for line in self.text.splitlines(keepends=True):
            if line.strip() and line[0] not in " })]":
                margin = 0
            if line.strip() in ("mutual", "abbrev mutual"):
                margin = 2
            elif line.strip() and line[margin] not in " })]":
                if now:
                    yield begun, "".join(now)
                now, begun = [] if line.startswith("--", margin) else [line[margin:]], at + margin
            elif now:
                now.append(line)
            at += len(line)
        if now:
            yield begun, "".join(now)

    def read(self):
        for at, item in self.items():
            words = item.split(None, 3)
            if words[0] == "use" or words[:2] == ["pub", "use"] or words[:3] == ["unfoldable", "pub", "use"]:
                self.read_use(item)
            elif words[0] in ("mod", "unfolding", "ruleset") or words[:2] == ["pub", "mod"]:
                pass
            elif words[0] == "data" or words[:2] == ["pub", "data"]:
                # (a variant with its further lines)
                for line in re.sub(r"\n {3,}", " ", item).splitlines()[1:]:
                    match = re.match(r"  ([^\W\d][\w'\-]*) : (.*)", line)
                    if match:
                        depth, arrows = 0, 0
                        for sign in re.sub(r"--.*", "", match.group(2)):
                            depth += (sign == "(") - (sign == ")")
                            arrows += sign == "→" and depth == 0
                        self.variants[match.group(1)] = arrows
            elif words[0] == "record" or words[:2] == ["pub", "record"]:
                pass
            elif HEAD.match(item):
                name = HEAD.match(item).group(1)
                if name not in self.definitions:
                    self.definitions[name] = Definition(self, name, re.sub(r"--[^\n]*", "", item[HEAD.match(item).end():]).strip(), at)
                    if self.folder == "proofs":
                        self.cases.append((name, item[HEAD.match(item).end():].strip(), at))
            else:
                name = words[0]
                if name in self.definitions:
                    self.definitions[name].equations.append((at, item))

    def read_use(self, item):
        item = " ".join(item.split())
        match = re.match(r"(?:unfoldable )?(?:pub )?use ([^\s{]+?)(?:\.\{(.*)\}| as (\S+))?$", item)
        if not match:
            return
        place = self.home(match.group(1).split("."))
        if match.group(3):
            self.aliases[match.group(3)] = place
        elif match.group(2) is not None:
            self.take_names(place, match.group(2), "pub use " in item)

    def home(self, place):
        """The place of a name that a crate has for itself (`proofs.Names`), or for another crate (`use .. as ..`)."""
        if place[0] == "proofs":
            return ["Rattle", self.crate] + place
        return self.aliases[place[0]] + place[1:] if place[0] in self.aliases else place

    def take_names(self, place, text, is_handed):
        """The names between two braces, where braces may stand again."""
        depth, part = 0, ""
        for sign in text + ",":
            depth += (sign == "{") - (sign == "}")
            if sign != "," or depth:
                part += sign
                continue
            head, braced, inner = part.strip().partition(".{")
            if braced:
                self.take_names(place + head.split("."), inner[:-1], is_handed)
            elif head:
                name, _, other = head.partition(" as ")
                self.imports[other or name] = (place, name)
                if is_handed:
                    self.handed.append(other or name)
            part = ""


class Tree:
    """The crates of a repository as far as their definitions and cases are wanted."""

    def __init__(self, root):
        self.root, self.modules, self.constants = pathlib.Path(root), {}, {}

    def module(self, crate, folder, path):
        key = (crate, folder, path)
        if key not in self.modules:
            file = self.root / "crates" / crate / folder / (path.replace(".", "/") + ".antt")
            self.modules[key] = Module(self, crate, folder, path, file.read_text()) if file.exists() else None
        return self.modules[key]

    def constant(self, crate, path, name):
        """The value of a constant of the crate's code."""
        key = (crate, path, name)
        if key not in self.constants:
            files = sorted((self.root / "crates" / crate / "src").rglob("*.rt"))
            near = [f for f in files if f.stem == path[-1]] if path else []
            value = None
            for file in near + files:
                match = re.search(r"const %s: \w+ =\s*([^;]+);" % re.escape(name), file.read_text())
                if match:
                    value = match.group(1)
                    break
            if value is None:
                raise Unread("constant %s of %s" % (name, crate))
            self.constants[key] = self.valued(crate, path, value)
        return self.constants[key]

    def declared(self, crate, enum, name):
        """How many parts a variant of an enum of the crate's code has."""
        key = (crate, enum, name)
        if key not in self.constants:
            self.constants[key] = 0
            for file in sorted((self.root / "crates" / crate / "src").rglob("*.rt")):
                match = re.search(r"enum %s\b[^{]*\{(.*?)\n\}" % enum, file.read_text(), re.S)
                if match:
                    found = re.search(r"\n\s*%s\b\s*([({][^)}]*[)}])?" % name, "\n" + re.sub(r"//[^\n]*", "", match.group(1)))
                    parts = (found.group(1) or "").strip("(){}").split(",") if found else []
                    self.constants[key] = len([part for part in parts if part.strip()])
        return self.constants[key]

    def valued(self, crate, path, text):
        text = re.sub(r"\b(0x[0-9a-fA-F_]+|[0-9][0-9_]*)(?:[ui]\d+|[ui]size)?\b", lambda m: m.group(1).replace("_", ""), re.sub(r"\bas \w+", "", text))
        if re.match(r"b'.'$", text.strip()):
            return ord(text.strip()[2])
        names = [n for n in re.findall(r"\b[A-Za-z_]\w*\b", text) if not re.match(r"0x", n)]
        for name in sorted(set(names), key=len, reverse=True):
            if re.match(r"x[0-9a-fA-F]+$", name):
                continue
            text = re.sub(r"(?<![\w])(?:\w+::)*%s\b" % name, str(self.constant(crate, path, name)), text)
        try:
            return int(eval(text.replace("/", "//"), {"__builtins__": {}}))
        except Exception:
            raise Unread("value %s" % text)

    def resolve(self, place, name):
        """What a name of this place is: ("def", Definition), ("variant", name, arity), ("constant", value), ("built", name) or None."""
        if place[0] in ("lib", "Prim"):
            return None
        last = max((i for i, part in enumerate(place) if part in ("specs", "proofs")), default=None)
        if last is None:
            return None
        crate, folder, path = place[last - 1], place[last], place[last + 1:]
        if crate in ("std", "core", "byteorder"):
            return ("variant", name, VARIANTS[name]) if name in VARIANTS else ("built", name) if name in BUILT else None
        if path and path[0] == "declared":
            if path[-1] == "TheVariants":
                return ("variant", name, self.declared(crate, path[-2], name))
            if path[-1] == "TheConstants":
                return ("constant", self.constant(crate, tuple(path[1:-1]), name))
            return None
        module = self.module(crate, folder, ".".join(path))
        return module and self.named(module, name)

    def named(self, module, name):
        if name in module.variants:
            return ("variant", name, module.variants[name])
        if name in module.definitions:
            return ("def", module.definitions[name])
        if name in module.imports:
            return self.resolve(*module.imports[name])
        return None


class Writer:
    """JavaScript of definitions, with a number at each condition that may be turned."""

    def __init__(self, tree, turned):
        self.tree, self.turned = tree, turned
        self.sites, self.done, self.wanted, self.code, self.unread = [], set(), [], [], {}

    # ---- conditions

    def site(self, node, module, definition, allowed):
        if node.site is None and allowed and module.crate in self.turned and module.folder == "specs":
            self.sites.append((module, definition, node.at, node.end, set(allowed)))
            node.site = len(self.sites) - 1
        return node

    def mark(self, node, module, definition, allowed):
        """Numbers the conditions of a test. What is the same as a turn of what stands round it has no number of its own."""
        node = plain(node)
        if node.form == "binary" and node.parts[0] in ("&&", "||"):
            self.site(node, module, definition, allowed)
            inner = {True} if node.parts[0] == "&&" else {False}
            self.mark(node.parts[1], module, definition, inner)
            self.mark(node.parts[2], module, definition, inner)
        elif node.form == "if":
            self.mark(node.parts[0], module, definition, {True, False})
            self.mark(node.parts[1], module, definition, {True, False})
            self.mark(node.parts[2], module, definition, {True, False})
        elif node.form == "let":
            self.find(node.parts[1], module, definition)
            self.mark(node.parts[2], module, definition, allowed)
        elif node.form == "apply" and plain(node.parts[0]).form == "name" and plain(node.parts[0]).parts[0] == "not" and len(node.parts) == 2:
            self.site(node, module, definition, allowed)
            inside = plain(node.parts[1])
            both = inside.form == "binary" and inside.parts[0] in ("&&", "||")
            self.mark(inside, module, definition, set()) if both or inside.form == "apply" else self.find(inside, module, definition)
        elif node.form == "apply" and plain(node.parts[0]).form == "name" and plain(node.parts[0]).parts[0] == "implies" and len(node.parts) == 3:
            self.site(node, module, definition, allowed)
            self.mark(node.parts[1], module, definition, {True})
            self.mark(node.parts[2], module, definition, {False})
        else:
            if node.form == "name" and node.parts[0] in ("true", "false"):
                allowed = set(allowed) - {node.parts[0] == "true"}
            self.site(node, module, definition, allowed)
            self.find(node, module, definition)

    def find(self, node, module, definition):
        """Numbers the conditions inside what is no test itself."""
        node = plain(node)
        if node.form == "if":
            self.mark(node.parts[0], module, definition, {True, False})
            self.find(node.parts[1], module, definition)
            self.find(node.parts[2], module, definition)
        elif node.form == "let":
            self.inner(node.parts[1], module, definition)
            self.find(node.parts[2], module, definition)
        elif node.form == "lambda":
            self.inner(node.parts[1], module, definition)
        elif node.form == "record":
            if node.parts[0] is not None:
                self.find(node.parts[0], module, definition)
            for _, value in node.parts[1]:
                self.inner(value, module, definition)
        elif node.form in ("apply", "tuple", "list"):
            for part in node.parts:
                self.inner(part, module, definition)
        elif node.form == "binary":
            self.find(node.parts[1], module, definition)
            self.find(node.parts[2], module, definition)
        elif node.form == "field":
            self.find(node.parts[0], module, definition)

    def inner(self, node, module, definition):
        (self.mark if self.looks_like_test(node) else self.find)(node, module, definition, *([{True, False}] if self.looks_like_test(node) else []))

    def looks_like_test(self, node):
        node = plain(node)
        if node.form == "binary":
            return node.parts[0] in ("&&", "||", "==")
        if node.form == "apply" and plain(node.parts[0]).form == "name":
            name = plain(node.parts[0]).parts[0]
            return name in COMPARISONS or name in ("not", "implies")
        return node.form == "name" and node.parts[0] in ("true", "false")

    # ---- code

    def look_up(self, module, name):
        found = self.tree.named(module, name)
        if found is None and name in module.imports:
            return None
        return found

    def written(self, node, module, names):
        code = self.bare(node, module, names)
        if node.site is None:
            return code
        return "(T===%d?F:%s)" % (node.site, code)

    def bare(self, node, module, names):
        form, parts = node.form, node.parts
        if form == "group":
            return self.written(parts[0], module, names)
        if form in ("number", "text"):
            return str(parts[0])
        if form == "name":
            return self.reference(parts[0], module, names, [])
        if form == "field":
            base = parts[0]
            if base.form == "name" and base.parts[0] in module.aliases and base.parts[0] not in names:
                return self.found(self.tree.resolve(module.aliases[base.parts[0]], parts[1]), parts[1], [])
            return "%s.%s" % (self.written(base, module, names), "_" + parts[1] if parts[1].isdigit() else mangled(parts[1]))
        if form == "tuple":
            return "{%s}" % ",".join("_%d:%s" % (i, self.written(p, module, names)) for i, p in enumerate(parts))
        if form == "record":
            fields = ["%s:%s" % (mangled(n), self.written(v, module, names)) for n, v in parts[1]]
            return "({%s})" % ",".join((["...%s" % self.written(parts[0], module, names)] if parts[0] is not None else []) + fields)
        if form == "if":
            return "(%s?%s:%s)" % tuple(self.written(p, module, names) for p in parts)
        if form == "let":
            inner = dict(names)
            inner[parts[0]] = "v_" + mangled(parts[0])
            return "((%s)=>%s)(%s)" % (inner[parts[0]], self.wrapped(parts[2], module, inner), self.written(parts[1], module, names))
        if form == "lambda":
            inner = dict(names)
            for n in parts[0]:
                inner[n] = "v_" + mangled(n)
            code = "(%s=>%s)" % ("=>".join("(%s)" % inner[n] for n in parts[0]), self.wrapped(parts[1], module, inner))
            if any(re.search(r"(?<![\w$.])%s(?![\w$])" % re.escape(place.split(".")[0].strip("()")), code) for name, place in names.items() if name not in parts[0]):
                return code
            self.code.append("const f%d=%s;" % (len(self.code), code))
            return "f%d" % (len(self.code) - 1)
        if form == "list":
            given = [self.written(p, module, names) for p in parts]
            if len(given) == 2 and given[0].endswith("._0") and given[1] == given[0][:-1] + "1":
                # The list that was taken apart: what is known of it is known of it by its place.
                return given[0][:-3]
            return "cons(%s)" % ",".join(given) if len(given) == 2 else "onto([%s],%s)" % (",".join(given[:-1]), given[-1])
        if form == "binary":
            left, right = self.written(parts[1], module, names), self.written(parts[2], module, names)
            if parts[0] == "==":
                return "(%s===%s)" % (left, right)
            if parts[0] in ("&&", "||", "+", "*"):
                return "(%s%s%s)" % (left, parts[0], right)
            word = {"++": "op_join", "-": "op_minus", "/": "op_div", "%": "op_rem", "^": "Math.pow"}[parts[0]]
            return "%s(%s,%s)" % (word, left, right)
        if form == "apply":
            head = plain(parts[0])
            given = [self.written(p, module, names) for p in parts[1:]]
            if head.form == "name":
                return self.reference(head.parts[0], module, names, given)
            if head.form == "field" and head.parts[0].form == "name" and head.parts[0].parts[0] in module.aliases and head.parts[0].parts[0] not in names:
                return self.found(self.tree.resolve(module.aliases[head.parts[0].parts[0]], head.parts[1]), head.parts[1], given)
            return "app(%s)" % ",".join([self.written(parts[0], module, names)] + given)
        raise Unread(form)

    def wrapped(self, node, module, names):
        code = self.written(node, module, names)
        return "(%s)" % code if code.startswith("{") else code

    def variant(self, name, arity, given):
        if name == "None" or name == "[]":
            return "NONE" if name == "None" else "NIL"
        if arity is not None and len(given) < arity:
            more = ["x%d" % i for i in range(arity - len(given))]
            return "(%s=>(%s))" % ("=>".join("(%s)" % m for m in more), self.variant(name, arity, given + more))
        return "{%s}" % ",".join(["t:'%s'" % name] + ["_%d:%s" % (i, g) for i, g in enumerate(given)])

    def called(self, word, arity, given):
        if len(given) < arity:
            more = ["x%d" % i for i in range(arity - len(given))]
            return "(%s=>%s(%s))" % ("=>".join("(%s)" % m for m in more), word, ",".join(given + more))
        code = "%s(%s)" % (word, ",".join(given[:arity]))
        return "app(%s)" % ",".join([code] + given[arity:]) if given[arity:] else code

    def reference(self, name, module, names, given):
        if name in names:
            return "app(%s)" % ",".join([names[name]] + given) if given else names[name]
        if name in ("true", "false"):
            return name
        if name == "[]":
            return "NIL"
        if name == "zero":
            return "0"
        found = self.look_up(module, name)
        if found is None and name in BUILT and name in module.imports:
            found = ("built", name)
        return self.found(found, name, given)

    def found(self, found, name, given):
        if found is None:
            raise Unread("name %s" % name)
        if found[0] == "constant":
            return str(found[1])
        if found[0] == "variant":
            return self.variant(found[1], found[2], given)
        if found[0] == "built":
            return self.called("std_" + found[1], BUILT[found[1]], given)
        definition = found[1]
        self.want(definition)
        late = self.late(definition)
        given = ["()=>%s" % ("(%s)" % code if code.startswith("{") else code) if i in late else code for i, code in enumerate(given)]
        return self.called(definition.code_name(), self.arity(definition), given)

    def late(self, definition):
        return LATE.get((definition.module.crate, definition.module.path, definition.name), set())

    def arity(self, definition):
        if definition.arity is None:
            definition.arity = 0
            if definition.equations:
                at, item = definition.equations[0]
                parser = Parser(tokens(item, at))
                parser.take()
                while parser.peek() != "=":
                    self.pattern(parser)
                    definition.arity += 1
        return definition.arity

    # ---- patterns: a number, a name, [] or parentheses round a variant, a list or a tuple

    def pattern(self, parser):
        word = parser.peek()
        if word == "(":
            parser.take()
            parts, signs = [self.patterns(parser)], []
            while parser.peek() in (",", "∷"):
                signs.append(parser.take().text)
                parts.append(self.patterns(parser))
            parser.take(")")
            if not signs:
                return parts[0]
            if signs[0] == ",":
                return ("tuple", parts)
            tail = parts[-1]
            for part in reversed(parts[:-1]):
                tail = ("variant", "∷", [part, tail])
            return tail
        if parser.kind() == "number":
            return ("number", int(parser.take().text.replace("_", ""), 0))
        if word == "[]" or parser.kind() == "name":
            name = parser.take().text
            while parser.kind() == "dotted":
                parser.take()
                name += "." + parser.take().text
            return ("name", name)
        raise Unread("pattern %r" % word)

    def patterns(self, parser):
        head = self.pattern(parser)
        given = []
        while parser.peek() not in (")", ",", "∷", "="):
            given.append(self.pattern(parser))
        return ("variant", head[1], given) if given else head

    def matching(self, pattern, place, module, tests, names):
        kind = pattern[0]
        if kind == "number":
            tests.append("%s===%d" % (place, pattern[1]))
        elif kind == "tuple":
            for i, part in enumerate(pattern[1]):
                self.matching(part, "%s._%d" % (place, i), module, tests, names)
        else:
            name, given = pattern[1], pattern[2] if kind == "variant" else []
            if name == "∷":
                tests.append("%s!==NIL" % place)
            elif name == "[]":
                tests.append("%s===NIL" % place)
            elif name == "zero":
                tests.append("%s===0" % place)
            elif name == "suc":
                tests.append("%s>0" % place)
                return self.matching(given[0], "(%s-1)" % place, module, tests, names)
            elif name in ("true", "false"):
                tests.append("%s===%s" % (place, name))
            elif "." in name:
                tests.append("%s.t==='%s'" % (place, name.split(".")[-1]))
            else:
                found = self.look_up(module, name) if name != "_" else None
                if found and found[0] == "variant":
                    tests.append("%s.t==='%s'" % (place, name))
                elif found and found[0] == "def" and given:
                    raise Unread("pattern %s" % name)
                elif name != "_":
                    names[name] = place
            for i, part in enumerate(given):
                self.matching(part, "%s._%d" % (place, i), module, tests, names)

    def want(self, definition):
        if definition.code_name() not in self.done:
            self.done.add(definition.code_name())
            self.wanted.append(definition)

    def write(self, definition):
        module, name = definition.module, definition.code_name()
        lines = []
        try:
            if not definition.equations:
                raise Unread("no equation")
            arity = self.arity(definition)
            if arity == 0 and len(definition.equations) == 1:
                at, item = definition.equations[0]
                parser = Parser(tokens(item, at))
                parser.take()
                parser.take("=")
                node = self.body(parser, definition)
                self.code.append("let %s_v=-1,%s_k;function %s(){if(%s_v!==AGE){%s_k=%s;%s_v=AGE;}return %s_k;}" % (
                    name, name, name, name, name, self.written(node, module, {}), name, name))
                return
            for at, item in definition.equations:
                parser = Parser(tokens(item, at))
                parser.take()
                tests, names = [], {}
                for i in range(arity):
                    self.matching(self.pattern(parser), "a%d%s" % (i, "()" if i in self.late(definition) else ""), module, tests, names)
                parser.take("=")
                node = self.body(parser, definition)
                lines.append("%sreturn %s;" % ("if(%s)" % "&&".join(tests) if tests else "", self.wrapped(node, module, names)))
            given = ",".join("a%d" % i for i in range(arity))
            code = "(%s){%s%s}" % (given, "".join(lines), "return nothing('%s');" % name)
            if definition.is_kept():
                # What rows tell is computed once for each list of rows, as the prover does.
                self.code.append("let %s_v=-1,%s_k;function %s_c%s" % (name, name, name, code))
                self.code.append("function %s(%s){if(%s_v!==AGE){%s_k=new Map();%s_v=AGE;}let k=%s_k;" % (name, given, name, name, name, name)
                    + "".join("let k%d=k.get(a%d);if(k%d===undefined){k%d=new Map();k.set(a%d,k%d);}k=k%d;" % ((i,) * 7) for i in range(arity - 1))
                    + "let r=k.get(a%d);if(r===undefined){r=%s_c(%s);k.set(a%d,r);}return r;}" % (arity - 1, name, given, arity - 1))
            else:
                self.code.append("function %s%s" % (name, code))
        except Unread as why:
            self.unread[definition.module.file + " " + definition.name] = str(why)
            self.code.append("function %s(){return unread('%s');}" % (name, name))

    def body(self, parser, definition):
        node = parser.expression()
        if parser.peek() is not None:
            raise Unread("%r after an expression" % parser.peek())
        if definition.is_test():
            self.mark(node, definition.module, definition, {True, False})
        else:
            self.find(node, definition.module, definition)
        return node

    # ---- cases

    def case(self, module, name, statement, at):
        """The case as a function without arguments that gives a Bool; None where the lemma is none."""
        try:
            proof = self.proof(module, name)
            if proof is None:
                return None
            if proof == ["refl"]:
                return self.equality(tokens(statement, at), module, {})
            law = self.tree.named(module, proof[0])
            if law is None or law[0] != "def" or proof[-1] != "refl":
                return None
            given = [self.reference(word, module, {}, []) for word in proof[1:-1]]
            sort = tokens(law[1].sort, 0)
            names, place = [], 0
            while sort[place].text == "(":
                place += 1
                while sort[place].text != ":":
                    names.append(sort[place].text)
                    place += 1
                depth = 1
                while depth:
                    place += 1
                    depth += (sort[place].text == "(") - (sort[place].text == ")")
                place += 1
            premise = []
            while sort[place + 1].text != "→":
                place += 1
                premise.append(sort[place])
            if len(names) != len(given):
                return None
            return self.equality(premise, law[1].module, dict(zip(names, given)))
        except (Unread, IndexError) as why:
            self.unread[module.file + " " + name] = str(why)
            return None

    def proof(self, module, name):
        """The words of a proof that is one line of names."""
        if not module.definitions[name].equations:
            return None
        words = module.definitions[name].equations[0][1].split()
        return words[2:] if words[1:2] == ["="] and all(re.match(r"[\w']+$", word) for word in words[2:]) else None

    def equality(self, found, module, names):
        depth, split = 0, None
        for i, token in enumerate(found):
            depth += (token.text in "({") - (token.text in ")}")
            if token.text == "≡" and depth == 0:
                split = i
        if split is None:
            return None
        sides = []
        for part in (found[:split], found[split + 1:]):
            parser = Parser(part)
            node = parser.expression()
            if parser.peek() is not None:
                raise Unread("%r in a statement" % parser.peek())
            sides.append(self.written(node, module, names))
        return "()=>equal(%s,%s)" % tuple(sides)

    def finish(self):
        while self.wanted:
            self.write(self.wanted.pop())


# ---- programs

CHECK = """
let bad = 0;
for (const [file, name, holds] of CASES) {
  AGE++;
  let found;
  try { found = holds(); } catch (e) { found = String(e); }
  if (found !== true) { bad++; console.log(file + ' ' + name + (found === false ? '' : ': ' + found)); }
}
console.log(CASES.length + ' cases, ' + bad + ' do not hold');
"""


def written(root, turned=(), files=CASES):
    """The definitions of this tree with their cases as a program without an end, and what wrote it: the conditions of these crates are numbered."""
    tree = Tree(root)
    writer = Writer(tree, turned)
    cases = []
    for crate, name in files:
        module = tree.module(crate, "proofs", name)
        for lemma, statement, at in module.cases if module else []:
            code = writer.case(module, lemma, statement, at)
            if code:
                cases.append("[%s,%s,%s]" % (json.dumps(module.file), json.dumps(lemma), code))
    for crate in turned:
        for file in sorted((tree.root / "crates" / crate / "specs").rglob("*.antt")):
            path = ".".join(file.relative_to(tree.root / "crates" / crate / "specs").with_suffix("").parts)
            for definition in tree.module(crate, "specs", path).definitions.values():
                if "Type" not in definition.sort and definition.equations:
                    writer.want(definition)
    writer.finish()
    return RUNTIME + "let T=-1,F=false,AGE=0;\n" + "\n".join(writer.code) + "\nconst CASES=[" + ",\n".join(cases) + "];\n", writer


def deep(function):
    """Calls it with room for deep recursion."""
    sys.setrecursionlimit(200000)
    threading.stack_size(512 * 1024 * 1024)
    found = []
    thread = threading.Thread(target=lambda: found.append(function()))
    thread.start()
    thread.join()
    return found[0]


def node(file, *words, **more):
    """Runs a program with room for deep recursion."""
    grow = lambda: resource.setrlimit(resource.RLIMIT_STACK, (resource.RLIM_INFINITY, resource.RLIM_INFINITY))
    return subprocess.Popen(["node", "--stack-size=500000", str(file), *words], preexec_fn=grow, text=True, **more)


def main():
    root = sys.argv[1] if len(sys.argv) > 1 else pathlib.Path(__file__).resolve().parent.parent.parent
    code, writer = deep(lambda: written(root))
    for place, why in writer.unread.items():
        print("not read: %s: %s" % (place, why), file=sys.stderr)
    with tempfile.NamedTemporaryFile("w", suffix=".js") as file:
        file.write(code + CHECK)
        file.flush()
        process = node(file.name, stdout=subprocess.PIPE)
        text = process.communicate()[0]
    print(text, end="")
    sys.exit(0 if text.endswith(" 0 do not hold\n") else 1)


if __name__ == "__main__":
    main()
