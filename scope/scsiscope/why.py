"""Refusals in words: where a text breaks its form, and what to write instead.

Whether a text is refused, and at which line, is the program's answer.
"""
import difflib
import re

from .trace import KINDS, kind_of
from .style import paint

REASONS = {
    1: "a byte other than 20 to 7e", 2: "the line has none of the forms", 3: "a line out of order", 4: "a number outside its limits",
    5: "a device, unit or block that stood before", 6: "a device that was not declared", 7: "`out` against what the command needs",
    8: "one line or one byte more than the limit", 9: "more than 4,194,304 bytes",
}
ORDER = ["scsi", "initiator", "target", "unit", "fill", "cmd", "abort", "reset", "fault", "end"]


class Refusal:
    """What is wrong with a text: the line and column (from 1), in words, and what to write instead."""

    def __init__(self, name, line, words, column=None, length=1, instead=None, shown=None, said=""):
        self.name, self.line, self.column, self.length = name, line, column, length
        self.words, self.instead, self.shown, self.said = words, instead, shown, said

    def text(self):
        place = self.name + (":%d" % self.line if self.line else "") + (":%d" % self.column if self.line and self.column else "")
        out = ["%s: %s%s" % (place, self.words, " (%s)" % self.said if self.said else "")]
        if self.shown is not None:
            start, shown = 0, self.shown
            if self.column and self.column > 90:
                start = self.column - 60
                shown = ".." + shown[start + 2:]
            if len(shown) > 110:
                shown = shown[:108] + ".."
            out.append("  " + shown)
            if self.column:
                marks = "^" * max(1, min(self.length, 110 - (self.column - start)))
                out.append("  " + " " * (self.column - 1 - start) + paint(marks, "bold", "red") + (" " + self.instead if self.instead else ""))
            elif self.instead:
                out.append("  " + self.instead)
        elif self.instead:
            out.append("  " + self.instead)
        return "\n".join(out)

    def json(self):
        return {"file": self.name, "line": self.line, "column": self.column, "words": self.words, "instead": self.instead, "said": self.said}


def text_line(data, number):
    """A line of a text, from 1, without its line feed; and whether it has one."""
    lines = data.split(b"\n")
    if number < 1 or number > len(lines):
        return b"", False
    return lines[number - 1], number < len(lines)


def plain(line):
    """A line as it is shown: other bytes as dots, tabs as one space."""
    return "".join(chr(byte) if 32 <= byte < 127 else " " if byte == 9 else "." for byte in line)


def of_bytes(name, number, line, has_feed, said, what):
    """What is wrong with the bytes of a line, whatever its form; or None."""
    shown = plain(line)
    if line.startswith(b"\xef\xbb\xbf"):
        return Refusal(name, number, "the file begins with a byte order mark (ef bb bf)", 1, 3, "save it as plain ASCII or UTF-8 without a mark",
                       shown, said)
    for column, byte in enumerate(line, 1):
        if byte == 13 and column == len(line):
            return Refusal(name, number, "the line ends with a carriage return (0d): Windows line ends", column, 1,
                           "use plain line feeds: tr -d '\\r' < %s" % (name if name != "-" else "FILE"), shown, said)
        if byte == 9:
            return Refusal(name, number, "a tab (09); words are separated by one space", column, 1, "write a space", shown, said)
        if byte < 32 or byte > 126:
            return Refusal(name, number, "a byte %02x; %s has bytes 20 to 7e alone" % (byte, what), column, 1, None, shown, said)
    if not has_feed and line:
        return Refusal(name, number, "the last line has no line feed", len(line), 1, "end it with a line feed", shown, said)
    for match in re.finditer(rb"^ +| +$|  +", line):
        if line.strip():
            place = "before the line" if match.start() == 0 else "after the line" if match.end() == len(line) else "between two words"
            return Refusal(name, number, "%s %s; words are separated by one space" % (
                "a space" if match.end() - match.start() == 1 else "%d spaces" % (match.end() - match.start()), place),
                match.start() + 1, match.end() - match.start(), "write one" if place == "between two words" else "leave it out", shown, said)
    return None


class Token:
    """What stands at a place of a line: `check` tells in words what is wrong with a word there, and what to write, or None."""

    def __init__(self, what, check):
        self.what, self.check = what, check


def number_of(what, low, high):
    def check(word):
        if re.fullmatch(r"0[0-9]+", word):
            return "%s `%s` has zeros in front" % (what, word), "write %d" % int(word)
        if re.fullmatch(r"0x[0-9a-fA-F]+", word):
            return "%s is decimal, not `%s`" % (what, word), "write %d" % int(word, 16)
        if not re.fullmatch(r"[0-9]+", word):
            return "here stands %s, a decimal number; `%s` is none" % (what, word), None
        if not low <= int(word) <= high:
            return "%s %s is not %s" % (what, word, "%d to %s" % (low, format(high, ","))), None
        return None
    return Token(what, check)


def word_of(*choices):
    def check(word):
        if word in choices:
            return None
        near = difflib.get_close_matches(word.lower(), choices, 1)
        want = " or ".join("`%s`" % choice for choice in choices)
        return "here stands %s, not `%s`" % (want, word), "write " + (near[0] if near else choices[0])
    return Token(" or ".join(choices), check)


def period(word):
    found = number_of("the transfer period factor", 0, 255).check(word)
    if found:
        return found
    if 0 < int(word) < 25:
        return "the transfer period factor %s (%d ns) is not 0 or 25 to 255" % (word, 4 * int(word)), None
    return None


def hex_bytes(what):
    def check(word):
        if re.fullmatch(r"0x[0-9a-fA-F]+", word):
            return "%s has no `0x`" % what, "write " + word[2:].lower()
        if not re.fullmatch(r"[0-9a-fA-F]+", word):
            return "here stand hexadecimal digits (%s), not `%s`" % (what, word), None
        if word != word.lower():
            return "hexadecimal is in lower case", "write " + word.lower()
        if len(word) % 2:
            return "%s has %d digits; each byte has two" % (what, len(word)), "write 0" + word
        return None
    return Token(what, check)


def command_block(word):
    found = hex_bytes("the command block").check(word)
    if found:
        return found
    data = bytes.fromhex(word)
    group = data[0] >> 5
    if group > 1:
        return "operation code %02x is of group %d; a scenario has groups 0 and 1 (00 to 3f)" % (data[0], group), None
    want = 10 if group else 6
    if len(data) != want:
        return "operation code %02x is of group %d: its block has %d bytes, not %d" % (data[0], group, want, len(data)), None
    return None


def size(word):
    found = number_of("the bytes of a block", 16, 2048).check(word)
    if found:
        return found
    return ("%s bytes of a block: no power of two" % word, "write 512") if int(word) & (int(word) - 1) else None


DEVICE = number_of("a device (SCSI ID)", 0, 7)
TIME = number_of("a time in ns", 0, 10**12)
P, O255, O254 = Token("P", period), number_of("the REQ/ACK offset", 0, 255), number_of("the REQ/ACK offset of a target", 0, 254)
YN = word_of("yes", "no")
TAG = number_of("the tag", 0, 255)
K = number_of("the blocks of a run", 1, 65_536)
FORMS = {
    "scsi": ("scsi 1", [word_of("1", "2")]),
    "initiator": ("initiator 7 latency 0 open 4 retries 2 sync 50 8 lag 0", [
        DEVICE, word_of("latency"), number_of("the latency", 0, 100), word_of("open"), number_of("open", 1, 32), word_of("retries"),
        number_of("retries", 0, 16), word_of("sync"), P, O255, word_of("lag"), number_of("the lag", 0, 10_000)]),
    "target": ("target 0 latency 0 retries 2 disc never pick first seek 0 sync 50 8", [
        DEVICE, word_of("latency"), number_of("the latency", 0, 100), word_of("retries"), number_of("retries", 0, 16), word_of("disc"),
        {"never": [], "command": [], "burst": [K], "nosave": [K]}, word_of("pick"), word_of("first", "last"), word_of("seek"),
        number_of("seek", 0, 10**9), word_of("sync"), P, O254]),
    "unit": ("unit 0 0 blocks 4096 size 512 depth 8", [
        DEVICE, number_of("a unit", 0, 7), word_of("blocks"), number_of("the blocks of a unit", 1, 4_294_967_296), word_of("size"),
        Token("size", size), word_of("depth"), number_of("the depth of the queue", 1, 256)]),
    "fill": ("fill 0 0 3 00ff", [DEVICE, number_of("a unit", 0, 7), number_of("a block", 0, 2**64 - 1), hex_bytes("the block's bytes")]),
    "cmd": ("cmd 7 0 0 at 0 untagged cdb 080000000100 none", [
        DEVICE, DEVICE, number_of("a unit", 0, 7), word_of("at"), TIME, {"untagged": [], "simple": [TAG], "ordered": [TAG], "head": [TAG]},
        word_of("cdb"), Token("the command block", command_block),
        {"none": [], "out": [{"hex": [hex_bytes("the bytes to send")], "from": [hex_bytes("the first byte to send")]}]}]),
    "abort": ("abort 7 0 0 at 20000 all", [
        DEVICE, DEVICE, number_of("a unit", 0, 7), word_of("at"), TIME, {"all": [], "tag": [TAG], "queue": [], "device": []}]),
    "reset": ("reset 6 at 7200", [DEVICE, word_of("at"), TIME]),
    "fault": ("fault at 8280 bit 8", [word_of("at"), TIME, word_of("bit"), number_of("a bit", 0, 8)]),
    "end": ("end", []),
}
VERSION_2 = {"initiator": [word_of("offers"), YN], "target": [word_of("begins"), YN]}


def words_at(line):
    """The words of a line with their columns, from 1."""
    return [(match.group(), match.start() + 1) for match in re.finditer(r"\S+", line)]


def of_form(line, version):
    """Where a line of a scenario leaves its form: (words, column, length, instead), or None."""
    words = words_at(line)
    kind, column = words[0]
    if kind not in FORMS:
        near = difflib.get_close_matches(kind.lower(), ORDER, 1)
        return "no line begins with `%s`; the kinds are %s" % (kind, ", ".join(ORDER)), column, len(kind), \
            "write " + near[0] if near else None
    example, form = FORMS[kind]
    form = list(form) + (VERSION_2.get(kind, []) if version == 2 else [])
    place = 1
    while form:
        item = form.pop(0)
        if place >= len(words):
            what = " or ".join(item) if isinstance(item, dict) else item.what
            return "the line is over too early: here stands %s" % what, len(line) + 1, 1, "as in: " + example
        word, column = words[place]
        if isinstance(item, dict):
            if word not in item:
                near = difflib.get_close_matches(word.lower(), item, 1)
                return "here stands %s, not `%s`" % (", ".join("`%s`" % it for it in item), word), column, len(word), \
                    "write " + (near[0] if near else next(iter(item)))
            form[:0] = item[word]
        elif item.what == "the command block" and re.fullmatch(r"[0-9a-fA-F]{1,2}", word) and place + 1 < len(words) \
                and re.fullmatch(r"[0-9a-fA-F]{1,2}", words[place + 1][0]):
            stop = place
            while stop < len(words) and re.fullmatch(r"[0-9a-fA-F]{1,2}", words[stop][0]):
                stop += 1
            several = [it for it, _ in words[place:stop]]
            length = words[stop - 1][1] + len(words[stop - 1][0]) - column
            return "a command block is one word of hexadecimal digits; here it is %d" % len(several), column, length, \
                "write " + "".join(it.rjust(2, "0") for it in several).lower()
        else:
            found = item.check(word)
            if found:
                return found[0], column, len(word), found[1]
        place += 1
    if place < len(words):
        word, column = words[place]
        what = "a comment is a line of its own" if word.startswith("#") else "as in: " + example
        return "nothing may follow here; the line is whole" if not word.startswith("#") else "a comment cannot follow on a line", \
            column, len(line) - column + 1, what
    return None


def scenario_refusal(name, data, line, reason, said):
    """Why the program refuses a scenario at this line for this reason."""
    raw, has_feed = text_line(data, line)
    shown = plain(raw)
    lines = data.split(b"\n")
    if line == 0:
        return Refusal(name, 0, "the text has %s bytes, more than 4,194,304" % format(len(data), ","), said=said)
    if line > len([it for it in lines]) or line == len(lines) and not raw:
        return Refusal(name, line, "the text is over, and has no line `end`", None, 1, "end it with the line: end", None, said)
    found = of_bytes(name, line, raw, has_feed, said, "a scenario") if reason in (1, 2) else None
    if found:
        return found
    before = [plain(it) for it in lines[: line - 1] if it.strip() and not it.startswith(b"#")]
    version = 2 if before and before[0] == "scsi 2" else 1
    kind = shown.split(" ")[0] if shown else ""
    if reason in (2, 4):
        form = of_form(shown, version) if shown.strip() else None
        if form:
            return Refusal(name, line, form[0], form[1], form[2], form[3], shown, said)
    if reason == 3:
        if not before:
            return Refusal(name, line, "the first line is the version", 1, len(shown), "write before it: scsi 1", shown, said)
        if before[-1] == "end" or "end" in before:
            return Refusal(name, line, "nothing but comments and empty lines may follow `end`", 1, len(shown), None, shown, said)
        last = before[-1].split(" ")[0]
        if kind in ORDER and last in ORDER:
            return Refusal(name, line, "a line `%s` comes before a line `%s`; the kinds stand in this order: %s" % (
                kind, last, ", ".join(ORDER)), 1, len(kind), "move it up", shown, said)
    words = shown.split(" ")
    if reason == 5:
        what = {"unit": "this unit", "fill": "this block"}.get(kind, "device %s" % (words[1] if len(words) > 1 else ""))
        return Refusal(name, line, "%s stood in a line before" % what, len(kind) + 2, len(words[1]) if len(words) > 1 else 1, None, shown, said)
    if reason == 6:
        return Refusal(name, line, undeclared(words, before), len(kind) + 2, len(words[1]) if len(words) > 1 else 1, None, shown, said)
    if reason == 7:
        if kind == "fill":
            return Refusal(name, line, "the bytes are not one block of the unit, or the block is not in it", None, 1, None, shown, said)
        return Refusal(name, line, "`out` stands exactly where a write needs bytes, and then `out hex` has as many as it needs: blocks times "
                       "the size of a block", None, 1, "a read or a command without data has `none`", shown, said)
    if reason == 8:
        return Refusal(name, line, "too many: at most 4096 commands, 64 faults, 64 aborts and resets together, 65,536 bytes for a command and "
                       "1,048,576 in all", None, 1, None, shown, said)
    return Refusal(name, line, REASONS.get(reason, "refused"), None, 1, None, shown, said)


def undeclared(words, before):
    kinds = {}
    for line in before:
        it = line.split(" ")
        if it[0] in ("initiator", "target") and len(it) > 1:
            kinds[it[1]] = it[0]
    kind = words[0]
    if kind in ("cmd", "abort") and len(words) > 2:
        if kinds.get(words[1]) != "initiator":
            return "device %s is no initiator that was declared" % words[1]
        if kinds.get(words[2]) == "initiator":
            return "device %s is an initiator; here stands a target" % words[2]
    if kind in ("unit", "fill") and len(words) > 1 and kinds.get(words[1]) != "target":
        return "device %s is no target that was declared" % words[1]
    if kind == "fill":
        return "this unit was not declared"
    return "device %s was not declared" % (words[1] if len(words) > 1 else "")


def trace_refusal(name, data, line, said):
    """Why the program refuses a trace at this line."""
    lines = data.split(b"\n")
    raw, has_feed = text_line(data, line)
    shown = plain(raw)
    if line == 0:
        return Refusal(name, 0, "the text has more than 1,073,741,824 bytes", said=said)
    if line >= len(lines) and not raw or line > len(lines):
        return Refusal(name, line, "the text is over, and has no line `end T`", None, 1, "end it with the time of the last row, as: end 9080",
                       None, said)
    ended = any(it.startswith(b"end ") for it in lines[1: line - 1]) if line < 100_000 else False
    found = of_bytes(name, line, raw, has_feed, said, "a trace")
    if found:
        return found
    if line == 1:
        return Refusal(name, 1, "the first line of a trace is `trace 1`", 1, max(1, len(shown)), "write: trace 1", shown, said)
    if ended:
        return Refusal(name, line, "after the line of the end nothing follows but the line `history` of a report", 1, len(shown), None, shown, said)
    words = words_at(shown)
    if not words:
        return Refusal(name, line, "an empty line; a trace has none", None, 1, "leave it out", shown, said)
    if words[0][0].startswith("#"):
        return Refusal(name, line, "a comment; a trace has none", 1, len(shown), "leave it out", shown, said)
    if words[0][0] == "end":
        word, column = words[1] if len(words) > 1 else ("", 5)
        return Refusal(name, line, "the end is a time in ns: `end 9080`", column, max(1, len(word)), None, shown, said)
    if "," in shown or ";" in shown:
        return Refusal(name, line, "a row is `T D HHHHH`, separated by one space", 1, len(shown), "as in: 1200 7 00280", shown, said)
    time, column = words[0]
    if not re.fullmatch(r"0|[1-9][0-9]*", time):
        if re.fullmatch(r"0[0-9]+", time):
            return Refusal(name, line, "the time has zeros in front", column, len(time), "write %d" % int(time), shown, said)
        return Refusal(name, line, "the time is a whole number of ns, in decimal", column, len(time), None, shown, said)
    if int(time) >= 1 << 63:
        return Refusal(name, line, "the time is not below 2^63", column, len(time), None, shown, said)
    if len(words) < 3:
        return Refusal(name, line, "a row has three words: time, device, lines", len(shown), 1, "as in: 1200 7 00280", shown, said)
    device, column = words[1]
    if not re.fullmatch(r"[0-7]", device):
        return Refusal(name, line, "the device is one digit from 0 to 7", column, len(device), None, shown, said)
    value, column = words[2]
    if re.fullmatch(r"f[0-9]*", value) and len(value) <= 2:
        return Refusal(name, line, "a fault is on a bit from 0 to 8 (8 is parity): f0 to f8", column, len(value), None, shown, said)
    if value != value.lower() and re.fullmatch(r"[0-9a-fA-F]+", value):
        return Refusal(name, line, "hexadecimal is in lower case", column, len(value), "write " + value.lower(), shown, said)
    if re.fullmatch(r"0x[0-9a-f]+", value):
        return Refusal(name, line, "the lines have no `0x`", column, len(value), "write " + value[2:].rjust(5, "0"), shown, said)
    if re.fullmatch(r"[0-9a-f]+", value) and len(value) != 5:
        return Refusal(name, line, "the lines are five hexadecimal digits", column, len(value),
                       "write " + value.rjust(5, "0") if len(value) < 5 else None, shown, said)
    if re.fullmatch(r"[0-9a-f]{5}", value):
        if int(value, 16) > 0x3FFFF:
            return Refusal(name, line, "there are eighteen lines: at most 3ffff", column, 5, None, shown, said)
        return Refusal(name, line, "nothing may follow the lines of a row", column + 6, max(1, len(shown) - column - 5), "leave it out", shown, said)
    return Refusal(name, line, "the lines are five hexadecimal digits, or a fault f0 to f8", column, len(value), None, shown, said)


def dump_variables(data):
    """The variables of a dump: (width, name)."""
    return [(int(width), name.decode(errors="replace")) for width, name in
            re.findall(rb"\$var\s+\S+\s+(\d{1,6})\s+\S+\s+(\S+)", data[: 1 << 20])]


def dump_refusal(name, data, line, said):
    """Why the program refuses a dump at this line."""
    from .recording import line_of

    raw, _ = text_line(data, line)
    shown = plain(raw)
    names = dump_variables(data)
    if line == 0:
        return Refusal(name, 0, "the text has more than 1,073,741,824 bytes", said=said)
    wires = {line_of(it) for width, it in names if width == 1} - {None}
    if len(wires) > 6 and not any(re.fullmatch(r"d[0-7]", it) and width == 18 for width, it in names):
        return Refusal(name, 0, "this dump has the wires of a bus (%s ..), not what each device drives" % ", ".join(it for _, it in names[:6]), None, 1,
                       "who drives what is worked out by: scsiscope capture %s" % name, None, said)
    scale = re.search(r"\$timescale\s+(\d+\s*\w+)", "\n".join(plain(it) for it in data.split(b"\n")[max(0, line - 3): line + 3]))
    if scale and scale.group(1).replace(" ", "") != "1ns":
        return Refusal(name, line, "the timescale is %s; `1ns` is read" % scale.group(1), shown.find(scale.group(1)) + 1 or None,
                       len(scale.group(1)), "in Verilog: `timescale 1ns/1ns", shown, said)
    if "$timescale" not in data[: 1 << 20].decode(errors="replace"):
        return Refusal(name, line, "no $timescale; it stands exactly once, as 1 ns", None, 1, None, shown, said)
    if "$dumpoff" in shown:
        return Refusal(name, line, "$dumpoff is outside the form", shown.find("$dumpoff") + 1, 8, "dump all the time", shown, said)
    if re.match(r"[bB][01xXzZ]*[xXzZ]", shown):
        return Refusal(name, line, "a device has the value x or z", 1, len(shown.split(" ")[0]),
                       "give each register a value from time 0 on (= 0 where it is declared)", shown, said)
    bad = [(width, it) for width, it in names if re.fullmatch(r"d[0-7]", it) and width != 18]
    if bad:
        return Refusal(name, line, "%s has %d bits; a device has 18: RST, ATN, ACK, REQ, MSG, I/O, C/D, SEL, BSY, DB(P), DB(7) to DB(0)" % (
            bad[0][1], bad[0][0]), None, 1, None, shown, said)
    return Refusal(name, line, "the dump leaves the form here", None, 1, None, shown, said)


def empty_dump(name, data):
    names = [it for _, it in dump_variables(data)]
    some = ", ".join(names[:8]) + (" .." if len(names) > 8 else "")
    return Refusal(name, 0, "none of the variables d0 to d7 changes in this dump, so nothing would be judged%s" % (
        "; it has " + some if names else ""), None, 1, "unvcd reads what each device drives, as 18 bits named d0 to d7; for the wires "
                   "of a bus: scsiscope capture %s" % name)


def wrong_kind(name, kind, wanted):
    hints = {
        "scenario": "run it first: scsibus run < %s > trace" % name, "dump": "scsibus unvcd < %s gives its trace" % name,
        "gzip": "unpack it first: gunzip", "zip": "of sigrok: scsiscope capture %s" % name, "transcript": "the trace is what it was made of",
        "trace": "scsibus judge < %s judges it" % name, "short": "run without --short gives the whole report",
        "csv": "of a logic analyser: scsiscope capture %s" % name, "empty": "nothing stands in it",
    }
    return Refusal(name, 0, "%s was wanted, and this is %s" % (KINDS[wanted], KINDS[kind]), None, 1, hints.get(kind))


def refusal_of(judge, name, data, kind=None):
    """Why the program refuses a text as this kind, or None where it reads it."""
    found = kind_of(data)
    wanted = kind or (found if found in ("scenario", "trace", "dump") else None)
    if wanted is None:
        if data[:3] != b"\xef\xbb\xbf":
            return wrong_kind(name, found, "trace")
        wanted = kind_of(data[3:]) if kind_of(data[3:]) in ("scenario", "trace", "dump") else "trace"
    if wanted != found and found in ("scenario", "trace", "dump", "gzip", "zip", "empty", "transcript", "short", "csv"):
        return wrong_kind(name, found, wanted)
    if wanted == "scenario":
        status, said = judge.words(["run", "--short"], data)
        if status != 2:
            return None
        line, reason = (int(it) for it in said.split()[2:5:2])
        return scenario_refusal(name, data, line, reason, said.decode().strip())
    if wanted == "trace":
        status, said = judge.words(["judge"], data)
        if status != 7:
            return None
        return trace_refusal(name, data, int(said.split()[2]), said.decode().strip())
    status, said = judge.words(["unvcd"], data)
    if status == 10:
        return dump_refusal(name, data, int(said.split()[2]), said.decode().strip())
    if said.count(b"\n") == 2:
        return empty_dump(name, data)
    return None
