"""Files of logic analysers: which line of the bus each wire is, and what stood on the lines when.

An edge that is seen in the sample at T came after the sample before it: in (T - P, T], P being the time between two samples.
"""
import configparser
import io
import re
import zipfile
from fractions import Fraction

from .lines import DATA, DBP, name_of
from .trouble import Trouble

LINE_NAMES = ["DB0", "DB1", "DB2", "DB3", "DB4", "DB5", "DB6", "DB7", "DBP", "BSY", "SEL", "CD", "IO", "MSG", "REQ", "ACK", "ATN", "RST"]
OTHER_NAMES = {
    "BUSY": "BSY", "SELECT": "SEL", "CND": "CD", "INOUT": "IO", "MESSAGE": "MSG", "REQUEST": "REQ", "ACKNOWLEDGE": "ACK", "ATTENTION": "ATN",
    "RESET": "RST", "DP": "DBP", "P": "DBP", "PARITY": "DBP", "PAR": "DBP", "DPAR": "DBP", "DBPAR": "DBP", "DATAP": "DBP",
}
# The rules of which nothing is known without a line.
RULES_OF = {
    "DBP": "9 (in part), 17", "ATN": "24, and 9 in part", "RST": "28", "BSY": "nothing can be judged", "SEL": "nothing can be judged",
    "REQ": "14 and 17 to 26", "ACK": "18, 21 to 24", "MSG": "no phase is known", "CD": "no phase is known", "IO": "no phase is known",
}
UNITS = {"s": 10**9, "ms": 10**6, "us": 10**3, "ns": 1, "ps": Fraction(1, 10**3), "fs": Fraction(1, 10**6)}


class Recording:
    """What a capture holds: `samples`, the changes of the lines (time in ns, lines that are true), from the first on."""

    def __init__(self):
        self.samples, self.end, self.period, self.notes = [], 0, None, []
        self.names = {}

    def note(self, text):
        self.notes.append(text)

    def missing(self):
        return [name for name in LINE_NAMES if name not in self.names.values()]


def line_of(name):
    """The line that a wire's name stands for, as nBSY, BSY#, -BSY, SCSI_DB0 or D0, or None."""
    word = re.sub(r"[^A-Z0-9]", "", name.upper())
    for begin in ("", "SCSI", "S", "BUS", "N", "SCSIN", "I", "X"):
        for end in ("", "N", "L", "B"):
            if not word.startswith(begin) or not word.endswith(end) or len(begin) + len(end) >= len(word):
                continue
            core = word[len(begin): len(word) - len(end) if end else None]
            if core in LINE_NAMES:
                return core
            if core in OTHER_NAMES:
                return OTHER_NAMES[core]
            match = re.fullmatch(r"(?:DB|D|DATA|DAT)([0-7])", core)
            if match:
                return "DB" + match[1]
    return None


def given_map(text):
    """--map BSY=D9,SEL=D10: names of wires by lines, turned."""
    found = {}
    for part in (text or "").split(","):
        if not part.strip():
            continue
        line, is_pair, wire = part.partition("=")
        line = line_of(line.strip())
        if not is_pair or line is None:
            raise Trouble("--map %s: a line and a wire, as BSY=D9; the lines are %s" % (part, " ".join(LINE_NAMES)))
        found[wire.strip()] = line
    return found


def lines_of_wires(wires, given):
    """Which line each wire is: {place: line}; what was given goes before what is known by its name."""
    found = {}
    for place, wire in enumerate(wires):
        if wire in given:
            found[place] = given[wire]
    unknown = [wire for wire in given if wire not in wires]
    if unknown:
        raise Trouble("--map: this file has no wire %s; it has %s" % (unknown[0], ", ".join(wires[:40])))
    for place, wire in enumerate(wires):
        line = line_of(wire)
        if place not in found and line and line not in found.values():
            found[place] = line
    return found


def read(name, data, options):
    """The recording of a file."""
    given = given_map(options.map)
    if data[:4] == b"PK\x03\x04":
        found = read_session(data, given)
    elif data.lstrip()[:1] == b"$":
        found = read_dump(data, given)
    else:
        found = read_table(name, data, given)
    if not found.names:
        wires = ", ".join(found.wires[:20]) + (" .." if len(found.wires) > 20 else "")
        hint = ""
        if sum(1 for wire in found.wires if re.fullmatch(r"d[0-7]", wire)) and data.lstrip()[:1] == b"$":
            hint = "; d0 to d7 of 18 bits are what devices drive: scsibus unvcd reads them"
        raise Trouble("%s: none of the 18 lines of the bus is in this file (it has %s); name them by --map BSY=%s,..%s" % (
            name, wires or "no wire", found.wires[0] if found.wires else "WIRE", hint))
    missing = found.missing()
    need = [line for line in ("BSY", "SEL", "CD", "IO", "MSG", "REQ", "ACK") if line in missing]
    if need:
        raise Trouble("%s: %s not in this file; without %s nothing can be said of who drives what (the wires: %s; --map names them)" % (
            name, " ".join(need) + (" is" if len(need) == 1 else " are"), "it" if len(need) == 1 else "them", ", ".join(found.wires[:24])))
    found.note("%d of 18 lines found" % (18 - len(missing)))
    for line in missing:
        found.note("no %s: taken as %s; rules that so say nothing: %s" % (
            line, "the parity that the byte wants" if line == "DBP" else "never true", RULES_OF.get(line, "of the data lines: 6, 9, 17, 19, 20, 25, 26")))
    turn_levels(found, options)
    if options.deglitch:
        deglitch(found)
    if found.samples:
        found.end = max(found.end, found.samples[-1][0])
    return found


def turn_levels(found, options):
    """Lines that are true, of levels: active low or high."""
    mask = sum(1 << LINE_NAMES.index(line) for line in found.names.values())
    if options.high or options.low:
        is_low = not options.high
    else:
        # A bus rests more than half of the time with most lines false, and BSY, REQ, ACK and RST are never all true.
        control = mask & ~DATA
        high = sum(bin(lines & control).count("1") for _, lines in found.samples)
        is_low = 2 * high > bin(control).count("1") * len(found.samples)
        found.note("lines taken as active %s (--low, --high)" % ("low" if is_low else "high"))
    if is_low:
        found.samples = [(time, ~lines & mask) for time, lines in found.samples]
    changes = []
    for time, lines in found.samples:
        if not changes or lines != changes[-1][1]:
            changes.append((time, lines))
    found.samples = changes


def glitches(found):
    """How many levels of one line stand for one sample alone, and the changes of the lines without them."""
    period, dropped, out = found.period or 1, 0, []
    samples = list(found.samples)
    for bit in range(18):
        line = 1 << bit
        place = 1
        while place < len(samples) - 1:
            if (samples[place][1] ^ samples[place - 1][1]) & line:
                stop = place + 1
                while stop < len(samples) and not (samples[stop][1] ^ samples[place][1]) & line:
                    stop += 1
                if stop < len(samples) and samples[stop][0] - samples[place][0] <= period:
                    for inside in range(place, stop):
                        samples[inside] = (samples[inside][0], samples[inside][1] ^ line)
                    dropped += 1
            place += 1
    for time, lines in samples:
        if not out or lines != out[-1][1]:
            out.append((time, lines))
    return dropped, out


def deglitch(found):
    """Drops levels of one line that stand for one sample alone."""
    dropped, found.samples = glitches(found)
    found.note("%d glitch%s of one sample dropped" % (dropped, "" if dropped == 1 else "es"))


# Dumps.

def read_dump(data, given):
    """A value change dump: wires of one bit, or vectors, of any timescale."""
    found = Recording()
    words = data.decode("ascii", "replace").split()
    scale, time, lines, wires, codes = Fraction(1), 0, 0, [], {}
    place, size = 0, len(words)
    while place < size:
        word = words[place]
        if word in ("$date", "$version", "$comment", "$timescale", "$scope", "$upscope", "$var", "$enddefinitions"):
            stop = words.index("$end", place)
            inside = words[place + 1: stop]
            if word == "$timescale":
                match = re.fullmatch(r"(\d+)(s|ms|us|ns|ps|fs)", "".join(inside))
                if not match:
                    raise Trouble("timescale %s: it is a number and s, ms, us, ns, ps or fs" % " ".join(inside))
                scale = int(match[1]) * Fraction(UNITS[match[2]])
            elif word == "$comment":
                match = re.search(r"at (\d+(?:\.\d+)?) ?([kMG]?Hz)", " ".join(inside))
                if match:
                    found.period = period_of(match[1], match[2])
            elif word == "$var" and len(inside) >= 4:
                wires.append((int(inside[1]), inside[2], "".join(inside[3:])))
            place = stop + 1
            if word == "$enddefinitions":
                break
            continue
        place += 1
    plain = [(width, code, name) for width, code, name in wires]
    found.wires = [name for _, _, name in plain]
    singles = [(code, name) for width, code, name in plain if width == 1]
    by_place = lines_of_wires([name for _, name in singles], {wire: line for wire, line in given.items() if wire in [it for _, it in singles]})
    for number, line in by_place.items():
        codes.setdefault(singles[number][0], []).append((0, LINE_NAMES.index(line)))
        found.names[singles[number][1]] = line
    for width, code, name in plain:
        base = re.sub(r"\[.*", "", name)
        word = re.sub(r"[^A-Z]", "", base.upper())
        if width in (8, 9) and re.sub(r"^(SCSI|N|S)", "", word) in ("DB", "D", "DATA", "DAT") and "DB0" not in found.names.values():
            codes.setdefault(code, [])
            codes[code] += [(bit, bit) for bit in range(width)]
            for bit in range(width):
                found.names["%s %d" % (name, bit)] = LINE_NAMES[bit]
    step_times, last, seen = set(), None, False
    for word in words[place:]:
        first = word[0]
        if first == "#":
            if seen:
                _put(found.samples, ns_of(time, scale), lines)
                if last is not None and time - last > 0:
                    step_times.add(time - last)
                last, seen = time, False
            time = int(word[1:])
        elif first in "01xXzZ" and word[1:] in codes:
            for _, bit in codes[word[1:]]:
                # Nobody drives it: the terminator pulls it up.
                lines = lines | 1 << bit if first != "0" else lines & ~(1 << bit)
            seen = True
        elif first in "bB":
            vector = word[1:]
        elif word in codes and vector is not None:
            digits = vector.rjust(32, "0" if vector[:1] in "01" else vector[:1])
            for inside, bit in codes[word]:
                lines = lines | 1 << bit if digits[-1 - inside] != "0" else lines & ~(1 << bit)
            seen, vector = True, None
    if seen:
        _put(found.samples, ns_of(time, scale), lines)
    found.end = ns_of(time, scale)
    if found.period is None and scale > 1:
        found.period = int(scale)
    return found


def ns_of(time, scale):
    """A time in ns, rounded up: the edge came by then."""
    value = time * scale
    return -(-value.numerator // value.denominator) if isinstance(value, Fraction) else value


def _put(samples, time, lines):
    if samples and samples[-1][0] == time:
        samples[-1] = (time, lines)
    elif not samples or samples[-1][1] != lines:
        samples.append((time, lines))


def period_of(number, unit):
    """The time between two samples in ns, by a rate."""
    rate = Fraction(number) * {"Hz": 1, "kHz": 10**3, "MHz": 10**6, "GHz": 10**9}[unit]
    return max(1, round(Fraction(10**9) / rate))


# Tables.

def read_table(name, data, given):
    """Comma separated values: of Saleae, with a time in each line, or of sigrok, a line a sample."""
    found = Recording()
    text = io.StringIO(data.decode("utf-8", "replace"))
    header, rate, by_comment = None, None, None
    for line in text:
        line = line.strip()
        if line.startswith((";", "#")):
            match = re.search(r"[Ss]amplerate: *(\d+(?:\.\d+)?) *([kMG]?Hz)", line)
            if match:
                rate = period_of(match[1], match[2])
            match = re.search(r"[Cc]hannels \(\d+/\d+\): *(.*)", line)
            if match:
                by_comment = [it.strip() for it in match[1].split(",")]
            continue
        if line:
            header = [it.strip().strip('"') for it in line.split(",")]
            break
    if not header or len(header) < 2:
        raise Trouble("%s: no dump (VCD), no sigrok session (.sr), and no table of comma separated values" % name)
    first = header[0].lower()
    has_time = "time" in first
    unit = 10**9
    match = re.search(r"\[(s|ms|us|ns)\]|\((s|ms|us|ns)\)", first)
    if match:
        unit = UNITS[match[1] or match[2]]
    rows = text
    wires = header[1:] if has_time else header
    if by_comment and len(by_comment) == len(wires) and not any(line_of(it) for it in wires):
        wires = by_comment
    found.wires = wires
    by_place = lines_of_wires(wires, given)
    found.names = {wires[place]: line for place, line in by_place.items()}
    bits = [(place + has_time, 1 << LINE_NAMES.index(line)) for place, line in by_place.items()]
    period = rate if not has_time else None
    if not has_time and rate is None:
        raise Trouble("%s: neither a column of times nor a `; Samplerate:` line: at which times were these samples taken?" % name)
    origin, number, time = None, 0, 0
    for line in rows:
        cells = line.split(",")
        if len(cells) < len(wires) + has_time:
            continue
        if has_time:
            # Exactly, as decimals: seconds with nine places are more than a float holds.
            value = Fraction(cells[0].strip()) * unit
            origin = value if origin is None else origin
            time = round(value - origin)
        else:
            time = number * period
        lines = 0
        for place, bit in bits:
            if cells[place].strip() == "1":
                lines |= bit
        _put(found.samples, time, lines)
        number += 1
    found.end, found.period = time, period
    if has_time and found.period is None:
        steps = [two[0] - one[0] for one, two in zip(found.samples, found.samples[1:])]
        found.period = _common(steps)
    return found


def _common(steps):
    """The time between two samples that these steps are multiples of."""
    from math import gcd

    found = 0
    for step in steps:
        found = gcd(found, step)
    return max(1, found) if found else None


def read_session(data, given):
    """A session of sigrok (.sr): a zip of metadata and samples."""
    found = Recording()
    try:
        session = zipfile.ZipFile(io.BytesIO(data))
        meta = configparser.ConfigParser(strict=False)
        meta.read_string(session.read("metadata").decode())
        section = next(meta[it] for it in meta.sections() if it.startswith("device"))
        match = re.fullmatch(r"(\d+(?:\.\d+)?) *([kMG]?Hz)", section["samplerate"])
        found.period = period_of(match[1], match[2])
        size = int(section["unitsize"])
        probes = {int(key[5:]): value for key, value in section.items() if re.fullmatch(r"probe\d+", key)}
        wires = [probes.get(number, "") for number in range(1, max(probes) + 1)]
        base = section.get("capturefile", "logic-1")
        parts = sorted((it for it in session.namelist() if re.fullmatch(re.escape(base) + r"(-\d+)?", it)),
                       key=lambda it: int((re.search(r"-(\d+)$", it[len(base):]) or [0, 0])[1]))
        raw = b"".join(session.read(it) for it in parts)
    except (KeyError, StopIteration, zipfile.BadZipFile, AttributeError, configparser.Error, ValueError, TypeError):
        raise Trouble("this zip file is no session of sigrok with logic samples") from None
    found.wires = [wire for wire in wires if wire]
    by_place = lines_of_wires(wires, given)
    found.names = {wires[place]: line for place, line in by_place.items()}
    bits = [(place, 1 << LINE_NAMES.index(line)) for place, line in by_place.items()]
    known, last = {}, None
    for number in range(len(raw) // size):
        part = raw[number * size: number * size + size]
        if part == last:
            continue
        last = part
        if part not in known:
            value = int.from_bytes(part, "little")
            known[part] = sum(bit for place, bit in bits if value >> place & 1)
        _put(found.samples, number * found.period, known[part])
    found.end = len(raw) // size * found.period
    return found
