"""Traces as they are read: texts of rows, reports, dumps."""
import gzip
import sys
from array import array

from .judge import Refused
from .rules import Bus
from .trouble import Trouble

HEAD = b"trace 1\n"
SCENARIO_KINDS = {b"scsi", b"initiator", b"target", b"unit", b"fill", b"cmd", b"abort", b"reset", b"fault", b"end"}
KINDS = {
    "trace": "a trace", "scenario": "a scenario", "dump": "a value change dump", "transcript": "a transcript", "short": "a short report",
    "gzip": "a gzip file", "zip": "a zip file (as sigrok's .sr)", "csv": "a table of comma separated values", "empty": "empty",
    "binary": "a binary file", "unknown": "no text that scsibus reads",
}


def kind_of(data):
    """What kind of file this is, by its first bytes."""
    if not data.strip():
        return "empty"
    if data[:2] == b"\x1f\x8b":
        return "gzip"
    if data[:4] == b"PK\x03\x04":
        return "zip"
    head = data[:4096].lstrip()
    first = head.split(b"\n", 1)[0].strip()
    word = first.split(b" ")[0]
    if word == b"trace":
        return "trace"
    if word == b"transcript":
        return "transcript"
    if word == b"short":
        return "short"
    if head[:1] == b"$":
        return "dump"
    for line in head.split(b"\n"):
        if line.startswith(b"#") or not line.strip():
            continue
        if line.split()[0].lower() in SCENARIO_KINDS:
            return "scenario"
        break
    if b"\0" in head:
        return "binary"
    if first.count(b",") >= 2:
        return "csv"
    return "unknown"


def read_file(name):
    """The bytes of a file, or of standard input for `-`; a gzip file is unpacked."""
    try:
        if name == "-":
            data = sys.stdin.buffer.read()
        else:
            with open(name, "rb") as source:
                data = source.read()
        return gzip.decompress(data) if data[:2] == b"\x1f\x8b" else data
    except (OSError, EOFError) as error:
        raise Trouble("%s: %s" % (name, getattr(error, "strerror", None) or error)) from None


class Trace:
    """The rows of a trace, its end, and its text. A value below zero is a fault on the bit -1 - value."""

    def __init__(self, text, name="-"):
        self.name = name
        self.text = text
        self.times, self.devices, self.values = array("q"), bytearray(), array("i")
        self.end = 0
        self._starts = {0: len(HEAD)}
        times, devices, values = self.times.append, self.devices.append, self.values.append
        place, last = len(HEAD), len(text)
        # Piece by piece, so that the lines of a long trace never stand all at once.
        while place < last:
            stop = min(last, place + (1 << 24))
            if stop < last:
                stop = text.index(b"\n", stop) + 1
            for line in text[place:stop].split(b"\n"):
                if line[:4] == b"end ":
                    self.end = int(line[4:])
                    place = last
                    break
                if line:
                    time, device, value = line.split(b" ")
                    times(int(time))
                    devices(int(device))
                    values(int(value, 16) if value[0] != 102 or len(value) != 2 else -1 - int(value[1:]))
            place = max(place, stop)

    def __len__(self):
        return len(self.values)

    def row(self, place):
        """A row, (time, device, value)."""
        return self.times[place], self.devices[place], self.values[place]

    def rows(self, start, stop):
        return [self.row(place) for place in range(start, min(stop, len(self)))]

    def start_of(self, count):
        """Where the row after the first `count` begins in the text."""
        known = max(row for row in self._starts if row <= count)
        place, missing = self._starts[known], count - known
        while missing:
            piece = self.text[place: place + (1 << 20)]
            lines = piece.count(b"\n")
            if lines <= missing:
                place, missing = place + len(piece), missing - lines
                continue
            for _ in range(missing):
                place = self.text.index(b"\n", place) + 1
            missing = 0
        self._starts[count] = place
        return place

    def prefix(self, count):
        """The text of the first `count` rows, without an end."""
        return self.text[: self.start_of(count)]

    def cut(self, count):
        """The text of the first `count` rows, ended at the time of the last."""
        return self.prefix(count) + b"end %d\n" % (self.times[count - 1] if count else 0)

    def without_rest(self):
        """The text of the trace alone, where it is a report."""
        start = self.start_of(len(self))
        return self.text[: self.text.index(b"\n", start) + 1]


def read_trace(judge, name):
    """The trace of a file (a trace, a report, or a dump of the devices), and its verdict by the judge."""
    from .why import refusal_of

    data = read_file(name)
    kind = kind_of(data)
    if kind == "dump":
        status, said = judge.words(["unvcd"], data)
        if status:
            raise Trouble(refusal_of(judge, name, data, "dump").text())
        if said.count(b"\n") == 2:
            raise Trouble(refusal_of(judge, name, data, "dump").text())
        data = said
    elif kind != "trace":
        raise Trouble(refusal_of(judge, name, data, "trace").text())
    try:
        verdict = judge.verdict(data)
    except Refused:
        raise Trouble(refusal_of(judge, name, data, "trace").text()) from None
    return Trace(data, name), verdict


def bus_after(trace, count):
    """What stands on the bus after the first `count` rows."""
    from .gauge import walk

    bus = Bus()
    walk(bus, trace, 0, count)
    return bus


def step(bus, row):
    """Goes on by one row, (time, device, value)."""
    time, device, value = row
    if value < 0:
        bus.step(time, device, 0, -1 - value)
    else:
        bus.step(time, device, value)


def findings(bus, row):
    """The sentences that a row breaks, and those of a time that it keeps."""
    time, device, value = row
    return bus.findings(time, device, 0, -1 - value) if value < 0 else bus.findings(time, device, value)
