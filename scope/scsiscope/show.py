"""The transcript of a trace in words, with times.

The items are those of the word `transcript`; their times are found beside them in the rows.
"""
from .gauge import Progress, walk
from .lines import CD, IDS, IO, MSG, PHASE
from .names import STATUS, command_words, data_words, dump_lines, message_words, rate
from .rules import MORE, UNKNOWN, Bus, message_of
from .style import big, count, ns, paint


class Times:
    """What crossed, with its times: (kind, bytes or None, first, last) in the order of the rows."""

    def __init__(self, trace, bus):
        self.trace, self.bus = trace, bus
        self.items = []
        self.connection = None
        self.phase, self.began = 0, 0
        self.data = bytearray()
        self.first = self.last = None
        self.agreement = (0, 0)

    def after(self, place):
        bus, time = self.bus, self.trace.times[place]
        connection, phase = bus.connection, bus.lines & PHASE
        if bus.receiver is not None:
            self.byte(phase, bus.lines & IDS, time)
            agreement = (bus.heard.period, bus.heard.offset)
            if agreement != self.agreement and self.connection:
                self.agreement = agreement
                self.items.append(("agreement", (*agreement, *self.connection[:2]), time, time))
        if connection is not self.connection or phase != self.phase:
            if self.connection:
                self.leave(time)
            if connection is None and self.connection:
                self.items.append(("free", None, time, time))
            if connection is not None and self.connection is None:
                self.items.append(("connect", None, time, time))
                self.agreement = (bus.heard.period, bus.heard.offset)
            self.connection, self.phase, self.began = connection, phase, time
            self.data.clear()
            self.first = None

    def byte(self, phase, byte, time):
        if self.first is None:
            self.first = time
        self.last = time
        if phase == CD | IO:
            self.items.append(("status", bytes((byte,)), time, time))
        elif phase & MSG and phase & CD:
            self.data.append(byte)
            got = message_of(bytes(self.data), not phase & IO)
            if got != MORE:
                kind = "in" if phase & IO else "out"
                self.items.append((kind if got != UNKNOWN else "unknown " + kind, bytes(self.data), self.first, time))
                self.data.clear()
                self.first = None
        elif phase == CD:
            self.data.append(byte)

    def leave(self, time):
        if self.phase == CD and self.data:
            self.items.append(("command", bytes(self.data), self.first, self.last))
        elif not self.phase & (CD | MSG) and self.began < time:
            self.items.append(("datain" if self.phase & IO else "dataout", None, self.began, time))


def times_of(trace, rows, stages=None):
    """The times of all that crosses in the first rows; `stages` is told what stands after each."""
    bus = Bus()
    times = Times(trace, bus)

    def after(place):
        times.after(place)
        if stages:
            stages.after(bus, trace.times[place])

    walk(bus, trace, 0, rows, None, Progress("stats" if stages else "show", rows), after)
    return times.items


class Item:
    """One line of the transcript, with its times."""

    __slots__ = ("time", "last", "kind", "words", "data", "at", "name", "is_void")

    def __init__(self, kind, time=None, last=None, words="", data=b"", at=0, name="", is_void=False):
        self.kind, self.time, self.last, self.words = kind, time, last, words
        self.data, self.at, self.name, self.is_void = data, at, name, is_void

    def json(self):
        found = {"kind": self.kind, "time": self.time, "words": self.words}
        if self.last is not None and self.last != self.time:
            found["last"] = self.last
        if self.data:
            found["bytes"] = self.data.hex()
        if self.kind.startswith("data"):
            found["at"] = self.at
        if self.name:
            found["name"] = self.name
        if self.is_void:
            found["void"] = True
        return found


def items_of(judge, trace, rows, stages=None):
    """The items of the first rows, which are lawful."""
    text = trace.text if rows == len(trace) else trace.cut(rows)
    status, said = judge.words(["transcript"], text)
    times = times_of(trace, rows, stages)
    place = 0
    commands = {}
    name = ""
    for line in said.decode().split("\n")[1:-2]:
        words = line.split(" ")
        kind = words[0]
        if kind == "connect":
            time, name = int(words[1]), words[2]
            # Times of a connection begin with it.
            while place < len(times) and not (times[place][0] == "connect" and times[place][2] == time):
                place += 1
            place += 1
            initiator, target, unit, tag, number = name.split(".")
            how = "SELECTION" if words[3] == "first" else "RESELECTION"
            arrow = "->" if words[3] == "first" else "<-"
            told = "%s initiator %s %s target %s" % (how, initiator, arrow, target)
            told += "" if unit == "-" else ", unit %s" % unit
            told += "" if tag == "-" else ", tag %s" % tag
            told += ", process %s" % number if number != "0" else ""
            yield Item("connect", time, words=told, name=name)
            continue
        if kind == "unanswered":
            yield Item(kind, int(words[1]), words="NO ANSWER device %s called device %s" % (words[2], words[3]))
            continue
        if kind == "free":
            yield from left_over(times, place)
            yield Item(kind, int(words[1]), words="BUS FREE")
            continue
        if kind in ("out", "in", "command", "status", "datain", "dataout"):
            data = bytes.fromhex(words[-1])
            time = last = None
            search = place
            skipped = []
            while search < len(times) and times[search][0] not in ("free", "connect"):
                found, crossed, first, end = times[search]
                if found == kind and (crossed is None or crossed == data):
                    time, last, place = first, end, search + 1
                    yield from (void_item(it) for it in skipped)
                    break
                skipped.append(times[search])
                search += 1
            at = int(words[1]) if kind.startswith("data") else 0
            item = Item(kind, time, last, data=data, at=at)
            if kind == "command":
                commands[name] = data
                item.words = command_words(data)
            elif kind == "status":
                item.words = STATUS.get(data[0], "unknown status")
            elif kind.startswith("data"):
                item.words = data_words(commands.get(name), data) if kind == "datain" and at == 0 else ""
            else:
                item.words = message_words(data)
            yield item
            while place < len(times) and times[place][0] == "agreement":
                factor, offset, initiator, target = times[place][1]
                what = "synchronous, period %d ns (%s), offset %d" % (4 * factor, rate(4 * factor), offset) if offset else "asynchronous"
                yield Item("agreement", times[place][2], words="AGREEMENT of initiator %d and target %d: %s" % (initiator, target, what))
                place += 1
            continue
        if kind == "reset":
            yield Item(kind, None, words="RESET by device %s" % words[1])
        else:
            told = {"arrive": "the command has arrived", "ready": "the command is done", "end": "the process ends, status %s" % words[-1],
                    "lost": "the process is lost: an unexpected BUS FREE",
                    "abort": "ABORT of initiator %s at unit %s of target %s: %s" % tuple(
                        words[1:4] + [" ".join(words[4:])]) if kind == "abort" else ""}.get(kind, line)
            yield Item(kind, None, words=told, name=words[1] if kind != "abort" else "")


def left_over(times, place):
    """What crossed in a connection and has no line, since it is void or was begun anew."""
    while place < len(times) and times[place][0] not in ("free", "connect"):
        if times[place][0] in ("out", "in"):
            yield void_item(times[place])
        place += 1


def void_item(it):
    kind, data, first, last = it
    words = message_words(data) if kind in ("in", "out") and data else ""
    return Item(kind, first, last, words=words, data=data if isinstance(data, bytes) else b"", is_void=True)


LABELS = {"out": "message out", "in": "message in", "command": "command", "status": "status", "datain": "data in", "dataout": "data out",
          "unknown in": "message in", "unknown out": "message out"}


def lines_of(item, most):
    """An item as lines."""
    time = "" if item.time is None else ns(item.time)
    if item.kind in ("connect", "unanswered"):
        return ["", "%12s  %s" % (time, paint(item.words, "bold"))]
    if item.kind in ("free", "agreement", "reset"):
        return ["%12s  %s" % (time, paint(item.words, "bold"))]
    if item.kind in LABELS:
        void = paint("  (void: taken back, or begun anew)", "dim") if item.is_void else ""
        if item.kind.startswith("data"):
            took = item.last - item.time if item.time is not None and item.last is not None else 0
            told = "%s from %d" % (count(len(item.data), "byte"), item.at) if not item.is_void else ""
            if took and item.data:
                told += ", %d ns" % took
            lines = ["%12s    %-12s %s" % (time, LABELS[item.kind], told + void)]
            if item.words:
                lines.append("%12s    %-12s %s" % ("", "", item.words))
            return lines + ["%12s      %s" % ("", line) for line in dump_lines(item.data, item.at, most)]
        return ["%12s    %-12s %-29s %s%s" % (time, LABELS[item.kind], item.data.hex(" "), item.words, void)]
    return ["%12s    %s" % ("", paint("* " + item.words, "dim"))]
