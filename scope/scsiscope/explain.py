"""A broken trace in words."""
from . import draw, search
from .lines import change_words, drives_words
from .rules import SENTENCES, Bus, lowest
from .style import count, fold, ns, paint
from .trace import bus_after, findings, step

# What such a break often comes from.
HINTS = {
    1: "the rows of several devices were put together out of order: sort them by time, and keep the order of cause and effect within one.",
    2: "a row is printed though the device drives the same lines as before: print rows on a change alone.",
    3: "a line is left driven after BUS FREE or after an arbitration: release all lines at once where a connection ends. A selection "
       "without arbitration (SCSI-1) breaks this rule, too.",
    4: "BUS FREE was not watched for long enough (1200 ns), or the arbitration was joined over 1800 ns after its first entry.",
    5: "SEL was raised without waiting the arbitration delay of 2400 ns after the device's own BSY.",
    6: "the winner did not look at all IDs above its own, or changed other lines with SEL.",
    7: "a loser of the arbitration did not release BSY and its ID within 800 ns of SEL.",
    8: "the winner went on within 1200 ns of its SEL.",
    9: "the selection has not both IDs, has the wrong parity, or lacks ATN (as hosts of SCSI-1 do); or BSY is released sooner than 90 ns.",
    10: "the target answers within 400 ns, or to another's ID, or while it still drives lines.",
    11: "SEL is released sooner than 90 ns after the answer.",
    12: "the selection time-out is below 250 ms, or all lines are dropped at once.",
    13: "the hand-over of BSY in a reselection: the target raises BSY after the initiator's, and only then releases SEL.",
    14: "REQ comes sooner than 400 ns after the phase lines, the phase lines change with REQ or ACK true, or a wrong device drives a line.",
    15: "the wrong end drives the data bus: I/O says the other way.",
    16: "the target turns the data bus round too fast (800 ns), or lets it go too late (45 ns).",
    17: "DB(P) is wrong: of the nine lines an odd number is true. Some old devices drive no parity.",
    18: "a strobe is ended by a timer and not by the other end: REQ and ACK are interlocked.",
    19: "the byte is put on the bus in the same instruction as the strobe: 55 ns of set-up are wanted.",
    20: "the byte changes while the other end may still read it.",
    21: "more REQ pulses than the agreed offset are unanswered, or ACK pulses answer none.",
    22: "the period, a pulse, the set-up or the hold is shorter than the agreement says.",
    23: "the phase is left before all ACK pulses have come.",
    24: "ATN falls with ACK true or too late before the last ACK, or the target does not go to MESSAGE OUT.",
    25: "no IDENTIFY comes first, a message is unknown or half sent, or data move while a synchronous transfer request is unanswered.",
    26: "the command block has another length than its group says, or data come before it is whole.",
    27: "BSY is dropped with REQ or ACK true, or other lines are raised with it.",
    28: "a reset shorter than 25 us, or lines kept for more than 800 ns under it.",
}


class Explanation:
    """All that is told of a broken row."""

    def __init__(self, judge, trace, verdict):
        self.trace, (row, self.rule) = trace, verdict
        self.place = row - 1
        self.at_end = self.place == len(trace)
        bus = bus_after(trace, self.place)
        self.phase = bus.stage()
        self.open_offer = bus.heard.offer
        if self.at_end:
            self.time, self.device, self.value = trace.end, None, None
            self.role, self.words = "", "the trace ends"
            self.all_broken = bus.findings_at_end(trace.end)[0]
        else:
            self.time, self.device, self.value = trace.row(self.place)
            own = bus.drives[self.device]
            self.words = ("a fault on bit %d of a sample" % (-1 - self.value) if self.value < 0 else change_words(own, self.value))
            self.all_broken = findings(bus, trace.row(self.place))[0]
            self.role = self.role_in(bus)
        # The judge's word is the last: of sentences of another rule nothing is told.
        self.broken = [finding for finding in self.all_broken if finding.rule == self.rule]
        if lowest(self.all_broken) != self.rule:
            self.broken = []
        self.context = self.contexts(bus)
        self.times = search.right_times(judge, trace, self.place, bus, self.all_broken) if self.broken else None
        self.changes = [] if self.times and self.times.first is not None else search.changes(judge, trace, self.place, self.all_broken)

    def role_in(self, bus):
        role = bus.role_of(self.device)
        return role

    def contexts(self, bus):
        """What stands that the drawing does not show, in sentences."""
        told = []
        if self.rule in (21, 22, 23) and bus.connection:
            heard = bus.heard
            told.append("The agreement: period %d ns (factor %d), offset %d; so far in the phase REQ rose %s, ACK %s." % (
                4 * heard.period, heard.period, heard.offset, count(bus.req, "time"), count(bus.ack, "time")))
        if self.rule == 18 and bus.connection and bus.lines & (1 << 11 | 1 << 13) == 0:
            told.append("No agreement with an offset stands between initiator %d and target %d: the DATA phase is asynchronous." % (
                bus.connection.initiator, bus.connection.target))
        if bus.heard.offer and self.rule == 25:
            told.append("A synchronous data transfer request of the %s is open: the other end has neither sent one nor rejected it." % (
                bus.heard.offer))
        if self.rule == 25 and bus.half:
            told.append("Bytes of the message so far: %s." % bus.half.hex(" "))
        if self.rule == 26:
            told.append("Bytes of COMMAND since the pointer was restored: %d%s." % (
                bus.heard.count, ", the first %02x" % bus.heard.first if bus.heard.count else ""))
        if any(finding.sentence == "24c" for finding in self.broken):
            told.append("ATN has been true since %s ns." % ns(bus.since[16]))
        for finding in self.broken:
            if finding.sentence in ("3b", "7b", "15c", "16b", "28c"):
                told += ["Device %d%s still drives %s." % (
                    device, " (%s)" % bus.role_of(device) if bus.role_of(device) else "", drives_words(driven))
                    for device, driven in enumerate(bus.drives) if driven and self.is_late(bus, finding.sentence, device)]
        return told

    def is_late(self, bus, sentence, device):
        if sentence == "7b":
            return device != bus.call.caller
        if sentence == "15c":
            return device == bus.connection.initiator
        if sentence == "16b":
            return device == bus.connection.target
        return bus.drives[device] & ~(1 << 17) != 0

    def rows(self, before=8, after=2):
        """The rows around: (row, time, device, role, words, whether it is the broken one)."""
        first = max(0, self.place - before)
        bus = bus_after(self.trace, first)
        told = []
        for row in range(first, min(len(self.trace), self.place + after + 1)):
            time, device, value = self.trace.row(row)
            role = bus.role_of(device)
            words = "fault on bit %d" % (-1 - value) if value < 0 else change_words(bus.drives[device], value)
            step(bus, self.trace.row(row))
            told.append((row, time, device, role or bus.role_of(device), words, row == self.place))
        return told

    def json(self):
        found = {
            "file": self.trace.name, "verdict": "broken", "row": self.place + 1, "line": self.place + 2, "rule": self.rule,
            "time": self.time, "device": self.device, "role": self.role or None, "phase": self.phase, "change": self.words,
            "sentences": [
                {"sentence": f.sentence, "clause": SENTENCES[f.sentence].clause, "text": SENTENCES[f.sentence].text,
                 "since": f.since, "measured": None if f.since is None else self.time - f.since,
                 "at_most" if f.is_latest else "at_least": f.delay if f.delay else None}
                for f in self.broken],
            "right_from": self.times.first if self.times else None,
            "right_to": self.times.last if self.times else None,
            "changes": [{"words": it.words, "first_row": it.start + 1, "rows": [list(row) for row in it.rows], "replaces": it.stop - it.start,
                         "rest": rest_json(it.rest)} for it in self.changes],
        }
        return found

    def text(self):
        out = []
        name = "" if self.trace.name == "-" else self.trace.name + ": "
        if self.at_end:
            head = "at the end, %s ns" % ns(self.time)
        else:
            head = "at row %s (line %s), %s ns" % (ns(self.place + 1), ns(self.place + 2), ns(self.time))
        out.append(name + paint("BROKEN", "bold", "red") + " %s: rule %d" % (head, self.rule))
        if not self.at_end:
            who = "device %d%s" % (self.device, ", the " + self.role if self.role else "")
            out.append("%s, %s: %s" % (self.phase, who, paint(self.words, "bold")))
        out.append("")
        for finding in self.broken:
            sentence = SENTENCES[finding.sentence]
            out.append(fold("%s (%s): %s" % (paint("Rule " + finding.sentence, "bold"), sentence.clause, sentence.text)))
            if finding.since is not None and sentence.since:
                measured = self.time - finding.since
                wrong = measured - finding.delay if finding.is_latest else finding.delay - measured
                out.append(fold("Here: %s ns after %s (at %s). Wanted: at %s %s ns. It comes %s ns too %s." % (
                    ns(measured), sentence.since, ns(finding.since), "most" if finding.is_latest else "least", ns(finding.delay), ns(wrong),
                    "late" if finding.is_latest else "soon"), "  "))
            elif finding.delay:
                out.append("  Here: what is measured from has not come, or comes in the same row. Wanted: at least %s ns." % ns(finding.delay))
        if not self.broken:
            out.append("The judge names rule %d; this version cannot tell which of its sentences." % self.rule)
        out += [fold(text, "  ") for text in self.context]
        out += ["", "      %7s %12s %8s  %-19s %s" % ("row", "time", "since", "device", "change")]
        last = None
        for row, time, device, role, words, is_this in self.rows():
            since = "" if last is None else "%+d" % (time - last)
            line = "  %s %7d %12d %8s  %-19s %s" % (">>>" if is_this else "   ", row + 1, time, since, "%d %s" % (device, role), words)
            out.append(paint(line, "bold") if is_this else line)
            last = time
        if self.at_end:
            out.append(paint("  >>>     end %12d %8s" % (self.time, "" if last is None else "%+d" % (self.time - last)), "bold"))
        first = max(0, self.place - 14)
        lines = draw.drawing(self.trace, self.place, bus_after(self.trace, first), self.broken, 14)
        if lines:
            out += [""] + lines
        out.append("")
        out += self.claims()
        if self.rule in HINTS:
            out += ["", fold("Often: " + HINTS[self.rule])]
        return "\n".join(out) + "\n"

    def claims(self):
        """From when on the row is right, or with what change."""
        out = []
        times = self.times
        if times and times.first is not None:
            first = times.first
            text = "Right from %s ns on%s, %s ns later than it is: the judge lets the row be at %s, and not at %s." % (
                ns(first), " (up to %s)" % ns(times.last) if times.last is not None else "", ns(first - self.time), ns(first), ns(first - 1))
            out.append(fold(text))
            if len(times.between) > 1:
                steps = ["from %s it breaks rule %d" % (ns(moment), rule) for moment, rule in times.between]
                out.append(fold("Before that: %s." % "; ".join(steps)))
            if times.rest is None:
                out.append("With this row and all after it that much later the whole trace is lawful.")
            elif times.rest != "not asked":
                out.append("With this row and all after it that much later the first broken row is %s, by rule %d." % (
                    ns(times.rest[0]), times.rest[1]))
        elif times:
            what = "The end" if self.at_end else "The row"
            out.append(fold("%s may come up to %s ns, %s ns sooner than it does: the judge lets it be at %s, and not at %s." % (
                what, ns(times.last), ns(self.time - times.last), ns(times.last), ns(times.last + 1))))
        if self.changes:
            many = len(self.changes) > 1
            out.append("It would be right with one of these changes, as the judge says:" if many else "It would be right, as the judge says:")
            for change in self.changes:
                out.append(fold("- %s; %s" % (change.words, rest_words(change.rest)), "  "))
        elif not times:
            out.append("No other time and no small change of this row or of those before it makes it right: look further up.")
        return out


def rest_words(rest):
    if rest is None:
        return "the whole trace is then lawful."
    if rest == "not asked":
        return "the rows after it were not asked."
    return "the first broken row of the trace is then %s, by rule %d." % (ns(rest[0]), rest[1])


def rest_json(rest):
    if rest is None:
        return "lawful"
    return rest if rest == "not asked" else {"row": rest[0], "rule": rest[1]}


class Stretch:
    """The rows between two moments at which no device drives a line."""

    def __init__(self, first, stop):
        self.first, self.stop, self.broken = first, stop, None


def stretches_of(trace):
    """The stretches of a trace."""
    drives, busy, first, found = [0] * 8, 0, 0, []
    devices, values = trace.devices, trace.values
    for row in range(len(trace)):
        value = values[row]
        if value >= 0:
            device = devices[row]
            own = drives[device]
            if own != value:
                drives[device] = value
                if not own:
                    busy += 1
                elif not value:
                    busy -= 1
                    if not busy:
                        found.append(Stretch(first, row + 1))
                        first = row + 1
    if first < len(trace):
        found.append(Stretch(first, len(trace)))
    return found


# How many rows are asked of the judge at most, for the stretches of one trace.
ASKED_ROWS = 120_000_000


def all_broken(judge, trace, progress=None):
    """The stretches of a trace, each broken one with its row, where the broken ones before it are left out. What the judge has no time
    for, since too many are broken, is found by the second reading and says so."""
    from .gauge import walk

    stretches = stretches_of(trace)
    starts = [trace.start_of(stretch.first) for stretch in stretches] + [trace.start_of(len(trace))]
    bus = Bus()
    # What of the stretches is kept, and how many rows; the first of them that is not walked.
    kept, rows, place, asked = [b"trace 1\n"], 0, 0, 0

    def walked(stop):
        nonlocal place, rows
        for stretch in stretches[place:stop]:
            walk(bus, trace, stretch.first, stretch.stop)
            rows += stretch.stop - stretch.first
        kept.append(trace.text[starts[place]: starts[stop]])
        place = stop

    while place < len(stretches) or not stretches:
        if progress:
            progress.at(stretches[place].first if stretches else 0)
        if asked > ASKED_ROWS:
            return stretches, by_reading(trace, stretches, place, bus, progress)
        said = judge.verdict(b"".join(kept) + trace.text[starts[place]:])
        asked += len(trace)
        if said is None:
            break
        row, rule = said[0] - 1 - rows, said[1]
        number = place
        while number < len(stretches) - 1 and row >= stretches[number].stop - stretches[number].first:
            row -= stretches[number].stop - stretches[number].first
            number += 1
        if not stretches:
            break
        walked(number)
        stretch = stretches[number]
        before = bus.copy()
        stop = min(stretch.first + row, stretch.stop)
        walk(bus, trace, stretch.first, stop)
        stretch.broken = broken_of(trace, stop, rule, bus)
        bus, place = before, number + 1
    if progress:
        progress.done()
    return stretches, 0


def broken_of(trace, place, rule, bus, was_asked=True):
    """What is told of the broken row of a stretch, or of the end."""
    at_end = place >= len(trace)
    found = bus.findings_at_end(trace.end)[0] if at_end else findings(bus, trace.row(place))[0]
    names = [finding.sentence for finding in found if finding.rule == rule] if lowest(found) == rule else []
    return place, rule, names, bus.stage(), "" if at_end else bus.role_of(trace.devices[place]), was_asked


def by_reading(trace, stretches, start, bus, progress):
    """Goes on by the second reading alone: how many stretches are broken by it."""
    many = 0
    for number in range(start, len(stretches)):
        stretch = stretches[number]
        if progress:
            progress.at(stretch.first)
        before = bus.copy()
        for place in range(stretch.first, stretch.stop):
            found = findings(bus, trace.row(place))[0]
            if found:
                stretch.broken = broken_of(trace, place, lowest(found), bus, False)
                break
            step(bus, trace.row(place))
        else:
            if number == len(stretches) - 1 and bus.findings_at_end(trace.end)[0]:
                stretch.broken = broken_of(trace, len(trace), lowest(bus.findings_at_end(trace.end)[0]), bus, False)
        if stretch.broken:
            many += 1
            bus = before
    if progress:
        progress.done()
    return many
