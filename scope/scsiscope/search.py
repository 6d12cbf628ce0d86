"""Which time or which small change makes a broken row right.

Candidates are tried on the second reading of the rules; what is told has been asked of the judge.
"""
from typing import List, NamedTuple, Optional, Tuple

from .lines import ACK, ATN, BSY, CD, DATA, DBP, IDS, IO, MSG, NAMES, PHASE, REQ, RST, SEL, change_words, drives_words, name_of, \
    with_parity
from .rules import Bus
from .style import ns
from .trace import bus_after, findings, step

# How many rows before the broken one are tried, and how many after it are looked at.
BEFORE, AFTER = 24, 40
# Bytes that are tried in place of a byte: of MESSAGE OUT, MESSAGE IN and COMMAND.
BYTES = {MSG | CD: (0x80, 0xC0, 0x06, 0x08, 0x05, 0x07, 0x09, 0x0C, 0x20, 0x01), PHASE: (0x80, 0x00, 0x02, 0x04, 0x07, 0x03, 0x20, 0x01),
         CD: (0x00, 0x08, 0x28)}


class Times(NamedTuple):
    """From when on the row is right, or up to when."""

    first: Optional[int]
    last: Optional[int]
    # (time, rule): from this time on, up to the next, the row breaks this rule.
    between: List[Tuple[int, int]]
    # What the rest of the trace is where this row and all after it come later by as much: None is lawful, else row and rule.
    rest: object = "not asked"


class Change(NamedTuple):
    """A change of the trace that makes the row right."""

    words: str
    # Rows from `start` to `stop` are replaced by these.
    start: int
    stop: int
    rows: list
    # What the changed trace is: None is lawful, else (row, rule, line of the changed trace).
    rest: object
    # How many rows after the broken one are right by the second reading.
    reach: int


def right_times(judge, trace, place, bus, broken):
    """The times at which the row at this place would be right, as asked of the judge; or None."""
    if place == len(trace):
        return _right_end(judge, trace, bus, broken)
    time, device, value = trace.row(place)
    bounds = [finding.bound for finding in broken]
    if not broken or None in bounds:
        return None

    def rule_at(moment):
        return judge.breaks(trace, place, [(moment, device, value)])

    def latest_at(moment):
        return min((f.bound for f in findings(bus, (moment, device, value))[1] if f.is_latest), default=None)

    if all(not finding.is_latest for finding in broken):
        first = max(bounds + [bus.last])
        if findings(bus, (first, device, value))[0] or rule_at(first) != 0 or not rule_at(first - 1):
            return None
        between, moment = [(time, broken and min(f.rule for f in broken))], time
        for bound in sorted(set(bounds)):
            if time < bound < first:
                rule = rule_at(bound)
                if rule and rule != between[-1][1]:
                    between.append((bound, rule))
        last = latest_at(first)
        if last is not None and (rule_at(last) != 0 or not rule_at(last + 1)):
            last = None
        later = [(t + first - time, d, v) for t, d, v in trace.rows(place, len(trace))] if len(trace) - place < 500_000 else None
        rest = "not asked" if later is None else judge.after(trace, place, later, max(trace.end, trace.times[-1]) + first - time)
        return Times(first, last, between, rest)
    if all(finding.is_latest for finding in broken):
        last = min(bounds)
        if last < bus.last or findings(bus, (last, device, value))[0] or rule_at(last) != 0 or not rule_at(last + 1):
            return None
        return Times(None, last, [])
    return None


def _right_end(judge, trace, bus, broken):
    if not broken or not all(finding.is_latest for finding in broken):
        if len(broken) == 1 and broken[0].sentence == "1a":
            first = broken[0].bound
            if judge.after(trace, len(trace), [], first) is None and judge.after(trace, len(trace), [], first - 1):
                return Times(first, None, [])
        return None
    last = min(finding.bound for finding in broken)
    if last < bus.last or judge.after(trace, len(trace), [], last) or not judge.after(trace, len(trace), [], last + 1):
        return None
    return Times(None, last, [])


class Tried(NamedTuple):
    cost: int
    words: str
    start: int
    stop: int
    rows: list


class Search:
    """Small changes around a broken row."""

    def __init__(self, trace, place, broken):
        self.trace, self.place, self.broken = trace, place, broken
        self.first = max(0, place - BEFORE)
        bus = bus_after(trace, self.first)
        # What stands before each of the last rows, and before the broken one.
        self.states = {}
        for row in range(self.first, place):
            self.states[row] = bus.copy()
            step(bus, trace.row(row))
        self.states[place] = bus
        self.rows = {row: trace.row(row) for row in range(self.first, min(len(trace), place + AFTER + 8))}

    def reach(self, tried, most=AFTER):
        """How many rows after the broken one are right with this change, or -1 where it is not right itself."""
        bus = self.states[tried.start].copy()
        time = bus.last
        for row in tried.rows:
            if findings(bus, row)[0]:
                return -1
            step(bus, row)
        far = max(tried.stop, self.place + 1)
        for row in range(tried.stop, min(len(self.trace), far + most)):
            if findings(bus, self.rows[row])[0] if row in self.rows else True:
                return row - self.place - 1 if row > self.place else -1
            step(bus, self.rows[row])
        if far + most >= len(self.trace) and bus.findings_at_end(max(self.trace.end, bus.last))[0]:
            return len(self.trace) - self.place - 1 if len(self.trace) > self.place else -1
        return most + (1000 if far + most >= len(self.trace) else 0)

    def name(self, row):
        return "row %s" % ns(row + 1)

    def candidates(self):
        place, trace = self.place, self.trace
        if place < len(trace):
            yield from self.of_this_row()
        yield from self.missing_rows()
        yield from self.of_earlier_rows()
        yield from self.of_bytes()

    def of_this_row(self):
        place = self.place
        time, device, value = self.rows[place]
        bus = self.states[place]
        own = bus.drives[device]
        if value >= 0:
            yield from self.turned(place, 0)
            if (value ^ own) & DATA and (value ^ own) & ~DATA:
                yield Tried(1, "if it did not change the data lines", place, place + 1, [(time, device, value & ~DATA | own & DATA)])
            for other in range(8):
                if other != device:
                    yield Tried(6, "if it were of device %d" % other, place, place + 1, [(time, other, value)])
        yield Tried(4, "if this row were left out", place, place + 1, [])
        for later in range(place + 1, min(len(self.trace), place + 7)):
            moved = [self.rows[row] for row in range(place + 1, later + 1)]
            words = "if it came after %s (device %d: %s), for which it does not wait" % (
                self.name(later), moved[-1][1], self.words_of(later))
            yield Tried(2 + later - place, words, place, later + 1, moved + [(moved[-1][0], device, value)])
        for before in range(place - 1, max(self.first, place - 7) - 1, -1):
            moved = [self.rows[row] for row in range(before, place)]
            words = "if it came before %s (device %d: %s)" % (self.name(before), moved[0][1], self.words_of(before))
            yield Tried(3 + place - before, words, before, place + 1, [(moved[0][0], device, value)] + moved)

    def words_of(self, row):
        """What a row changes, in words."""
        time, device, value = self.rows[row]
        if value < 0:
            return "a fault"
        bus = self.states.get(row)
        if bus is None:
            own = None
            for back in range(row - 1, self.first - 1, -1):
                if self.rows[back][1] == device and self.rows[back][2] >= 0:
                    own = self.rows[back][2]
                    break
            if own is None:
                own = self.states[self.first].drives[device]
        else:
            own = bus.drives[device]
        return change_words(own, value)

    def turned(self, row, cost):
        """One line of a row turned."""
        time, device, value = self.rows[row]
        own = self.states[row].drives[device]
        who = "it" if row == self.place else "%s (%s ns, device %d)" % (self.name(row), ns(time), device)
        changed = value ^ own
        for bit in range(8, 18):
            line = 1 << bit
            turned = value ^ line
            if turned == own or bit == 17 and turned & line:
                continue
            if bit == 8:
                if not changed & DATA:
                    continue
                words = "if %s had DB(P) %s" % (who, "true" if turned & DBP else "false")
                yield Tried(cost, words, row, row + 1, [(time, device, turned)])
                continue
            if changed & line:
                words = "if %s did not %s %s" % (who, "raise" if value & line else "lower", NAMES[bit])
                yield Tried(cost + 1, words, row, row + 1, [(time, device, turned)])
            else:
                words = "if %s %s %s as well" % (who, "lowered" if value & line else "raised", NAMES[bit])
                yield Tried(cost + 2, words, row, row + 1, [(time, device, turned)])

    def missing_rows(self):
        """One row more before this one, or before one of those before it."""
        place = self.place
        for row in range(place, max(self.first, place - 10) - 1, -1):
            bus = self.states[row]
            time = self.rows[row][0] if row in self.rows else max(self.trace.end, bus.last)
            moments = [time] if time == bus.last or row != place else [time, bus.last]
            for finding in self.broken:
                if finding.is_latest and row == place and bus.last <= finding.bound < time:
                    moments.insert(0, finding.bound)
                    moments = moments[:2]
            for device in range(8):
                driven = bus.drives[device]
                is_end = bus.connection and device in bus.connection[:2]
                if not driven and not is_end and not (bus.call and device in (bus.call.caller, bus.call.called)):
                    continue
                lines = [driven ^ 1 << bit for bit in range(9, 18) if bit < 17 or driven & RST] + [0, driven & ~DATA, driven & BSY, driven & ~(DATA | REQ | ACK)]
                for value in dict.fromkeys(lines):
                    if value == driven:
                        continue
                    for moment in dict.fromkeys(moments):
                        words = "with one row more before %s: at %s ns device %d: %s" % (
                            self.name(row) if row < len(self.trace) else "the end", ns(moment), device, change_words(driven, value))
                        yield Tried(4 + place - row, words, row, row, [(moment, device, value)])

    def of_earlier_rows(self):
        """One of the rows before it changed, left out, or swapped with the next."""
        place = self.place
        for row in range(place - 1, self.first - 1, -1):
            time, device, value = self.rows[row]
            far = 5 + (place - row) // 2
            what = "%s (%s ns, device %d: %s)" % (self.name(row), ns(time), device, self.words_of(row))
            yield Tried(far + 1, "if %s were left out" % what, row, row + 1, [])
            if value >= 0:
                yield from self.turned(row, far)
            if row + 1 < place:
                after = self.rows[row + 1]
                yield Tried(far, "if %s came after %s" % (what, self.name(row + 1)), row, row + 2, [after, (after[0], device, value)])
            for other in range(8):
                if other != device:
                    yield Tried(far + 6, "if %s were of device %d" % (what, other), row, row + 1, [(time, other, value)])

    def of_bytes(self):
        """Another byte in place of one that crossed."""
        place = self.place
        for row in range(place, self.first - 1, -1):
            if row not in self.rows or self.rows[row][2] < 0:
                continue
            time, device, value = self.rows[row]
            bus = self.states[row]
            own = bus.drives[device]
            if not (value ^ own) & DATA or not value & DATA or bus.connection is None:
                continue
            phase = bus.lines & PHASE if device != bus.connection.target else value & PHASE
            for byte in BYTES.get(phase, ()):
                data = with_parity(byte)
                if data == value & DATA:
                    continue
                rows = []
                stop = row
                while stop in self.rows and stop < row + 8 and stop < len(self.trace):
                    t, d, v = self.rows[stop]
                    if d == device:
                        if v < 0 or (v ^ value) & DATA:
                            break
                        v = v & ~DATA | data
                    rows.append((t, d, v))
                    stop += 1
                words = "if the byte of %s were %02x in place of %02x" % (self.name(row), byte, value & IDS)
                yield Tried(9 + (place - row) // 4, words, row, stop, rows)


def changes(judge, trace, place, broken, most=3):
    """The best small changes that make the row right, each asked of the judge: at most `most`."""
    search = Search(trace, place, broken)
    good = []
    for number, tried in enumerate(search.candidates()):
        near = search.reach(tried, 1)
        if near >= 0:
            good.append((search.reach(tried), tried, number))
    # First what lets the rest of the trace be, then what is simple and near.
    good.sort(key=lambda it: (it[1].cost - (100 if it[0] >= 1000 else min(it[0], AFTER)), it[2]))
    told, seen = [], set()
    for reach, tried, _ in good:
        if len(told) == most:
            break
        kind = (tuple(tried.rows), tried.start)
        if kind in seen or told and reach < told[0].reach and reach < AFTER:
            continue
        seen.add(kind)
        rest = trace.rows(tried.stop, len(trace)) if len(trace) - tried.stop < 500_000 else trace.rows(tried.stop, place + AFTER)
        whole = len(trace) - tried.stop < 500_000
        rows = tried.rows + rest
        end = max(trace.end if whole else 0, rows[-1][0] if rows else 0, trace.times[tried.start - 1] if tried.start else 0)
        said = judge.after(trace, tried.start, rows, end)
        moved = tried.start + len(tried.rows) - tried.stop
        # The row in question is right where the first broken row comes after it in the changed trace.
        right_to = max(tried.start + len(tried.rows), place + 1 + moved) if place < len(trace) else len(trace) + moved + 1
        if said is not None and said[0] <= right_to:
            continue
        told.append(Change(tried.words, tried.start, tried.stop, tried.rows, said if whole else said or "not asked", reach))
    return told
