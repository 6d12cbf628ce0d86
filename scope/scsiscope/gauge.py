"""Walks over many rows, and what they leave of each sentence's time."""
import sys
import time as clock

from .lines import ACK, BITS, BSY, CD, DATA, IO, MSG, REQ, RST, SEL
from .rules import ARBITRATION, BUS_SETTLE, DATA_RELEASE, DESKEW, PLACES, SET_UP, SENTENCES, TIMES, TURN

NAMES = list(SENTENCES)
FAR = 1 << 62
# Lines that no row of a DATA phase changes that moves bytes alone.
STAGE = ~(DATA | REQ | ACK)
P14E, P15C, P16A, P16B, P19A = (PLACES[name] for name in ("14e", "15c", "16a", "16b", "19a"))
P22A, P22B, P22C, P22D, P22E = (PLACES[name] for name in ("22a", "22b", "22c", "22d", "22e"))


class Gauge:
    """The least slack of each sentence of a time, in ns, with its row and the time that it is measured from."""

    def __init__(self):
        self.slack = [FAR] * len(NAMES)
        self.row = [0] * len(NAMES)
        self.since = [0] * len(NAMES)
        self.delay = [0] * len(NAMES)
        self.count = [0] * len(NAMES)
        self.is_latest = [False] * len(NAMES)

    def take(self, findings, time, row):
        """The sentences that a row keeps by their times."""
        for name, since, delay, is_latest in findings:
            place = PLACES[name]
            slack = since + delay - time if is_latest else time - since - delay
            self.count[place] += 1
            if slack < self.slack[place]:
                self.slack[place], self.row[place] = slack, row
                self.since[place], self.delay[place], self.is_latest[place] = since, delay, is_latest


class Progress:
    """Says on standard error how far a long walk is, from two seconds on: on a terminal in one line, else a line each ten seconds."""

    def __init__(self, word, total):
        self.word, self.total, self.began, self.said = word, total, clock.monotonic(), 0.0
        self.shown, self.is_terminal = False, sys.stderr.isatty()

    def at(self, done):
        now = clock.monotonic()
        if now - self.began > 2 and now - self.said > (0.5 if self.is_terminal else 10) and self.total:
            self.said, self.shown = now, True
            text = "scsiscope: %s, %d %% of %s rows" % (self.word, 100 * done // self.total, format(self.total, ","))
            sys.stderr.write("\r" + text if self.is_terminal else text + "\n")
            sys.stderr.flush()

    def done(self):
        if self.shown and self.is_terminal:
            sys.stderr.write("\r%s\r" % (" " * 70))
            sys.stderr.flush()


def walk(bus, trace, start, stop, gauge=None, progress=None, watch=None):
    """Takes the rows from start to stop. A gauge is given what each leaves of its sentences' times; `watch` is called after each row
    that is no plain transfer of data, with its place."""
    times, devices, values = trace.times, trace.devices, trace.values
    piece = 1 << 16
    for begin in range(start, stop, piece):
        if progress:
            progress.at(begin)
        _walk(bus, times, devices, values, begin, min(stop, begin + piece), gauge, watch)
    if progress:
        progress.done()


def _walk(bus, times, devices, values, start, stop, gauge, watch):
    drives, since = bus.drives, bus.since
    quick = False
    place = start
    while place < stop:
        if not quick:
            time, device, value = times[place], devices[place], values[place]
            fault = -1 - value if value < 0 else None
            lines = 0 if value < 0 else value
            if gauge:
                gauge.take(bus.findings(time, device, lines, fault)[1], time, place)
            bus.step(time, device, lines, fault)
            if watch:
                watch(place)
            place += 1
            quick = (bus.connection is not None and bus.call is None and bus.arbitration is None
                     and bus.lines & (BSY | SEL | RST | MSG | CD) == BSY and bus.begun)
            continue
        place = _data_rows(bus, times, devices, values, place, stop, gauge)
        quick = False


def _data_rows(bus, times, devices, values, place, stop, gauge):
    """Rows of a DATA phase that change data lines, REQ and ACK alone: most rows of a long trace. Returns the first other row."""
    drives, since, connection = bus.drives, bus.since, bus.connection
    initiator, target = connection.initiator, connection.target
    others = 0
    for device, driven in enumerate(drives):
        if device not in (initiator, target):
            others |= driven
    offset, factor = bus.heard.offset, bus.heard.period
    period, assertion, negation, set_up, hold = TIMES[factor]
    before = bus.lines
    is_in = before & IO
    crossing = REQ if is_in else ACK
    stage_since = max(bus.phase_since(), connection.began)
    turn_since = since[12] if bus.turned and is_in else None
    data_since, req_since, ack_since = bus.data_since, since[14], since[15]
    req, ack, last_req, last_ack = bus.req, bus.ack, bus.last_req, bus.last_ack
    attention = before & (1 << 16)
    time, receiver = bus.last, bus.receiver
    if gauge:
        slack, rows, starts, delays, count = gauge.slack, gauge.row, gauge.since, gauge.delay, gauge.count

        def take(name, start, delay):
            count[name] += 1
            left = time - start - delay
            if left < slack[name]:
                slack[name], rows[name], starts[name], delays[name] = left, place, start, delay
    first = place
    while place < stop:
        value = values[place]
        device = devices[place]
        if value < 0 or (device != target and device != initiator):
            break
        own = drives[device]
        if (own ^ value) & STAGE or own == value:
            break
        if attention and (own ^ value) & ACK:
            break
        if is_in:
            if drives[initiator] & DATA:
                break
        elif drives[target] & DATA:
            break
        time = times[place]
        drives[device] = value
        after = drives[initiator] | drives[target] | others
        changed = before ^ after
        up = changed & after
        crosses = up & crossing
        if gauge:
            if offset:
                last = last_req if is_in else last_ack
                if changed & DATA and last is not None:
                    take(P22E, last, hold)
                if up & REQ:
                    if last_req is not None:
                        take(P22A, last_req, period)
                        take(P22C, req_since, negation)
                elif changed & REQ:
                    take(P22B, req_since, assertion)
                if up & ACK:
                    if last_ack is not None:
                        take(P22A, last_ack, period)
                        take(P22C, ack_since, negation)
                elif changed & ACK:
                    take(P22B, ack_since, assertion)
                if crosses:
                    take(P22D, data_since, set_up)
            elif crosses:
                take(P19A, data_since, SET_UP)
            if up & REQ:
                take(P14E, stage_since, BUS_SETTLE)
            if turn_since is not None and device == target and value & DATA:
                take(P16A, turn_since, TURN)
        if changed:
            if changed & DATA:
                data_since = time
                for bit in BITS[changed & DATA]:
                    since[bit] = time
            if changed & REQ:
                req_since = time
                if up & REQ:
                    req += 1
                    last_req = time
                    bus.duty = 0
            if changed & ACK:
                ack_since = time
                if up & ACK:
                    ack += 1
                    last_ack = time
            before = after
        receiver = None if not crosses else initiator if is_in else target
        place += 1
    if place > first:
        bus.lines, bus.data_since, bus.last, bus.receiver = before, data_since, time, receiver
        since[14], since[15] = req_since, ack_since
        bus.req, bus.ack, bus.last_req, bus.last_ack = req, ack, last_req, last_ack
        return place
    # None was: the next goes by the rules.
    value, device = values[place], devices[place]
    fault = -1 - value if value < 0 else None
    lines = 0 if value < 0 else value
    if gauge:
        gauge.take(bus.findings(times[place], device, lines, fault)[1], times[place], place)
    bus.step(times[place], device, lines, fault)
    return place + 1
