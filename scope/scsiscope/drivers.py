"""Which device drives which line, of the lines of a bus alone.

A capture has the union of what the devices drive. By what stands on the bus each change has one device that may have made it: IDs in
arbitration and calling, the initiator and the target in a connection. The rows that are made have just the union that was seen, at each time.
"""
from .lines import ACK, ATN, BSY, CD, DATA, DBP, IDS, IO, MSG, REQ, RST, SEL, is_odd
from .rules import TURN, Bus

TARGET_LINES, INITIATOR_LINES = BSY | CD | IO | MSG | REQ, ACK | ATN


class Drivers:
    """Takes the lines, change by change, and makes rows: (time, device, lines). `hidden` are the rows that nothing on the bus shows."""

    def __init__(self, resetter=None):
        self.drives = [0] * 8
        self.rows, self.hidden, self.notes = [], set(), []
        self.mode = "free"
        self.caller = self.called = self.initiator = self.target = None
        self.reselects = self.released = self.answered = False
        self.resetter, self.resets_by = None, resetter
        self.ahead = 0

    def bus(self):
        union = 0
        for lines in self.drives:
            union |= lines
        return union

    def row(self, time, device, lines, is_hidden=False):
        if self.drives[device] != lines:
            self.drives[device] = lines
            if is_hidden:
                self.hidden.add(len(self.rows))
            self.rows.append((time, device, lines))

    def note(self, time, text):
        self.notes.append((time, len(self.rows) + 1, text))

    def drop(self, time, lines):
        """Each device releases what is no longer on the bus."""
        for device in range(7, -1, -1):
            self.row(time, device, self.drives[device] & lines)

    def take(self, time, lines):
        before = self.bus()
        if lines == before:
            return
        up = lines & ~before
        if up & RST and up & ~RST and self.mode != "reset":
            # No line rises under RST, so those that came in its sample rose before it.
            self.take(time, before | up & ~RST)
            up = lines & ~self.bus()
        if up & RST:
            device = self.resets_by
            if device is None:
                device = self.initiator if self.initiator is not None else self.caller if self.caller is not None else 7
                self.note(time, "RST rose: nothing on the bus says by whom; taken as device %d (--rst D)" % device)
            self.resetter = device
            self.row(time, device, self.drives[device] | RST)
            self.mode = "reset"
        if self.mode == "reset":
            self.drop(time, lines)
            extra = lines & ~self.bus()
            if extra and lines & RST:
                self.note(time, "lines rose under RST, taken as of the device of RST")
                self.row(time, self.resetter, self.drives[self.resetter] | extra)
            if not lines & RST:
                self.mode, self.initiator, self.target, self.caller, self.called = "free", None, None, None, None
            if lines & RST or not lines & ~self.bus():
                return
        getattr(self, "in_" + self.mode)(time, lines)
        rest = lines ^ self.bus()
        if rest:
            from .lines import drives_words

            self.drop(time, lines)
            extra = lines & ~self.bus()
            if extra:
                device = self.target if self.target is not None else self.caller if self.caller is not None else 7
                self.note(time, "%s of no device that may drive it here; taken as of device %d" % (drives_words(extra), device))
                self.row(time, device, self.drives[device] | extra)

    def in_free(self, time, lines):
        self.drop(time, lines)
        if lines & BSY and not lines & SEL:
            for device in range(7, -1, -1):
                if lines >> device & 1 and not self.drives[device] & BSY:
                    self.row(time, device, BSY | 1 << device)
            self.mode = "arbitration"
            self.caller = self.called = self.initiator = self.target = None

    def in_arbitration(self, time, lines):
        up = lines & ~self.bus()
        if up & SEL:
            contenders = [device for device in range(7, -1, -1) if self.drives[device] & BSY]
            if not contenders:
                self.note(time, "SEL rose with no ID on the bus; taken as of device 7")
                contenders = [7]
            caller = contenders[0]
            self.caller, self.called, self.released, self.answered = caller, None, False, False
            self.row(time, caller, self.drives[caller] | SEL)
            self.mode = "won"
            self.in_won(time, lines)
            return
        for device in range(7, -1, -1):
            if up >> device & 1:
                self.row(time, device, BSY | 1 << device)
        for device in range(7, -1, -1):
            if self.drives[device] & BSY and not lines >> device & 1:
                self.row(time, device, 0)
        if not lines & BSY:
            self.drop(time, lines)
            self.mode = "free"

    def in_won(self, time, lines):
        caller, ids = self.caller, lines & IDS
        if bin(ids).count("1") == 2 and ids >> caller & 1 and lines & (ATN | IO) and lines & SEL:
            for device in range(8):
                if device != caller:
                    self.row(time, device, 0)
            self.called = (ids & ~(1 << caller)).bit_length() - 1
            self.reselects = bool(lines & IO)
            self.row(time, caller, lines & (BSY | SEL | DATA | ATN | IO))
            self.mode, self.released = "call", not lines & BSY
            return
        for device in range(7, -1, -1):
            if device != caller and self.drives[device] and not lines >> device & 1:
                self.row(time, device, 0)
        self.row(time, caller, self.drives[caller] & lines)
        if not lines & (BSY | SEL):
            self.drop(time, lines)
            self.mode = "free"

    def in_call(self, time, lines):
        caller, called = self.caller, self.called
        up = lines & ~self.bus()
        if not self.released and not lines & BSY:
            self.released = True
            self.row(time, caller, self.drives[caller] & ~BSY)
        elif self.released and not self.answered and up & BSY:
            self.answered = True
            if self.reselects:
                self.row(time, called, BSY | lines & ATN)
                # The caller raises BSY, too, and nothing on the bus shows it.
                self.row(time, caller, self.drives[caller] | BSY, True)
            else:
                self.row(time, called, BSY)
        if self.answered and not lines & SEL:
            if self.reselects:
                self.initiator, self.target = called, caller
                self.row(time, caller, lines & (TARGET_LINES | DATA))
                # The initiator releases BSY, and nothing on the bus shows it.
                self.row(time, called, lines & INITIATOR_LINES, True)
            else:
                self.initiator, self.target = caller, called
                self.row(time, caller, lines & (INITIATOR_LINES | (0 if lines & IO else DATA)))
                self.row(time, called, lines & (TARGET_LINES | (DATA if lines & IO else 0)))
            self.ahead = 1 if lines & REQ else 0
            self.mode = "connection" if lines & BSY else "free"
            return
        if self.answered and self.reselects and up & ATN:
            self.row(time, called, self.drives[called] | ATN)
        if not self.answered:
            self.row(time, caller, self.drives[caller] & lines)
            if not lines & SEL:
                self.drop(time, lines)
                self.mode = "free"
        elif not self.reselects:
            self.row(time, caller, self.drives[caller] & ~ATN | lines & ATN)

    def in_connection(self, time, lines):
        initiator, target = self.initiator, self.target
        before = self.bus()
        mine, his = self.drives[initiator], self.drives[target]
        up, down = lines & ~before, before & ~lines
        data, my_data, his_data = lines & DATA, mine & DATA, his & DATA
        if data != my_data | his_data:
            if not data & ~(my_data | his_data):
                # What falls, who held it released it; what stays keeps its device.
                my_data, his_data = my_data & data, his_data & data
            elif lines & IO:
                my_data, his_data = 0, data
            else:
                my_data, his_data = data, 0
        new_mine, new_his = lines & INITIATOR_LINES | my_data, lines & TARGET_LINES | his_data
        if down & BSY:
            if down & INITIATOR_LINES:
                self.row(time, initiator, mine & ~(down & INITIATOR_LINES))
            self.row(time, target, lines & TARGET_LINES | his_data)
            self.row(time, initiator, new_mine)
            self.mode = "free"
            return
        if (up | down) & (CD | IO | MSG):
            self.ahead = 0
        # Within one sample: the order that the handshake wants.
        target_first = bool(up & REQ and up & ACK and self.ahead == 0 or down & REQ and down & ACK)
        self.ahead += bool(up & REQ) - bool(up & ACK)
        if not (up | down) & (REQ | ACK):
            target_first = not (down & DATA and up & IO)
        for device, new in ((target, new_his), (initiator, new_mine)) if target_first else ((initiator, new_mine), (target, new_his)):
            self.row(time, device, new)


def with_parity_lines(rows, hidden):
    """The rows with DB(P) as each byte wants it, where the capture has none, and which of them nothing on the bus shows.

    A byte of 00 that crosses has DB(P) true alone: a row is added in which its sender raises that, as soon as it may, and its next change of
    data, or of its strobe, takes it away.
    """
    out, marks = [], set()
    bus = Bus()
    # What stands since: the last row of each device, and the last change of the phase, as places in `out`.
    last, turned, parity = [-1] * 8, -1, [0] * 8
    for place, (time, device, value) in enumerate(rows):
        data = value & IDS
        if data:
            parity[device] = 0 if is_odd(data) else DBP
        elif bus.connection and parity[device] and (bus.drives[device] ^ value) & (REQ | ACK) & bus.drives[device]:
            parity[device] = 0
        connection = bus.connection
        if connection and not bus.lines & IDS and not data:
            is_in, own = bus.lines & IO, bus.drives[device]
            sender = connection.target if is_in else connection.initiator
            crosses = value & ~own & (REQ if is_in else ACK) and not bus.lines & (REQ if is_in else ACK)
            if crosses and device == sender and not parity[sender]:
                at = max(last[sender], turned) + 1
                before = next((it for it in reversed(out[:at]) if it[1] == sender), (0, sender, 0))
                moment = out[at - 1][0] if at else time
                if is_in and bus.turned:
                    moment = min(time, max(moment, bus.since[12] + TURN))
                out.insert(at, (moment, sender, before[2] & ~DATA | DBP))
                marks = {it + (it >= at) for it in marks} | {at}
                last = [it + (it >= at) for it in last]
                turned += turned >= at
                # What the sender drove from there on had it, too.
                for later in range(at + 1, len(out)):
                    if out[later][1] == sender:
                        out[later] = (out[later][0], sender, out[later][2] | DBP)
                parity[sender] = DBP
        before = bus.lines
        bus.step(time, device, value)
        out.append((time, device, value & ~DBP | parity[device]))
        if place in hidden:
            marks.add(len(out) - 1)
        last[device] = len(out) - 1
        if (before ^ bus.lines) & (CD | IO | MSG):
            turned = len(out) - 1
        if not bus.connection:
            parity = [it if driven & IDS else 0 for it, driven in zip(parity, bus.drives)]
    # A row that no longer changes anything is none.
    drives, kept, places = [0] * 8, [], set()
    for place, (time, device, value) in enumerate(out):
        if drives[device] != value:
            drives[device] = value
            if place in marks:
                places.add(len(kept))
            kept.append((time, device, value))
    return kept, places


def rows_of(recording, resetter=None):
    """The rows of a recording, its end, the places of hidden rows, and notes."""
    samples = recording.samples
    drivers = Drivers(resetter)
    start = 0
    if samples and samples[0][1] & (BSY | SEL | RST):
        start = next((place for place, (_, lines) in enumerate(samples) if not lines & (BSY | SEL | RST)), len(samples))
        drivers.note(samples[0][0], "the capture begins on a busy bus: all until BUS FREE is left out")
        # The rest of a connection has to go: wait until nothing is true.
        start = next((place for place in range(start, len(samples)) if not samples[place][1]), len(samples))
    origin = samples[start][0] if start < len(samples) else 0
    # A trace begins with a bus that was free since 0: what the capture has before its first entry is kept, and is enough.
    lead = 0
    if start < len(samples):
        following = next((time for time, lines in samples[start + 1:] if lines), origin)
        lead = max(0, 1300 - (following - origin))
    if lead:
        drivers.note(origin, "the capture begins %d ns before its first row: BUS FREE was taken as long enough" % (1300 - lead))
    for time, lines in samples[start:]:
        drivers.take(time - origin + lead, lines)
    return drivers, max(0, recording.end - origin + lead), origin - lead
