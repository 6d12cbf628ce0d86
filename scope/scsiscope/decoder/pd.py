"""A protocol decoder of sigrok for the lines of a SCSI bus. `scsiscope decode` puts it where sigrok looks, with names.py of scsiscope."""
import sigrokdecode as srd

from .names import STATUS, command_words, message_words

LINES = ("db0", "db1", "db2", "db3", "db4", "db5", "db6", "db7", "bsy", "sel", "cd", "io", "msg", "req", "ack", "dbp", "atn", "rst")
BSY, SEL, CD, IO, MSG, REQ, ACK, DBP, ATN, RST = range(8, 18)
WORDS = {"db%d" % bit: "DB(%d)" % bit for bit in range(8)}
WORDS.update(cd="C/D", io="I/O", dbp="DB(P)")
PHASES = {0: "DATA OUT", 1: "DATA IN", 2: "COMMAND", 3: "STATUS", 4: "reserved", 5: "reserved", 6: "MESSAGE OUT", 7: "MESSAGE IN"}
A_PHASE, A_MESSAGE, A_COMMAND, A_STATUS, A_DATA, A_BYTE, A_WARNING = range(7)


def channel(line):
    return {"id": line, "name": line.upper(), "desc": WORDS.get(line, line.upper())}


class Decoder(srd.Decoder):
    api_version = 3
    id = "scsi"
    name = "SCSI"
    longname = "Small Computer System Interface, parallel"
    desc = "8-bit SCSI-2 bus: phases, messages, commands, status."
    license = "mit"
    inputs = ["logic"]
    outputs = []
    tags = ["PC"]
    channels = tuple(channel(line) for line in LINES[:15])
    optional_channels = tuple(channel(line) for line in LINES[15:])
    options = ({"id": "polarity", "desc": "Lines are active", "default": "low", "values": ("low", "high")},)
    annotations = (
        ("phase", "Phase"), ("message", "Message"), ("command", "Command"), ("status", "Status"), ("data", "Data"), ("byte", "Byte"),
        ("warning", "Warning"),
    )
    annotation_rows = (
        ("phases", "Phases", (A_PHASE,)), ("words", "Messages, commands, data", (A_MESSAGE, A_COMMAND, A_STATUS, A_DATA)),
        ("bytes", "Bytes", (A_BYTE,)), ("warnings", "Warnings", (A_WARNING,)),
    )

    def __init__(self):
        self.reset()

    def reset(self):
        self.stage, self.since, self.is_connected = None, 0, False
        self.data, self.first, self.byte = bytearray(), 0, None

    def start(self):
        self.out_ann = self.register(srd.OUTPUT_ANN)

    def tell(self, start, end, kind, *texts):
        if end > start:
            self.put(start, end, self.out_ann, [kind, list(texts)])

    def lines(self, pins):
        is_low = self.options["polarity"] == "low"
        return [bool(pin) != is_low if pin in (0, 1) else False for pin in pins]

    def stage_of(self, now, before):
        if now[RST]:
            self.is_connected = False
            return "RESET"
        if now[SEL]:
            return "RESELECTION" if now[IO] else "SELECTION" if now[ATN] or sum(now[:8]) > 1 else "ARBITRATION"
        if not now[BSY]:
            self.is_connected = False
            return "BUS FREE"
        self.is_connected = self.is_connected or before[SEL]
        return PHASES[now[MSG] << 2 | now[CD] << 1 | now[IO]] if self.is_connected else "ARBITRATION"

    def leave(self, end):
        """Tells what crossed in the phase that ends."""
        if self.byte:
            self.tell(self.byte[0], end, A_BYTE, "%02x" % self.byte[1])
            self.byte = None
        if self.data:
            data = bytes(self.data)
            if self.stage == "COMMAND":
                self.tell(self.first, end, A_COMMAND, command_words(data) + ": " + data.hex(" "), command_words(data), data.hex())
            elif self.stage in ("DATA IN", "DATA OUT"):
                self.tell(self.first, end, A_DATA, "%d bytes: %s" % (len(data), data[:64].hex(" ")), "%d bytes" % len(data))
            elif self.stage in ("MESSAGE IN", "MESSAGE OUT"):
                self.tell(self.first, end, A_WARNING, "half a message: " + data.hex(" "))
            self.data = bytearray()

    def crosses(self, value):
        at = self.samplenum
        if self.byte:
            self.tell(self.byte[0], at, A_BYTE, "%02x" % self.byte[1])
        self.byte = (at, value)
        if not self.data:
            self.first = at
        self.data.append(value)

    def whole(self, at):
        """Tells a message or a status when its last byte is taken."""
        if self.stage == "STATUS" and self.data:
            text = STATUS.get(self.data[0], "unknown")
            self.tell(self.first, at, A_STATUS, "%s (%02x)" % (text, self.data[0]), text)
            self.data = bytearray()
        elif self.stage in ("MESSAGE IN", "MESSAGE OUT") and self.data:
            first = self.data[0]
            want = 1
            if first == 1:
                want = 2 + self.data[1] if len(self.data) > 1 else 3
            elif 0x20 <= first <= 0x2F:
                want = 2
            if len(self.data) >= want:
                data = bytes(self.data)
                self.tell(self.first, at, A_MESSAGE, "%s: %s" % (message_words(data), data.hex(" ")), message_words(data), data.hex())
                self.data = bytearray()

    def decode(self):
        pins = self.wait()
        # A channel that is not connected reads 0xff.
        edges = [{channel: "e"} for channel in (*range(BSY, ACK + 1), ATN, RST) if pins[channel] in (0, 1)]
        has_parity = pins[DBP] in (0, 1)
        before = self.lines(pins)
        self.stage, self.since = self.stage_of(before, before), self.samplenum
        while True:
            now = self.lines(self.wait(edges))
            at = self.samplenum
            # A byte crosses at REQ to the initiator, at ACK to the target.
            if self.is_connected and now[BSY]:
                strobe = REQ if now[IO] else ACK
                if now[strobe] and not before[strobe] and before[MSG:MSG + 1] == now[MSG:MSG + 1]:
                    value = sum(bit << place for place, bit in enumerate(now[:8]))
                    if has_parity and (sum(now[:8]) + now[DBP]) % 2 == 0:
                        self.tell(at, at + 1, A_WARNING, "parity of %02x" % value, "parity")
                    self.crosses(value)
                if before[ACK] and not now[ACK]:
                    self.whole(at)
            stage = self.stage_of(now, before)
            if stage != self.stage:
                self.leave(at)
                self.tell(self.since, at, A_PHASE, self.stage)
                self.stage, self.since = stage, at
            before = now
