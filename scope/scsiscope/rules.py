"""The sentences of the 28 rules (docs/rules.md), and what stands on the bus by their terms, row by row.

A sentence is named by its rule and a letter, as 14d. This module is a second reading of the rules, for words, times and
searches. It is never the last word: what a tool says of a rule is asked of the judge.
"""
from copy import copy
from typing import NamedTuple, Optional

from .lines import (
    ACK, ATN, BITS, BSY, CD, DATA, DBP, IDS, IO, MSG, PHASE, REQ, RST, SEL, is_odd,
)

BUS_SETTLE, BUS_CLEAR, BUS_FREE, BUS_SET = 400, 800, 800, 1800
ARBITRATION, DATA_RELEASE, DESKEW, TWO_DESKEW, SET_UP = 2400, 400, 45, 90, 55
ENTRY, QUIET, TURN = BUS_SETTLE + BUS_FREE, BUS_CLEAR + BUS_SETTLE, DATA_RELEASE + BUS_SETTLE
TIME_OUT, ABORT_TIME, RESET_HOLD = 250_000_000, 200_000 + TWO_DESKEW, 25_000


class Sentence(NamedTuple):
    clause: str
    text: str
    # From what is measured, for a sentence of a time.
    since: str = ""


SENTENCES = {
    "1a": Sentence("5", "A time is not below that of the row before."),
    "2a": Sentence("5", "A row of lines differs from what the device drove."),
    "2b": Sentence("5, 6.1.3, 6.1.4", "A fault row names a byte, or IDs, that no fault named before: the byte that crossed in the "
                   "row before it, at the same time, at its receiver; or the IDs at the called device, once a calling, while it "
                   "has not answered, SEL and its ID are true and BSY has been false for a bus settle delay (400 ns).",
                   "the fall of BSY"),
    "3a": Sentence("6.1.1", "While BSY and SEL are false a row only lowers lines or is an entry."),
    "3b": Sentence("6.1.1", "Before a row later than a bus clear delay and a bus settle delay (1200 ns) after BSY and SEL both "
                   "became false no line but RST is true.", "the last fall of BSY or SEL"),
    "4a": Sentence("6.1.2", "A device that enters drove nothing."),
    "4b": Sentence("6.1.2", "A device that enters drives exactly BSY and its ID."),
    "4c": Sentence("6.1.2", "An entry comes at least a bus settle delay and a bus free delay (1200 ns) after the bus became free.",
                   "the beginning of BUS FREE"),
    "4d": Sentence("6.1.2", "An entry comes at most a bus set delay (1800 ns) after the first entry of the arbitration.",
                   "the first entry of the arbitration"),
    "4e": Sentence("6.1.2", "A contender only releases all its lines or raises SEL."),
    "5a": Sentence("6.1.2", "A row that raises SEL is of a contender."),
    "5b": Sentence("6.1.2", "SEL is raised at least an arbitration delay (2400 ns) after the device's entry.", "the device's entry"),
    "6a": Sentence("6.1.2", "In the row that raises SEL no ID higher than the device's is true."),
    "6b": Sentence("6.1.2", "The row that raises SEL adds SEL and nothing else."),
    "7a": Sentence("6.1.2", "While SEL is true and no answer has come, devices but the caller only release, but for the answer."),
    "7b": Sentence("6.1.2", "Before a row later than a bus clear delay (800 ns) after SEL rose, while no answer has come, no "
                   "device but the caller drives a line.", "the rise of SEL"),
    "8a": Sentence("6.1.2", "The caller's first row after SEL rose is at least a bus clear delay and a bus settle delay "
                   "(1200 ns) later.", "the rise of SEL"),
    "9a": Sentence("6.1.3, 6.1.4", "A calling drives two IDs, of which one is the caller's own."),
    "9b": Sentence("6.1.3, 6.1.4", "A calling drives DB(P) by the parity of the two IDs: true."),
    "9c": Sentence("6.1.3, 6.1.4", "A calling drives either ATN (a selection) or I/O (a reselection)."),
    "9d": Sentence("6.1.3, 6.1.4", "A calling drives BSY and SEL, and no line besides these, the IDs, DB(P) and ATN or I/O."),
    "9e": Sentence("6.1.3, 6.1.4", "The caller's next row after the calling releases exactly BSY."),
    "9f": Sentence("6.1.3, 6.1.4", "The caller releases BSY at least two deskew delays (90 ns) after the calling.", "the calling"),
    "10a": Sentence("6.1.3, 6.1.4", "A called device that answers drove nothing."),
    "10b": Sentence("6.1.3, 6.1.4", "A called device that answers was struck by no fault in this calling."),
    "10c": Sentence("6.1.3, 6.1.4", "At an answer SEL and the called ID have been true, and BSY false, for a bus settle delay "
                    "(400 ns), which began no sooner than the caller released BSY.", "the last change of SEL, the ID or BSY"),
    "10d": Sentence("6.1.3, 6.1.4", "An answer drives exactly BSY, or in a reselection BSY and ATN."),
    "10e": Sentence("6.1.3, 6.1.4", "Between the calling and the row in which SEL falls no row but the answer raises a line, but "
                    "for the caller's BSY and the called device's ATN in a reselection after its answer."),
    "11a": Sentence("6.1.3", "In a selection the caller releases SEL at least two deskew delays (90 ns) after the answer.",
                    "the answer"),
    "11b": Sentence("6.1.4", "In a reselection the caller releases SEL at least two deskew delays (90 ns) after its own BSY.",
                    "the caller's own BSY"),
    "11c": Sentence("6.1.3", "In the row of a selection in which the caller releases SEL it may change the data lines, and "
                    "drives no other line but ATN."),
    "12a": Sentence("6.1.3.1", "Without an answer the caller first releases the IDs and DB(P), and nothing else."),
    "12b": Sentence("6.1.3.1", "Without an answer the caller releases the IDs at least a selection time-out delay (250 ms) after "
                    "it released BSY.", "the release of BSY"),
    "12c": Sentence("6.1.3.1", "Without an answer the caller releases all lines after the IDs."),
    "12d": Sentence("6.1.3.1", "Without an answer the caller releases all lines at least a selection abort time and two deskew "
                    "delays (200,090 ns) after the IDs.", "the release of the IDs"),
    "13a": Sentence("6.1.4", "In a reselection the caller raises BSY after the answer, before it releases SEL."),
    "13b": Sentence("6.1.4", "In a reselection the caller keeps BSY and I/O in the row in which it releases SEL."),
    "13c": Sentence("6.1.4", "In a reselection the initiator keeps BSY until SEL is false."),
    "13d": Sentence("6.1.4", "After a reselection the initiator keeps no line but ATN when it releases BSY."),
    "13e": Sentence("6.1.4", "REQ does not rise while the initiator drives BSY."),
    "14a": Sentence("6.1.5", "In a connection only the target drives C/D, I/O, MSG and REQ."),
    "14b": Sentence("6.1.5", "In a connection only the initiator drives ACK and ATN."),
    "14c": Sentence("6.1.5", "In a connection no third device drives a line."),
    "14d": Sentence("6.1.5, 6.1.10", "The phase lines (C/D, I/O, MSG) change only while REQ and ACK are false."),
    "14e": Sentence("6.1.5, 6.1.10", "REQ rises at least a bus settle delay (400 ns) after the last change of the phase lines and "
                    "after the connection's beginning.", "the last change of the phase lines or the connection's beginning"),
    "14f": Sentence("6.1.5", "REQ never rises in a reserved phase."),
    "15a": Sentence("6.1.10", "In a connection the initiator raises data lines only while I/O is false."),
    "15b": Sentence("6.1.10", "In a connection the target raises data lines only while I/O is true."),
    "15c": Sentence("6.1.10", "Before a row later than a data release delay (400 ns) after I/O became true the initiator drives "
                    "no data line.", "the rise of I/O"),
    "16a": Sentence("6.1.10", "Where I/O became true in the connection, the target drives data lines at least a data release "
                    "delay and a bus settle delay (800 ns) later.", "the rise of I/O"),
    "16b": Sentence("6.1.10", "Before a row later than a deskew delay (45 ns) after I/O became false the target drives no data "
                    "line.", "the fall of I/O"),
    "17a": Sentence("5.6", "The data lines of a byte that crosses have odd parity."),
    "18a": Sentence("6.1.5.1", "Asynchronous phase: REQ rises while ACK is false."),
    "18b": Sentence("6.1.5.1", "Asynchronous phase: REQ falls while ACK is true."),
    "18c": Sentence("6.1.5.1", "Asynchronous phase: ACK rises while REQ is true."),
    "18d": Sentence("6.1.5.1", "Asynchronous phase: ACK falls while REQ is false."),
    "19a": Sentence("6.1.5.1", "Asynchronous phase: the data lines have not changed for a deskew delay and a cable skew delay "
                    "(55 ns) before a byte crosses.", "the last change of the data lines"),
    "20a": Sentence("6.1.5.1", "Asynchronous phase: with I/O true the data lines do not change while REQ is true and ACK false."),
    "20b": Sentence("6.1.5.1", "Asynchronous phase: with I/O false the data lines do not change while REQ and ACK are both true."),
    "21a": Sentence("6.1.5.2", "Under an agreement with an offset the rises of REQ in a DATA phase are never fewer than those "
                    "of ACK."),
    "21b": Sentence("6.1.5.2", "Under an agreement with an offset the rises of REQ in a DATA phase are at most the offset more "
                    "than those of ACK (an offset of 255 is no limit)."),
    "22a": Sentence("6.1.5.2, 6.6.21", "Synchronous DATA phase: the rises of REQ are at least a transfer period apart, as are "
                    "those of ACK.", "the last rise of the line"),
    "22b": Sentence("6.1.5.2", "Synchronous DATA phase: a pulse of REQ or ACK is at least an assertion period long (90 ns; 30 ns "
                    "for factors 25 to 49).", "the rise of the line"),
    "22c": Sentence("6.1.5.2", "Synchronous DATA phase: REQ or ACK is false for at least a negation period (90 ns; 30 ns for "
                    "factors 25 to 49) between pulses.", "the fall of the line"),
    "22d": Sentence("6.1.5.2", "Synchronous DATA phase: the data lines have not changed for 55 ns (25 ns for factors 25 to 49) "
                    "before a byte crosses.", "the last change of the data lines"),
    "22e": Sentence("6.1.5.2", "Synchronous DATA phase: the data lines do not change for 100 ns (35 ns for factors 25 to 49) "
                    "after a byte crosses.", "the byte crossed"),
    "23a": Sentence("6.1.5.2", "A synchronous DATA phase is left, by the phase lines or BSY, only with as many rises of ACK as "
                    "of REQ."),
    "24a": Sentence("6.2.1", "ATN does not fall while ACK is true in MESSAGE OUT."),
    "24b": Sentence("6.2.1", "Where ACK rises in MESSAGE OUT with ATN false after the row, ATN has been false for two deskew "
                    "delays (90 ns).", "the fall of ATN"),
    "24c": Sentence("6.2.1", "Where ATN has been true for two deskew delays (90 ns) when ACK falls after a byte of MESSAGE IN, or "
                    "after the last byte of another phase but MESSAGE OUT, the next REQ is in MESSAGE OUT, unless ATN has fallen "
                    "before it."),
    "25a": Sentence("6.6", "The first byte after a selection is an IDENTIFY, an ABORT or a BUS DEVICE RESET in MESSAGE OUT; after "
                    "a reselection it is an IDENTIFY in MESSAGE IN."),
    "25b": Sentence("6.6", "The bytes of a MESSAGE phase form, in order, messages for that direction."),
    "25c": Sentence("6.6", "A MESSAGE phase is left with no message half sent, but for MESSAGE IN with ATN true, and for BUS FREE."),
    "25d": Sentence("6.6", "No byte of DATA crosses while a synchronous data transfer request of the connection is open."),
    "26a": Sentence("7.2", "The first byte of COMMAND since the command pointer was restored is of group 0 or 1."),
    "26b": Sentence("7.2, 6.6", "At most 6 bytes of COMMAND (group 0) or 10 (group 1) cross until the pointer is restored again."),
    "26c": Sentence("7.2, 6.6", "A byte of DATA crosses only when all bytes of COMMAND stand, or none has crossed."),
    "27a": Sentence("6.1.1", "The target releases BSY only while REQ and ACK are false."),
    "27b": Sentence("6.1.1", "The target raises no line in the row in which it releases BSY."),
    "28a": Sentence("6.2.2", "A row that raises RST raises no other line."),
    "28b": Sentence("6.2.2", "While RST is true a row raises no line but RST."),
    "28c": Sentence("6.2.2", "Before a row later than a bus clear delay (800 ns) after RST rose no line but RST is true.",
                    "the rise of RST"),
    "28d": Sentence("6.2.2", "A device releases RST at least a reset hold time (25,000 ns) after it raised it.", "the device raised RST"),
}
# A place for each sentence, in their order.
PLACES = {name: place for place, name in enumerate(SENTENCES)}


def rule_of(sentence):
    """The number of the rule of a sentence."""
    return int(sentence[:-1])


class Finding(NamedTuple):
    """A sentence that a row falls under: broken, or kept by a time."""

    sentence: str
    # The time from which is measured, in ns, where a time would do; else None.
    since: Optional[int]
    # What has to pass at least, or may pass at most, in ns.
    delay: int
    is_latest: bool = False

    @property
    def rule(self):
        return rule_of(self.sentence)

    @property
    def bound(self):
        """The soonest time that keeps the sentence, or the latest."""
        return None if self.since is None else self.since + self.delay


class Call:
    """While SEL is true: who raised it, when, and what came of it."""

    __slots__ = ("caller", "at", "called", "reselects", "calling", "released", "withdrawn", "resumed", "answered", "struck")

    def __init__(self, caller, at):
        self.caller, self.at, self.called = caller, at, None
        self.reselects = self.struck = False
        self.calling = self.released = self.withdrawn = self.resumed = self.answered = None


class Connection(NamedTuple):
    initiator: int
    target: int
    began: int
    reselected: bool


class Spoken(NamedTuple):
    """What the messages of a connection say."""

    period: int = 0
    offset: int = 0
    # Whose request is open, and whose answered where that is the last message: "initiator", "target" or None.
    offer: Optional[str] = None
    answered: Optional[str] = None
    first: int = 0
    count: int = 0
    device_reset: bool = False


SINGLE_OUT = frozenset((5, 6, 7, 8, 9, 0xC, 0xD, 0xE))
SINGLE_IN = frozenset((0, 2, 3, 4, 7))
MORE, UNKNOWN = "more", "unknown"


def message_of(data, is_out):
    """What bytes of a MESSAGE phase are: MORE, UNKNOWN, or the whole message as bytes."""
    first = data[0]
    if first == 1:
        if data[:3] != bytes((1, 3, 1))[: len(data)]:
            return UNKNOWN
        return bytes(data) if len(data) == 5 else MORE
    if first in (0x20, 0x21, 0x22) and (is_out or first == 0x20):
        return bytes(data) if len(data) == 2 else MORE
    if first in (SINGLE_OUT if is_out else SINGLE_IN) or first & 0xF8 == 0x80 or is_out and first & 0xF8 == 0xC0:
        return bytes(data)
    return UNKNOWN


def is_opening(message, is_out):
    return message[0] >= 0x80 or is_out and message[0] in (6, 0xC)


def group_length(code):
    """How many bytes a command block has, by its first, or None."""
    return {0: 6, 1: 10}.get(code >> 5)


def spoken_with(old, end, message):
    """What is said after a message of this end."""
    first = message[0]
    if first == 1:
        if old.offer not in (None, end):
            return old._replace(period=message[3], offset=message[4], offer=None, answered=end)
        return old._replace(offer=end, answered=None)
    if first == 7:
        if old.offer not in (None, end):
            return old._replace(offset=0, offer=None, answered=None)
        if old.answered not in (None, end):
            return old._replace(offset=0, answered=None)
    if first == 3 and end == "target":
        return old._replace(first=0, count=0, answered=None)
    if first == 0xC and end == "initiator":
        return old._replace(offset=0, device_reset=True, answered=None)
    return old._replace(answered=None) if old.answered else old


class TransferTimes(NamedTuple):
    period: int
    assertion: int
    negation: int
    set_up: int
    hold: int


def times_of(factor):
    """The times of synchronous transfer with this transfer period factor, in ns."""
    if 25 <= factor <= 49:
        return TransferTimes(4 * factor, 30, 30, 25, 35)
    return TransferTimes(4 * factor, 90, 90, 55, 100)


TIMES = [times_of(factor) for factor in range(256)]
NOTHING, ASKED, OWED = range(3)


class Bus:
    """What stands on the bus after the rows so far, in the terms of the rules."""

    def __init__(self):
        self.drives = [0] * 8
        self.lines = 0
        self.last = 0
        self.since = [0] * 18
        self.data_since = 0
        self.bsy_raised = [0] * 8
        self.rst_raised = [0] * 8
        self.arbitration = None
        self.call = None
        self.connection = None
        self.receiver = None
        self.req = self.ack = 0
        self.last_req = self.last_ack = None
        self.turned = False
        self.duty = NOTHING
        self.agreed = {}
        self.heard, self.void = Spoken(), None
        self.at_phase = (self.heard, self.void)
        self.is_last = False
        self.half = self.fresh = b""
        self.begun = False

    def copy(self):
        """The same, to go on from without changing this."""
        other = copy(self)
        other.drives, other.since, other.agreed = self.drives[:], self.since[:], dict(self.agreed)
        other.bsy_raised, other.rst_raised = self.bsy_raised[:], self.rst_raised[:]
        other.call = copy(self.call)
        return other

    # What stands.

    def is_free(self):
        return not self.lines & (BSY | SEL | RST)

    def free_since(self):
        return max(self.since[9], self.since[10], self.since[17])

    def phase_since(self):
        return max(self.since[11], self.since[12], self.since[13])

    def is_pulsed(self):
        """Whether it is a DATA phase under an agreement with an offset."""
        return self.connection is not None and not self.lines & (MSG | CD) and self.heard.offset != 0

    def initiator_bsy(self):
        if self.connection:
            return self.drives[self.connection.initiator] & BSY != 0
        call = self.call
        return bool(call and call.called is not None and call.reselects and self.drives[call.called] & BSY)

    def union_with(self, device, lines):
        union = lines
        for other, driven in enumerate(self.drives):
            if other != device:
                union |= driven
        return union

    def stage(self):
        """What stands on the bus, in words."""
        lines = self.lines
        if lines & RST:
            return "RESET"
        if self.connection:
            return PHASE_NAMES[lines & PHASE]
        if lines & SEL:
            if self.call and self.call.called is not None:
                return "RESELECTION" if self.call.reselects else "SELECTION"
            return "ARBITRATION (won)"
        return "ARBITRATION" if lines & BSY else "BUS FREE"

    def role_of(self, device):
        """What a device is on the bus now: initiator, target, caller, called, contender, or nothing."""
        if self.connection:
            return {self.connection.initiator: "initiator", self.connection.target: "target"}.get(device, "third device")
        call = self.call
        if call:
            if device == call.caller:
                return "caller" if call.called is None else "target" if call.reselects else "initiator"
            if device == call.called:
                return "called initiator" if call.reselects else "called target"
            return "loser" if self.drives[device] else ""
        return "contender" if self.arbitration and self.drives[device] & BSY else ""

    # The sentences.

    def findings(self, time, device, lines, fault=None):
        """The sentences that this row breaks, and those of a time that it keeps: two lists of Finding.

        The row drives `lines`, or is a fault on the bit `fault`.
        """
        broken, kept = [], []
        before = self.lines
        own = self.drives[device]
        after_own = own if fault is not None else lines
        after = before if after_own == own else self.union_with(device, after_own)
        raised, lowered = after_own & ~own, own & ~after_own
        up, down = after & ~before, before & ~after
        since = self.since
        connection, call, arbitration = self.connection, self.call, self.arbitration

        def no(sentence):
            broken.append(Finding(sentence, None, 0))

        def least(sentence, start, delay):
            if start is None:
                broken.append(Finding(sentence, None, delay))
            elif time - start < delay:
                broken.append(Finding(sentence, start, delay))
            else:
                kept.append(Finding(sentence, start, delay))

        def latest(sentence, start, delay):
            (broken if time - start > delay else kept).append(Finding(sentence, start, delay, True))

        # 1 and 2
        if time < self.last:
            broken.append(Finding("1a", self.last, 0))
        if fault is None:
            if after_own == own:
                no("2a")
        elif not (self.receiver == device and self.last == time):
            if (call and call.called == device and call.answered is None and not call.struck
                    and before & SEL and before >> device & 1 and not before & BSY):
                least("2b", since[9], BUS_SETTLE)
            else:
                no("2b")
        # 28, and nothing else under RST
        if (before | after) & RST:
            if after_own & RST and not own & RST and raised & ~RST:
                no("28a")
            elif before & RST and raised & ~RST:
                no("28b")
            if before & RST and before & ~RST:
                latest("28c", since[17], BUS_CLEAR)
            if lowered & RST:
                least("28d", self.rst_raised[device], RESET_HOLD)
            return broken, kept
        self._free_and_won(no, least, latest, time, device, own, after_own, raised)
        if call:
            self._called(no, least, latest, time, device, own, after_own, raised, lowered, after)
        if up & REQ and self.initiator_bsy():
            no("13e")
        ends = connection or self._connection_after(after, time)
        if ends:
            self._lines(no, least, device, after_own, before, up, down, ends)
        if connection:
            self._connected(no, least, latest, time, device, own, after_own, raised, lowered, up, down, after)
        return broken, kept

    def _free_and_won(self, no, least, latest, time, device, own, after_own, raised):
        before, since, arbitration = self.lines, self.since, self.arbitration
        enters = raised & BSY and not before & SEL and self.connection is None
        contends = arbitration is not None and own & BSY
        if not before & (BSY | SEL):
            if raised and not enters:
                no("3a")
            if before & ~RST:
                latest("3b", max(since[9], since[10]), QUIET)
        if enters:
            if own:
                no("4a")
            if after_own != BSY | 1 << device:
                no("4b")
            least("4c", arbitration[0] if arbitration else self.free_since(), ENTRY)
            if arbitration:
                latest("4d", arbitration[1], BUS_SET)
        elif contends and after_own and not raised & SEL:
            no("4e")
        if raised & SEL:
            if contends:
                least("5b", self.bsy_raised[device], ARBITRATION)
            else:
                no("5a")
            if (before & IDS) >> (device + 1):
                no("6a")
            if after_own != own | SEL:
                no("6b")

    def _called(self, no, least, latest, time, device, own, after_own, raised, lowered, after):
        before, since, call = self.lines, self.since, self.call
        caller, called = call.caller, call.called
        answers = called is not None and device == called and raised & BSY
        if call.answered is None:
            if device != caller and raised and not answers:
                no("7a")
            if any(driven for other, driven in enumerate(self.drives) if other != caller):
                latest("7b", call.at, BUS_CLEAR)
        if device == caller:
            if called is None:
                least("8a", call.at, QUIET)
                if bin(after_own & IDS).count("1") != 2 or not after_own >> caller & 1:
                    no("9a")
                if not after_own & DBP:
                    no("9b")
                if bool(after_own & ATN) == bool(after_own & IO):
                    no("9c")
                if after_own & (BSY | SEL | CD | MSG | REQ | ACK | RST) != BSY | SEL:
                    no("9d")
            elif call.released is None:
                if not lowered & BSY or after_own | BSY != own:
                    no("9e")
                least("9f", call.calling, TWO_DESKEW)
        if called is None:
            return
        if answers:
            if own:
                no("10a")
            if call.struck:
                no("10b")
            stands = before & SEL and before >> called & 1 and not before & BSY and call.released is not None
            least("10c", max(since[10], since[called], since[9], call.released) if stands else None, BUS_SETTLE)
            if after_own != BSY and not (call.reselects and after_own == BSY | ATN):
                no("10d")
        elif after & SEL and raised:
            late = call.reselects and call.answered is not None
            if not (late and (device == caller and not raised & ~BSY or device == called and not raised & ~ATN)):
                no("10e")
        if device == caller and call.answered is not None and lowered & SEL:
            if call.reselects:
                least("11b", call.resumed, TWO_DESKEW)
                if not own & BSY:
                    no("13a")
                if not own & IO or not after_own & BSY or not after_own & IO:
                    no("13b")
            else:
                least("11a", call.answered, TWO_DESKEW)
                if after_own & ~(DATA | ATN):
                    no("11c")
        if device == caller and call.released is not None and call.answered is None:
            if call.withdrawn is None:
                if not own & DATA or after_own & DATA or (own ^ after_own) & ~DATA:
                    no("12a")
                least("12b", call.released, TIME_OUT)
            else:
                if after_own:
                    no("12c")
                least("12d", call.withdrawn, ABORT_TIME)
        if call.reselects and call.answered is not None and device == called and lowered & BSY:
            no("13c")

    def _connection_after(self, after, time):
        """The connection that begins with a row after which the bus has these lines, where none stood."""
        call = self.call
        if not (self.lines & SEL and not after & SEL and after & BSY and not after & RST):
            return None
        if not call or call.called is None or call.answered is None:
            return None
        initiator, target = (call.called, call.caller) if call.reselects else (call.caller, call.called)
        return Connection(initiator, target, time, call.reselects)

    def _lines(self, no, least, device, after_own, before, up, down, ends):
        if device == ends.target:
            if after_own & (ACK | ATN):
                no("14b")
        elif device == ends.initiator:
            if after_own & (CD | IO | MSG | REQ):
                no("14a")
        elif after_own:
            no("14c")
        changes = (up | down) & PHASE
        if changes and before & (REQ | ACK):
            no("14d")
        if up & REQ:
            least("14e", None if changes else max(self.phase_since(), ends.began), BUS_SETTLE)
            if before & MSG and not before & CD:
                no("14f")

    def _connected(self, no, least, latest, time, device, own, after_own, raised, lowered, up, down, after):
        before, since, connection = self.lines, self.since, self.connection
        is_in, heard = before & IO, self.heard
        is_data, is_out = not before & (MSG | CD), before & PHASE == MSG | CD
        changes_data, changes_phase = (up | down) & DATA, (up | down) & PHASE
        crosses = up & REQ if is_in else up & ACK
        # 13, 15, 16
        if connection.reselected and device == connection.initiator and lowered & BSY and after_own & ~ATN:
            no("13d")
        if raised & DATA:
            if device == connection.target and not is_in:
                no("15b")
            elif device == connection.initiator and is_in:
                no("15a")
        if is_in and self.drives[connection.initiator] & DATA:
            latest("15c", since[12], DATA_RELEASE)
        if after & IO and (self.turned or up & IO) and device == connection.target and after_own & DATA:
            least("16a", time if up & IO else since[12], TURN)
        if not is_in and self.drives[connection.target] & DATA:
            latest("16b", since[12], DESKEW)
        # 17 to 23
        if crosses and not is_odd(after):
            no("17a")
        stand = None if changes_data else self.data_since
        if not (is_data and heard.offset):
            if up & REQ and before & ACK:
                no("18a")
            if down & REQ and not before & ACK:
                no("18b")
            if up & ACK and not before & REQ:
                no("18c")
            if down & ACK and before & REQ:
                no("18d")
            if crosses:
                least("19a", stand, SET_UP)
            if changes_data and before & REQ and (not before & ACK if is_in else before & ACK):
                no("20a" if is_in else "20b")
        else:
            if up & ACK and not self.ack < self.req:
                no("21a")
            if up & REQ and heard.offset != 255 and self.req - self.ack >= heard.offset:
                no("21b")
            times = TIMES[heard.period]
            for line, last, bit in ((REQ, self.last_req, 14), (ACK, self.last_ack, 15)):
                if up & line and last is not None:
                    least("22a", last, times.period)
                    least("22c", since[bit], times.negation)
                if down & line:
                    least("22b", since[bit], times.assertion)
            if crosses:
                least("22d", stand, times.set_up)
            last = self.last_req if is_in else self.last_ack
            if changes_data and last is not None:
                least("22e", last, times.hold)
            if (changes_phase or down & BSY) and self.req != self.ack:
                no("23a")
        # 24
        if is_out:
            if down & ATN and before & ACK:
                no("24a")
            if up & ACK and not after & ATN:
                least("24b", None if down & ATN else since[16], TWO_DESKEW)
        if up & REQ and self.duty == OWED and not is_out:
            no("24c")
        # 25
        if crosses:
            byte, is_message = after & IDS, before & (MSG | CD) == MSG | CD
            got = message_of(self.half + bytes((byte,)), is_out) if is_message else None
            if not self.begun:
                opens = got not in (None, MORE, UNKNOWN) and is_opening(got, is_out)
                if not opens or connection.reselected != bool(is_in):
                    no("25a")
            if got == UNKNOWN:
                no("25b")
            if is_data and heard.offer:
                no("25d")
            if before & PHASE == CD:
                if heard.count == 0:
                    if group_length(byte) is None:
                        no("26a")
                elif heard.count >= (group_length(heard.first) or 0):
                    no("26b")
            if is_data and heard.count not in (0, group_length(heard.first)):
                no("26c")
        if changes_phase and self.half and not (is_in and before & MSG and before & CD and before & ATN or down & BSY):
            no("25c")
        # 27
        if device == connection.target and lowered & BSY:
            if before & (REQ | ACK):
                no("27a")
            if raised:
                no("27b")

    def findings_at_end(self, time):
        """The sentences that an end at this time breaks, and those of a latest time that it keeps."""
        broken, kept = [], []
        before, since, connection, call = self.lines, self.since, self.connection, self.call

        def latest(sentence, start, delay):
            (broken if time - start > delay else kept).append(Finding(sentence, start, delay, True))

        if time < self.last:
            broken.append(Finding("1a", self.last, 0))
        if before & RST:
            if before & ~RST:
                latest("28c", since[17], BUS_CLEAR)
            return broken, kept
        if before and not before & (BSY | SEL):
            latest("3b", max(since[9], since[10]), QUIET)
        if call and call.answered is None and any(lines for other, lines in enumerate(self.drives) if other != call.caller):
            latest("7b", call.at, BUS_CLEAR)
        if connection:
            if before & IO and self.drives[connection.initiator] & DATA:
                latest("15c", since[12], DATA_RELEASE)
            if not before & IO and self.drives[connection.target] & DATA:
                latest("16b", since[12], DESKEW)
        return broken, kept

    # One row more.

    def step(self, time, device, lines, fault=None):
        """Goes on by a row, lawful or not."""
        own = self.drives[device]
        before = self.lines
        if fault is not None:
            if self.call and self.call.called == device:
                self.call.struck = True
            self.receiver = None
            self.last = time
            return
        self.drives[device] = lines
        union = 0
        for driven in self.drives:
            union |= driven
        after = self.lines = union
        up, down = after & ~before, before & ~after
        changed = up | down
        connection = self.connection
        held = before & after & ATN and time - self.since[16] >= TWO_DESKEW
        ends = (connection if after & BSY else None) if connection else self._connection_after_from(before, after, time)
        free = self.free_since()
        # Messages
        spoken = self.heard
        self.receiver = None
        if connection:
            if before & IO:
                if up & REQ:
                    self.receiver = connection.initiator
            elif up & ACK:
                self.receiver = connection.target
        if self.receiver is not None:
            self._byte(before, after)
        elif changed & PHASE:
            self.at_phase = (self.heard, self.void)
            self.is_last = False
            self.half = self.fresh = b""
        if ends is None:
            if connection or self.begun or self.half:
                self._open(Spoken())
        elif connection is None:
            self._open(Spoken(*self.agreed.get((ends.initiator, ends.target), (0, 0))))
        # Agreements
        if after & RST:
            self.agreed.clear()
        elif connection and not after & BSY:
            if spoken.device_reset:
                for initiator in range(8):
                    self.agreed.pop((initiator, connection.target), None)
            self.agreed[connection.initiator, connection.target] = (spoken.period, spoken.offset)
        # Pulses, attention
        self.turned = bool(connection and (self.turned or up & IO))
        self.connection = ends
        if ends is None or changed & PHASE:
            self.req = self.ack = 0
            self.last_req = self.last_ack = None
        else:
            if up & REQ:
                self.req += 1
                self.last_req = time
            if up & ACK:
                self.ack += 1
                self.last_ack = time
        if ends is None or down & ATN or up & REQ:
            self.duty = NOTHING
        elif down & ACK and held:
            if before & PHASE == PHASE:
                self.duty = OWED
            elif before & PHASE != MSG | CD:
                self.duty = ASKED
        elif changed & PHASE and self.duty:
            self.duty = OWED
        # Arbitration and call
        if self.arbitration is None:
            if not before & (BSY | SEL | RST) and after & BSY and not after & SEL:
                self.arbitration = (free, time)
        elif after & SEL or not after & (BSY | SEL | RST):
            self.arbitration = None
        if not after & SEL:
            self.call = None
        elif up & SEL:
            self.call = Call(device, time)
        elif self.call:
            self._call_on(time, device, own, lines)
        # Times
        if lines & ~own & BSY:
            self.bsy_raised[device] = time
        if lines & ~own & RST:
            self.rst_raised[device] = time
        if changed:
            if changed & DATA:
                self.data_since = time
                for bit in BITS[changed & DATA]:
                    self.since[bit] = time
            rest = changed >> 9
            bit = 9
            while rest:
                if rest & 1:
                    self.since[bit] = time
                rest >>= 1
                bit += 1
        self.last = time

    def _connection_after_from(self, before, after, time):
        if not (before & SEL and not after & SEL and after & BSY and not after & RST):
            return None
        call = self.call
        if not call or call.called is None or call.answered is None:
            return None
        initiator, target = (call.called, call.caller) if call.reselects else (call.caller, call.called)
        return Connection(initiator, target, time, call.reselects)

    def _open(self, spoken):
        self.heard, self.void = spoken, None
        self.at_phase = (spoken, None)
        self.is_last = self.begun = False
        self.half = self.fresh = b""

    def _byte(self, before, after):
        byte = after & IDS
        phase = before & PHASE
        if phase == MSG | CD:
            if self.is_last:
                self.fresh = b""
                self.heard, self.void = self.at_phase
            got = message_of(self.fresh + bytes((byte,)), True)
            self.fresh = self.fresh + bytes((byte,)) if got == MORE else b""
            if got not in (MORE, UNKNOWN):
                now = self.void if got[0] == 9 and self.void is not None else self.heard
                self.heard, self.void = spoken_with(now, "initiator", got), None
            self.is_last = not after & ATN
            got = message_of(self.half + bytes((byte,)), True)
            self.half = self.half + bytes((byte,)) if got == MORE else b""
        elif phase == PHASE:
            if not self.half:
                self.void = self.heard
            got = message_of(self.half + bytes((byte,)), False)
            self.half = self.half + bytes((byte,)) if got == MORE else b""
            if got not in (MORE, UNKNOWN):
                self.heard = spoken_with(self.heard, "target", got)
        elif phase == CD:
            self.heard = _with_byte(self.heard, byte)
            self.void = self.void and _with_byte(self.void, byte)
        self.begun = True

    def _call_on(self, time, device, own, lines):
        call = self.call
        if call.called is None:
            if device == call.caller and bin(lines & IDS).count("1") == 2 and lines >> device & 1:
                other = lines & IDS & ~(1 << device)
                call.called, call.reselects, call.calling = other.bit_length() - 1, bool(lines & IO), time
        elif device == call.caller:
            if own & ~lines & BSY:
                call.released = time
            if own & DATA and not lines & DATA:
                call.withdrawn = time
            if lines & ~own & BSY:
                call.resumed = time
        elif device == call.called and lines & ~own & BSY:
            call.answered = time


def _with_byte(spoken, byte):
    return spoken._replace(first=byte if spoken.count == 0 else spoken.first, count=spoken.count + 1)


PHASE_NAMES = {
    0: "DATA OUT", IO: "DATA IN", CD: "COMMAND", CD | IO: "STATUS", MSG | CD: "MESSAGE OUT", PHASE: "MESSAGE IN",
    MSG: "reserved phase", MSG | IO: "reserved phase",
}


def lowest(broken):
    """The lowest rule of some findings, or 0."""
    return min((finding.rule for finding in broken), default=0)
