// The sentences of the 28 rules, and what stands on the bus by their terms, row by row: a second reading of the rules, as in
// scope/scsiscope/rules.py. It gives a broken rule its letter and its measures; the verdict is the judge's.

const DATA = 0x1ff, IDS = 0xff, DBP = 0x100;
const BSY = 1 << 9, SEL = 1 << 10, CD = 1 << 11, IO = 1 << 12, MSG = 1 << 13, REQ = 1 << 14, ACK = 1 << 15, ATN = 1 << 16, RST = 1 << 17;
const PHASE = MSG | CD | IO;
const LINE_NAMES = {9: "BSY", 10: "SEL", 11: "C/D", 12: "I/O", 13: "MSG", 14: "REQ", 15: "ACK", 16: "ATN", 17: "RST"};
const SHOWN_LINES = [BSY, SEL, ATN, MSG, CD, IO, REQ, ACK, RST];

// The delays of the standard, in ns.
const BUS_SETTLE = 400, BUS_CLEAR = 800, BUS_FREE = 800, BUS_SET = 1800, ARBITRATION = 2400, DATA_RELEASE = 400, DESKEW = 45;
const TWO_DESKEW = 90, SET_UP = 55, ENTRY = BUS_SETTLE + BUS_FREE, QUIET = BUS_CLEAR + BUS_SETTLE, TURN = DATA_RELEASE + BUS_SETTLE;
const TIME_OUT = 250000000, ABORT_TIME = 200000 + TWO_DESKEW, RESET_HOLD = 25000;

const PHASE_NAMES = {
  0: "DATA OUT", [IO]: "DATA IN", [CD]: "COMMAND", [CD | IO]: "STATUS", [MSG | CD]: "MESSAGE OUT", [PHASE]: "MESSAGE IN",
  [MSG]: "reserved phase", [MSG | IO]: "reserved phase",
};
const MORE = "more", UNKNOWN = "unknown", NOTHING = 0, ASKED = 1, OWED = 2;
const SINGLE_OUT = new Set([5, 6, 7, 8, 9, 0xc, 0xd, 0xe]), SINGLE_IN = new Set([0, 2, 3, 4, 7]);

function bitCount(bits) {
  let count = 0;
  for (; bits; bits &= bits - 1) count++;
  return count;
}

const isOdd = (lines) => bitCount(lines & DATA) % 2 === 1;
const hex2 = (byte) => byte.toString(16).padStart(2, "0");
const lineName = (line) => LINE_NAMES[31 - Math.clz32(line)];
const lineNames = (lines) => SHOWN_LINES.filter((line) => lines & line).map(lineName);
const dataWords = (lines) => (lines & DATA ? hex2(lines & IDS) + (lines & DBP ? "p" : "") : "-");

// What a device changes, from one set of its lines to another, and what it drives, in words.
function changeWords(own, after) {
  const words = [...lineNames(after & ~own).map((name) => "+" + name), ...lineNames(own & ~after).map((name) => "-" + name)];
  if ((own ^ after) & DATA) words.push(after & DATA ? "data " + dataWords(after) : "data released");
  return words.join(" ") || "nothing";
}

function drivesWords(lines) {
  const words = lineNames(lines);
  if (lines & DATA) words.push("data " + dataWords(lines));
  return words.join(" ") || "no line";
}

// What bytes of a MESSAGE phase are: MORE, UNKNOWN, or the whole message.
function messageOf(bytes, isOut) {
  const first = bytes[0];
  if (first === 1) {
    if ((bytes.length > 1 && bytes[1] !== 3) || (bytes.length > 2 && bytes[2] !== 1)) return UNKNOWN;
    return bytes.length === 5 ? bytes : MORE;
  }
  if (first === 0x20 || (isOut && (first === 0x21 || first === 0x22))) return bytes.length === 2 ? bytes : MORE;
  if ((isOut ? SINGLE_OUT : SINGLE_IN).has(first) || (first & 0xf8) === 0x80 || (isOut && (first & 0xf8) === 0xc0)) return bytes;
  return UNKNOWN;
}

const isOpening = (message, isOut) => message[0] >= 0x80 || (isOut && (message[0] === 6 || message[0] === 0xc));
// How many bytes a command block has, by its first, or null.
const groupLength = (code) => ({0: 6, 1: 10})[code >> 5] ?? null;

// What the messages of a connection say: the agreement, whose request is open, whose answered by the last message, the command block.
const spoken = (period = 0, offset = 0) => ({period, offset, offer: null, answered: null, first: 0, count: 0, deviceReset: false});

function spokenWith(old, end, message) {
  const first = message[0];
  if (first === 1) {
    if (old.offer !== null && old.offer !== end) return {...old, period: message[3], offset: message[4], offer: null, answered: end};
    return {...old, offer: end, answered: null};
  }
  if (first === 7) {
    if (old.offer !== null && old.offer !== end) return {...old, offset: 0, offer: null, answered: null};
    if (old.answered !== null && old.answered !== end) return {...old, offset: 0, answered: null};
  }
  if (first === 3 && end === "target") return {...old, first: 0, count: 0, answered: null};
  if (first === 0xc && end === "initiator") return {...old, offset: 0, deviceReset: true, answered: null};
  return old.answered ? {...old, answered: null} : old;
}

const withCommandByte = (old, byte) => ({...old, first: old.count === 0 ? byte : old.first, count: old.count + 1});

// The times of synchronous transfer with a transfer period factor, in ns.
function transferTimes(factor) {
  if (25 <= factor && factor <= 49) return {period: 4 * factor, assertion: 30, negation: 30, setUp: 25, hold: 35};
  return {period: 4 * factor, assertion: 90, negation: 90, setUp: 55, hold: 100};
}

const ruleOf = (sentence) => parseInt(sentence, 10);
const lowestRule = (broken) => broken.reduce((least, it) => Math.min(least || 99, ruleOf(it.sentence)), 0);

// What stands on the bus after some rows.
class Bus {
  constructor() {
    this.drives = [0, 0, 0, 0, 0, 0, 0, 0];
    this.lines = this.last = this.dataSince = 0;
    this.since = Array(18).fill(0);
    this.bsyRaised = Array(8).fill(0);
    this.rstRaised = Array(8).fill(0);
    this.arbitration = this.call = this.connection = this.receiver = null;
    this.req = this.ack = 0;
    this.lastReq = this.lastAck = null;
    this.turned = false;
    this.duty = NOTHING;
    this.agreed = new Map();
    this.heard = spoken();
    this.void = null;
    this.atPhase = [this.heard, this.void];
    this.isLast = this.begun = false;
    this.half = [];
    this.fresh = [];
  }

  copy() {
    const other = Object.assign(new Bus(), this);
    for (const name of ["drives", "since", "bsyRaised", "rstRaised"]) other[name] = this[name].slice();
    other.agreed = new Map(this.agreed);
    other.call = this.call && {...this.call};
    return other;
  }

  // What stands.

  freeSince() {
    return Math.max(this.since[9], this.since[10], this.since[17]);
  }

  phaseSince() {
    return Math.max(this.since[11], this.since[12], this.since[13]);
  }

  initiatorBsy() {
    if (this.connection) return (this.drives[this.connection.initiator] & BSY) !== 0;
    const call = this.call;
    return !!(call && call.called !== null && call.reselects && this.drives[call.called] & BSY);
  }

  unionWith(device, lines) {
    return this.drives.reduce((union, driven, other) => (other === device ? union : union | driven), lines);
  }

  // What stands on the bus, in words.
  stage() {
    const lines = this.lines;
    if (lines & RST) return "RESET";
    if (this.connection) return PHASE_NAMES[lines & PHASE];
    if (lines & SEL) {
      if (this.call && this.call.called !== null) return this.call.reselects ? "RESELECTION" : "SELECTION";
      return "ARBITRATION (won)";
    }
    return lines & BSY ? "ARBITRATION" : "BUS FREE";
  }

  // What a device is on the bus now.
  roleOf(device) {
    const {connection, call} = this;
    if (connection) return device === connection.initiator ? "initiator" : device === connection.target ? "target" : "third device";
    if (call) {
      if (device === call.caller) return call.called === null ? "caller" : call.reselects ? "target" : "initiator";
      if (device === call.called) return call.reselects ? "called initiator" : "called target";
      return this.drives[device] ? "loser" : "";
    }
    return this.arbitration && this.drives[device] & BSY ? "contender" : "";
  }

  // The sentences that a row breaks, and those of a time that it keeps. `value` is the lines of the row, or -1 - bit of a fault.
  findings(time, device, value) {
    const broken = [], kept = [];
    const isFault = value < 0, before = this.lines, own = this.drives[device], afterOwn = isFault ? own : value;
    const after = afterOwn === own ? before : this.unionWith(device, afterOwn);
    const row = {
      time, device, own, afterOwn, after, before,
      raised: afterOwn & ~own, lowered: own & ~afterOwn, up: after & ~before, down: before & ~after,
      no: (sentence) => broken.push({sentence, since: null, delay: 0, isLatest: false}),
      least: (sentence, start, delay) =>
        (start === null || time - start < delay ? broken : kept).push({sentence, since: start, delay, isLatest: false}),
      latest: (sentence, start, delay) => (time - start > delay ? broken : kept).push({sentence, since: start, delay, isLatest: true}),
    };
    const {no, least, latest, raised, lowered, up} = row;
    // 1 and 2
    if (time < this.last) broken.push({sentence: "1a", since: this.last, delay: 0, isLatest: false});
    if (!isFault) {
      if (afterOwn === own) no("2a");
    } else if (!(this.receiver === device && this.last === time)) {
      const call = this.call;
      if (call && call.called === device && call.answered === null && !call.struck && before & SEL && (before >> device) & 1 && !(before & BSY)) {
        least("2b", this.since[9], BUS_SETTLE);
      } else {
        no("2b");
      }
    }
    // 28, and nothing else under RST
    if ((before | after) & RST) {
      if (afterOwn & RST && !(own & RST) && raised & ~RST) no("28a");
      else if (before & RST && raised & ~RST) no("28b");
      if (before & RST && before & ~RST) latest("28c", this.since[17], BUS_CLEAR);
      if (lowered & RST) least("28d", this.rstRaised[device], RESET_HOLD);
      return {broken, kept};
    }
    this.freeAndWon(row);
    if (this.call) this.called(row);
    if (up & REQ && this.initiatorBsy()) no("13e");
    const ends = this.connection || this.connectionAfter(before, after, time);
    if (ends) this.endsOf(row, ends);
    if (this.connection) this.connected(row);
    return {broken, kept};
  }

  // 3 to 6
  freeAndWon({no, least, latest, device, own, afterOwn, raised, before}) {
    const {since, arbitration} = this;
    const enters = raised & BSY && !(before & SEL) && this.connection === null, contends = arbitration !== null && own & BSY;
    if (!(before & (BSY | SEL))) {
      if (raised && !enters) no("3a");
      if (before & ~RST) latest("3b", Math.max(since[9], since[10]), QUIET);
    }
    if (enters) {
      if (own) no("4a");
      if (afterOwn !== (BSY | (1 << device))) no("4b");
      least("4c", arbitration ? arbitration[0] : this.freeSince(), ENTRY);
      if (arbitration) latest("4d", arbitration[1], BUS_SET);
    } else if (contends && afterOwn && !(raised & SEL)) {
      no("4e");
    }
    if (raised & SEL) {
      if (contends) least("5b", this.bsyRaised[device], ARBITRATION);
      else no("5a");
      if ((before & IDS) >> (device + 1)) no("6a");
      if (afterOwn !== (own | SEL)) no("6b");
    }
  }

  // 7 to 13
  called({no, least, latest, device, own, afterOwn, raised, lowered, after, before}) {
    const {since, call} = this, {caller, called} = call;
    const answers = called !== null && device === called && raised & BSY;
    if (call.answered === null) {
      if (device !== caller && raised && !answers) no("7a");
      if (this.drives.some((driven, other) => other !== caller && driven)) latest("7b", call.at, BUS_CLEAR);
    }
    if (device === caller) {
      if (called === null) {
        least("8a", call.at, QUIET);
        if (bitCount(afterOwn & IDS) !== 2 || !((afterOwn >> caller) & 1)) no("9a");
        if (!(afterOwn & DBP)) no("9b");
        if (!!(afterOwn & ATN) === !!(afterOwn & IO)) no("9c");
        if ((afterOwn & (BSY | SEL | CD | MSG | REQ | ACK | RST)) !== (BSY | SEL)) no("9d");
      } else if (call.released === null) {
        if (!(lowered & BSY) || (afterOwn | BSY) !== own) no("9e");
        least("9f", call.calling, TWO_DESKEW);
      }
    }
    if (called === null) return;
    if (answers) {
      if (own) no("10a");
      if (call.struck) no("10b");
      const stands = before & SEL && (before >> called) & 1 && !(before & BSY) && call.released !== null;
      least("10c", stands ? Math.max(since[10], since[called], since[9], call.released) : null, BUS_SETTLE);
      if (afterOwn !== BSY && !(call.reselects && afterOwn === (BSY | ATN))) no("10d");
    } else if (after & SEL && raised) {
      const late = call.reselects && call.answered !== null;
      if (!(late && ((device === caller && !(raised & ~BSY)) || (device === called && !(raised & ~ATN))))) no("10e");
    }
    if (device === caller && call.answered !== null && lowered & SEL) {
      if (call.reselects) {
        least("11b", call.resumed, TWO_DESKEW);
        if (!(own & BSY)) no("13a");
        if (!(own & IO) || !(afterOwn & BSY) || !(afterOwn & IO)) no("13b");
      } else {
        least("11a", call.answered, TWO_DESKEW);
        if (afterOwn & ~(DATA | ATN)) no("11c");
      }
    }
    if (device === caller && call.released !== null && call.answered === null) {
      if (call.withdrawn === null) {
        if (!(own & DATA) || afterOwn & DATA || (own ^ afterOwn) & ~DATA) no("12a");
        least("12b", call.released, TIME_OUT);
      } else {
        if (afterOwn) no("12c");
        least("12d", call.withdrawn, ABORT_TIME);
      }
    }
    if (call.reselects && call.answered !== null && device === called && lowered & BSY) no("13c");
  }

  // The connection that begins with a row after which the bus has these lines, where none stood.
  connectionAfter(before, after, time) {
    const call = this.call;
    if (!(before & SEL && !(after & SEL) && after & BSY && !(after & RST))) return null;
    if (!call || call.called === null || call.answered === null) return null;
    const [initiator, target] = call.reselects ? [call.called, call.caller] : [call.caller, call.called];
    return {initiator, target, began: time, reselected: call.reselects};
  }

  // 14
  endsOf({no, least, device, afterOwn, before, up, down}, ends) {
    if (device === ends.target) {
      if (afterOwn & (ACK | ATN)) no("14b");
    } else if (device === ends.initiator) {
      if (afterOwn & (CD | IO | MSG | REQ)) no("14a");
    } else if (afterOwn) {
      no("14c");
    }
    const changes = (up | down) & PHASE;
    if (changes && before & (REQ | ACK)) no("14d");
    if (up & REQ) {
      least("14e", changes ? null : Math.max(this.phaseSince(), ends.began), BUS_SETTLE);
      if (before & MSG && !(before & CD)) no("14f");
    }
  }

  // 13, 15 to 27
  connected({no, least, latest, time, device, afterOwn, raised, lowered, up, down, after, before}) {
    const {since, connection, heard} = this;
    const isIn = before & IO, isData = !(before & (MSG | CD)), isOut = (before & PHASE) === (MSG | CD);
    const changesData = (up | down) & DATA, changesPhase = (up | down) & PHASE, crosses = isIn ? up & REQ : up & ACK;
    if (connection.reselected && device === connection.initiator && lowered & BSY && afterOwn & ~ATN) no("13d");
    if (raised & DATA) {
      if (device === connection.target && !isIn) no("15b");
      else if (device === connection.initiator && isIn) no("15a");
    }
    if (isIn && this.drives[connection.initiator] & DATA) latest("15c", since[12], DATA_RELEASE);
    if (after & IO && (this.turned || up & IO) && device === connection.target && afterOwn & DATA) least("16a", up & IO ? time : since[12], TURN);
    if (!isIn && this.drives[connection.target] & DATA) latest("16b", since[12], DESKEW);
    if (crosses && !isOdd(after)) no("17a");
    const stand = changesData ? null : this.dataSince;
    if (!(isData && heard.offset)) {
      if (up & REQ && before & ACK) no("18a");
      if (down & REQ && !(before & ACK)) no("18b");
      if (up & ACK && !(before & REQ)) no("18c");
      if (down & ACK && before & REQ) no("18d");
      if (crosses) least("19a", stand, SET_UP);
      if (changesData && before & REQ && (isIn ? !(before & ACK) : before & ACK)) no(isIn ? "20a" : "20b");
    } else {
      if (up & ACK && !(this.ack < this.req)) no("21a");
      if (up & REQ && heard.offset !== 255 && this.req - this.ack >= heard.offset) no("21b");
      const times = transferTimes(heard.period);
      for (const [line, last, bit] of [[REQ, this.lastReq, 14], [ACK, this.lastAck, 15]]) {
        if (up & line && last !== null) {
          least("22a", last, times.period);
          least("22c", since[bit], times.negation);
        }
        if (down & line) least("22b", since[bit], times.assertion);
      }
      if (crosses) least("22d", stand, times.setUp);
      const last = isIn ? this.lastReq : this.lastAck;
      if (changesData && last !== null) least("22e", last, times.hold);
      if ((changesPhase || down & BSY) && this.req !== this.ack) no("23a");
    }
    if (isOut) {
      if (down & ATN && before & ACK) no("24a");
      if (up & ACK && !(after & ATN)) least("24b", down & ATN ? null : since[16], TWO_DESKEW);
    }
    if (up & REQ && this.duty === OWED && !isOut) no("24c");
    if (crosses) {
      const byte = after & IDS, isMessage = (before & (MSG | CD)) === (MSG | CD);
      const got = isMessage ? messageOf([...this.half, byte], isOut) : null;
      if (!this.begun) {
        const opens = got !== null && got !== MORE && got !== UNKNOWN && isOpening(got, isOut);
        if (!opens || connection.reselected !== !!isIn) no("25a");
      }
      if (got === UNKNOWN) no("25b");
      if (isData && heard.offer) no("25d");
      if ((before & PHASE) === CD) {
        if (heard.count === 0) {
          if (groupLength(byte) === null) no("26a");
        } else if (heard.count >= (groupLength(heard.first) ?? 0)) {
          no("26b");
        }
      }
      if (isData && heard.count !== 0 && heard.count !== groupLength(heard.first)) no("26c");
    }
    if (changesPhase && this.half.length && !((isIn && before & MSG && before & CD && before & ATN) || down & BSY)) no("25c");
    if (device === connection.target && lowered & BSY) {
      if (before & (REQ | ACK)) no("27a");
      if (raised) no("27b");
    }
  }

  // The sentences that an end at this time breaks, and those of a latest time that it keeps.
  findingsAtEnd(time) {
    const broken = [], kept = [];
    const {since, connection, call} = this, before = this.lines;
    const latest = (sentence, start, delay) => (time - start > delay ? broken : kept).push({sentence, since: start, delay, isLatest: true});
    if (time < this.last) broken.push({sentence: "1a", since: this.last, delay: 0, isLatest: false});
    if (before & RST) {
      if (before & ~RST) latest("28c", since[17], BUS_CLEAR);
      return {broken, kept};
    }
    if (before && !(before & (BSY | SEL))) latest("3b", Math.max(since[9], since[10]), QUIET);
    if (call && call.answered === null && this.drives.some((driven, other) => other !== call.caller && driven)) latest("7b", call.at, BUS_CLEAR);
    if (connection) {
      if (before & IO && this.drives[connection.initiator] & DATA) latest("15c", since[12], DATA_RELEASE);
      if (!(before & IO) && this.drives[connection.target] & DATA) latest("16b", since[12], DESKEW);
    }
    return {broken, kept};
  }

  // Goes on by a row, lawful or not.
  step(time, device, value) {
    if (value < 0) {
      if (this.call && this.call.called === device) this.call.struck = true;
      this.receiver = null;
      this.last = time;
      return;
    }
    const own = this.drives[device], before = this.lines, connection = this.connection;
    this.drives[device] = value;
    let after = 0;
    for (const driven of this.drives) after |= driven;
    this.lines = after;
    const up = after & ~before, down = before & ~after, changed = up | down;
    const held = before & after & ATN && time - this.since[16] >= TWO_DESKEW;
    const ends = connection ? (after & BSY ? connection : null) : this.connectionAfter(before, after, time);
    const free = this.freeSince(), said = this.heard;
    // Messages
    this.receiver = null;
    if (connection) {
      if (before & IO) {
        if (up & REQ) this.receiver = connection.initiator;
      } else if (up & ACK) {
        this.receiver = connection.target;
      }
    }
    if (this.receiver !== null) {
      this.byte(before, after);
    } else if (changed & PHASE) {
      this.atPhase = [this.heard, this.void];
      this.isLast = false;
      this.half = [];
      this.fresh = [];
    }
    if (ends === null) {
      if (connection || this.begun || this.half.length) this.open(spoken());
    } else if (connection === null) {
      this.open(spoken(...(this.agreed.get(ends.initiator * 8 + ends.target) || [0, 0])));
    }
    // Agreements
    if (after & RST) {
      this.agreed.clear();
    } else if (connection && !(after & BSY)) {
      if (said.deviceReset) for (let initiator = 0; initiator < 8; initiator++) this.agreed.delete(initiator * 8 + connection.target);
      this.agreed.set(connection.initiator * 8 + connection.target, [said.period, said.offset]);
    }
    // Pulses, attention
    this.turned = !!(connection && (this.turned || up & IO));
    this.connection = ends;
    if (ends === null || changed & PHASE) {
      this.req = this.ack = 0;
      this.lastReq = this.lastAck = null;
    } else {
      if (up & REQ) {
        this.req++;
        this.lastReq = time;
      }
      if (up & ACK) {
        this.ack++;
        this.lastAck = time;
      }
    }
    if (ends === null || down & ATN || up & REQ) {
      this.duty = NOTHING;
    } else if (down & ACK && held) {
      if ((before & PHASE) === PHASE) this.duty = OWED;
      else if ((before & PHASE) !== (MSG | CD)) this.duty = ASKED;
    } else if (changed & PHASE && this.duty) {
      this.duty = OWED;
    }
    // Arbitration and call
    if (this.arbitration === null) {
      if (!(before & (BSY | SEL | RST)) && after & BSY && !(after & SEL)) this.arbitration = [free, time];
    } else if (after & SEL || !(after & (BSY | SEL | RST))) {
      this.arbitration = null;
    }
    if (!(after & SEL)) {
      this.call = null;
    } else if (up & SEL) {
      const none = {calling: null, released: null, withdrawn: null, resumed: null, answered: null};
      this.call = {caller: device, at: time, called: null, reselects: false, struck: false, ...none};
    } else if (this.call) {
      this.callOn(time, device, own, value);
    }
    // Times
    if (value & ~own & BSY) this.bsyRaised[device] = time;
    if (value & ~own & RST) this.rstRaised[device] = time;
    if (changed & DATA) this.dataSince = time;
    for (let rest = changed; rest; rest &= rest - 1) this.since[31 - Math.clz32(rest & -rest)] = time;
    this.last = time;
  }

  open(said) {
    this.heard = said;
    this.void = null;
    this.atPhase = [said, null];
    this.isLast = this.begun = false;
    this.half = [];
    this.fresh = [];
  }

  // A byte crosses.
  byte(before, after) {
    const byte = after & IDS, phase = before & PHASE;
    if (phase === (MSG | CD)) {
      if (this.isLast) {
        this.fresh = [];
        [this.heard, this.void] = this.atPhase;
      }
      let got = messageOf([...this.fresh, byte], true);
      this.fresh = got === MORE ? [...this.fresh, byte] : [];
      if (got !== MORE && got !== UNKNOWN) {
        const now = got[0] === 9 && this.void !== null ? this.void : this.heard;
        this.heard = spokenWith(now, "initiator", got);
        this.void = null;
      }
      this.isLast = !(after & ATN);
      got = messageOf([...this.half, byte], true);
      this.half = got === MORE ? [...this.half, byte] : [];
    } else if (phase === PHASE) {
      if (!this.half.length) this.void = this.heard;
      const got = messageOf([...this.half, byte], false);
      this.half = got === MORE ? [...this.half, byte] : [];
      if (got !== MORE && got !== UNKNOWN) this.heard = spokenWith(this.heard, "target", got);
    } else if (phase === CD) {
      this.heard = withCommandByte(this.heard, byte);
      this.void = this.void && withCommandByte(this.void, byte);
    }
    this.begun = true;
  }

  callOn(time, device, own, lines) {
    const call = this.call;
    if (call.called === null) {
      if (device === call.caller && bitCount(lines & IDS) === 2 && (lines >> device) & 1) {
        call.called = 31 - Math.clz32(lines & IDS & ~(1 << device));
        call.reselects = !!(lines & IO);
        call.calling = time;
      }
    } else if (device === call.caller) {
      if (own & ~lines & BSY) call.released = time;
      if (own & DATA && !(lines & DATA)) call.withdrawn = time;
      if (lines & ~own & BSY) call.resumed = time;
    } else if (device === call.called && lines & ~own & BSY) {
      call.answered = time;
    }
  }
}
