// A trace as it is read: its rows in typed arrays, what stands on the bus after each, and what a window of many rows shows.

// A row is looked at again from the last of these on, so that the lines of one device need not be kept for each row.
const STRIDE = 512;
// Rows of which what all and what any of them show is kept, for windows of many rows.
const BLOCK = 256;

// What stands on the bus, for the band above the lines.
const STAGES = ["BUS FREE", "ARBITRATION", "SELECTION", "RESELECTION", "DATA OUT", "DATA IN", "COMMAND", "STATUS", "reserved", "reserved", "MESSAGE OUT",
  "MESSAGE IN", "RESET"];
const FREE = 0, ARBITRATING = 1, SELECTING = 2, RESELECTING = 3, TRANSFER = 4, RESETTING = 12;

// A text is no trace: its first line that breaks the form.
class Refused extends Error {
  constructor(line, why) {
    super(`line ${line}: ${why}`);
    this.line = line;
  }
}

// Reads the bytes of a trace or a report.
class Reader {
  constructor(bytes) {
    this.bytes = bytes;
    this.at = 0;
    this.line = 1;
  }

  stop(why) {
    throw new Refused(this.line, why);
  }

  // The line from here on begins with these characters; goes on behind them.
  takes(text) {
    for (let i = 0; i < text.length; i++) if (this.bytes[this.at + i] !== text.charCodeAt(i)) return false;
    this.at += text.length;
    return true;
  }

  expect(text, why) {
    if (!this.takes(text)) this.stop(why);
  }

  // A decimal number without zeros in front.
  number(why) {
    const start = this.at;
    let value = 0, byte = this.bytes[this.at];
    for (; byte >= 48 && byte <= 57; byte = this.bytes[++this.at]) value = value * 10 + byte - 48;
    if (this.at === start || (this.bytes[start] === 48 && this.at > start + 1)) this.stop(why);
    if (value > Number.MAX_SAFE_INTEGER) this.stop("this page reads times up to 9,007,199,254,740,991 ns");
    return value;
  }

  endLine() {
    if (this.bytes[this.at] !== 10) this.stop("a line ends behind its last word");
    this.at++;
    this.line++;
  }
}

function hexDigit(byte) {
  if (byte >= 48 && byte <= 57) return byte - 48;
  return byte >= 97 && byte <= 102 ? byte - 87 : -1;
}

class Trace {
  constructor(bytes) {
    const reader = new Reader(bytes);
    let feeds = 0;
    for (let i = 0; i < bytes.length; i++) if (bytes[i] === 10) feeds++;
    this.times = new Float64Array(feeds);
    this.devices = new Uint8Array(feeds);
    // The lines that the device drives, or -1 - bit of a fault.
    this.values = new Int32Array(feeds);
    this.count = 0;
    reader.expect("trace 1\n", "a trace begins with the line `trace 1`");
    reader.line = 2;
    while (!reader.takes("end ")) this.readRow(reader);
    this.end = reader.number("`end` has a time");
    reader.endLine();
    if (reader.at < bytes.length && !reader.takes("history\n")) reader.stop("behind the end comes nothing, or `history`");
    this.times = this.times.subarray(0, this.count);
    this.devices = this.devices.subarray(0, this.count);
    this.values = this.values.subarray(0, this.count);
    this.follow();
    this.summarise();
  }

  readRow(reader) {
    const {bytes} = reader;
    if (reader.at >= bytes.length) reader.stop("a trace has a line `end T`");
    const time = reader.number("a row begins with its time"), device = bytes[reader.at + 1] - 48;
    if (bytes[reader.at] !== 32 || !(device >= 0 && device < 8) || bytes[reader.at + 2] !== 32) reader.stop("a device is 0 to 7");
    reader.at += 3;
    let value = 0;
    if (bytes[reader.at] === 102 && bytes[reader.at + 2] === 10) {
      value = -1 - (bytes[reader.at + 1] - 48);
      if (value < -9 || value > -1) reader.stop("a fault is f0 to f8");
      reader.at += 2;
    } else {
      for (let i = 0; i < 5; i++) {
        const digit = hexDigit(bytes[reader.at++]);
        if (digit < 0) reader.stop("lines are five hexadecimal digits in lower case");
        value = value * 16 + digit;
      }
      if (value > 0x3ffff) reader.stop("there are 18 lines");
    }
    reader.endLine();
    this.times[this.count] = time;
    this.devices[this.count] = device;
    this.values[this.count++] = value;
  }

  // What stands on the bus after each row, and the items of the page's own reading.
  follow() {
    const {count, times, devices, values} = this;
    // Of a number of rows: the lines after them, and what stands.
    this.lines = new Int32Array(count + 1);
    this.stages = new Uint8Array(count + 1);
    // Times for looking up rows; where times fall, as they may in a broken trace, the latest so far.
    this.moments = times;
    this.kept = new Int32Array((Math.floor(count / STRIDE) + 1) * 8);
    this.items = new Items(this);
    const drives = new Int32Array(8);
    let lines = 0, stage = FREE, latest = 0, call = ARBITRATING;
    for (let row = 0; row < count; row++) {
      if (row % STRIDE === 0) this.kept.set(drives, (row / STRIDE) * 8);
      if (times[row] < latest && this.moments === times) this.moments = times.slice();
      if (times[row] < latest) this.moments[row] = latest;
      else latest = times[row];
      if (values[row] >= 0) {
        const before = lines;
        drives[devices[row]] = values[row];
        lines = drives[0] | drives[1] | drives[2] | drives[3] | drives[4] | drives[5] | drives[6] | drives[7];
        if (lines & RST) {
          stage = RESETTING;
        } else if (!(lines & (BSY | SEL))) {
          stage = FREE;
        } else if (lines & SEL) {
          if (!(before & SEL)) call = ARBITRATING;
          if (call === ARBITRATING && lines & (IO | ATN)) call = lines & IO ? RESELECTING : SELECTING;
          stage = call;
        } else if (stage >= TRANSFER && stage < RESETTING || (before & SEL && call !== ARBITRATING)) {
          stage = TRANSFER + ((lines & MSG ? 4 : 0) | (lines & CD ? 2 : 0) | (lines & IO ? 1 : 0));
          if (stage >= TRANSFER + 4 && !(lines & CD)) stage = 8;
        } else {
          stage = ARBITRATING;
        }
        this.items.row(row, before, lines, stage);
      }
      this.lines[row + 1] = lines;
      this.stages[row + 1] = stage;
    }
    this.items.close(count);
    if (count % STRIDE === 0) this.kept.set(drives, (count / STRIDE) * 8);
  }

  summarise() {
    const blocks = Math.ceil((this.count + 1) / BLOCK);
    this.any = new Int32Array(blocks);
    this.all = new Int32Array(blocks).fill(-1);
    for (let i = 0; i <= this.count; i++) {
      this.any[Math.floor(i / BLOCK)] |= this.lines[i];
      this.all[Math.floor(i / BLOCK)] &= this.lines[i];
    }
  }

  // What each device drives after so many rows.
  drivesAfter(rows) {
    const start = Math.floor(rows / STRIDE), drives = this.kept.slice(start * 8, start * 8 + 8);
    for (let row = start * STRIDE; row < rows; row++) if (this.values[row] >= 0) drives[this.devices[row]] = this.values[row];
    return drives;
  }

  // How many rows come up to this time, it included.
  rowsUpTo(time) {
    let low = 0, high = this.count;
    while (low < high) {
      const middle = (low + high) >> 1;
      if (this.moments[middle] <= time) low = middle + 1;
      else high = middle;
    }
    return low;
  }

  // The lines that are true at any and at all of the moments after `first` to `last` rows.
  between(first, last) {
    let any = 0, all = -1, at = first;
    while (at <= last) {
      if (at % BLOCK === 0 && at + BLOCK - 1 <= last) {
        any |= this.any[at / BLOCK];
        all &= this.all[at / BLOCK];
        at += BLOCK;
      } else {
        any |= this.lines[at];
        all &= this.lines[at++];
      }
    }
    return [any, all];
  }
}

// What a trace says: the page's own reading, in the order of the rows. An item has its first row, the row behind its last,
// what stands on the bus, and the first bytes that cross in it.
class Items {
  constructor(trace) {
    this.trace = trace;
    this.firsts = [];
    this.stages = [];
    this.counts = [];
    this.bytes = [];
    this.stage = FREE;
    this.begin(0, FREE);
  }

  begin(row, stage) {
    this.stage = stage;
    this.firsts.push(row);
    this.stages.push(stage);
    this.counts.push(0);
    this.bytes.push([]);
  }

  row(row, before, lines, stage) {
    if (stage !== this.stage) this.begin(row, stage);
    const up = lines & ~before;
    if (stage >= TRANSFER && stage < RESETTING && (lines & IO ? up & REQ : up & ACK)) {
      const last = this.counts.length - 1;
      this.counts[last]++;
      if (this.bytes[last].length < 16) this.bytes[last].push(lines & IDS);
    } else if ((stage === SELECTING || stage === RESELECTING) && bitCount(lines & IDS) === 2) {
      this.bytes[this.bytes.length - 1] = [lines & IDS];
    }
  }

  close(count) {
    this.firsts.push(count);
  }

  get length() {
    return this.stages.length;
  }

  // The item to which a row belongs.
  at(row) {
    let low = 0, high = this.length - 1;
    while (low < high) {
      const middle = (low + high + 1) >> 1;
      if (this.firsts[middle] <= row) low = middle;
      else high = middle - 1;
    }
    return low;
  }

  words(item) {
    const stage = this.stages[item], bytes = this.bytes[item], count = this.counts[item];
    const rest = count > bytes.length ? " .." : "", dump = bytes.map(hex2).join(" ") + rest;
    if (stage === SELECTING || stage === RESELECTING) {
      const ids = bytes.length ? [...Array(8).keys()].filter((id) => (bytes[0] >> id) & 1).join(" and ") : "";
      return (stage === SELECTING ? "selection" : "reselection") + (ids && ": devices " + ids);
    }
    if (stage < TRANSFER || stage === RESETTING) return STAGES[stage].toLowerCase();
    if (!count) return STAGES[stage] + ", no byte";
    if (stage === TRANSFER + 2) return `${dump}  ${commandWords(bytes)}`;
    if (stage === TRANSFER + 3) return `${dump}  ${STATUS_NAMES[bytes[0]] || "unknown status"}`;
    if (stage === TRANSFER + 6 || stage === TRANSFER + 7) return `${dump}  ${messagesWords(bytes, stage === TRANSFER + 6)}`;
    return `${count} byte${count === 1 ? "" : "s"}: ${dump}`;
  }
}

// ---- messages, commands and status in words

const MESSAGE_NAMES = {
  0x00: "COMMAND COMPLETE", 0x02: "SAVE DATA POINTER", 0x03: "RESTORE POINTERS", 0x04: "DISCONNECT", 0x05: "INITIATOR DETECTED ERROR", 0x06: "ABORT",
  0x07: "MESSAGE REJECT", 0x08: "NO OPERATION", 0x09: "MESSAGE PARITY ERROR", 0x0c: "BUS DEVICE RESET", 0x0d: "ABORT TAG", 0x0e: "CLEAR QUEUE",
};
const TAG_NAMES = {0x20: "SIMPLE QUEUE TAG", 0x21: "HEAD OF QUEUE TAG", 0x22: "ORDERED QUEUE TAG"};
const STATUS_NAMES = {
  0x00: "GOOD", 0x02: "CHECK CONDITION", 0x04: "CONDITION MET", 0x08: "BUSY", 0x10: "INTERMEDIATE", 0x18: "RESERVATION CONFLICT",
  0x22: "COMMAND TERMINATED", 0x28: "QUEUE FULL",
};
const COMMAND_NAMES = {
  0x00: "TEST UNIT READY", 0x01: "REZERO UNIT", 0x03: "REQUEST SENSE", 0x04: "FORMAT UNIT", 0x08: "READ(6)", 0x0a: "WRITE(6)", 0x12: "INQUIRY",
  0x15: "MODE SELECT(6)", 0x16: "RESERVE", 0x17: "RELEASE", 0x1a: "MODE SENSE(6)", 0x1b: "START STOP UNIT", 0x25: "READ CAPACITY", 0x28: "READ(10)",
  0x2a: "WRITE(10)", 0x2f: "VERIFY", 0x35: "SYNCHRONIZE CACHE",
};

function messageWords(bytes) {
  const first = bytes[0];
  if (first >= 0x80) return `IDENTIFY, unit ${first & 7}`;
  if (first in TAG_NAMES) return `${TAG_NAMES[first]} ${bytes[1]}`;
  if (first === 1) return `SYNCHRONOUS DATA TRANSFER REQUEST, period ${4 * bytes[3]} ns, offset ${bytes[4]}`;
  return MESSAGE_NAMES[first] || "unknown message";
}

function messagesWords(bytes, isOut) {
  const words = [];
  let half = [];
  for (const byte of bytes) {
    half.push(byte);
    const got = messageOf(half, isOut);
    if (got === MORE) continue;
    words.push(got === UNKNOWN ? "unknown message" : messageWords(got));
    half = [];
  }
  return words.join("; ");
}

function commandWords(bytes) {
  const code = bytes[0], name = COMMAND_NAMES[code] || `operation code ${hex2(code)}`;
  const blocks = (first, many) => `${name}, ${many === 1 ? "block " + first : many + " blocks from " + first}`;
  if ((code === 0x08 || code === 0x0a) && bytes.length === 6) return blocks(((bytes[1] & 31) << 16) | (bytes[2] << 8) | bytes[3], bytes[4] || 256);
  if ((code === 0x28 || code === 0x2a) && bytes.length === 10) {
    return blocks(bytes.slice(2, 6).reduce((value, byte) => value * 256 + byte, 0), (bytes[7] << 8) | bytes[8]);
  }
  return name;
}
