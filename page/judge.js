// The judge: WebAssembly that is built from the proved crates, over rows in its memory. include/scsibus.h has its calls.

const ROW_BYTES = 16, PART = 65536, NO_ROW = 255;

class Judge {
  // The judge in a module; throws where the browser has no 64-bit memory for WebAssembly.
  static async of(module) {
    const {instance} = await WebAssembly.instantiate(module, {});
    return new Judge(instance.exports, module.length);
  }

  constructor(calls, size) {
    this.calls = calls;
    this.size = size;
    // Memory behind what the module keeps for itself: a verdict, a judge, and the rows of a part.
    this.verdict = (Number(calls.__heap_base.value) + 63) & ~63;
    this.state = this.verdict + 64;
    this.stateSize = Number(calls.scsibus_judge_size());
    this.rows = (this.state + this.stateSize + 63) & ~63;
    const more = this.rows + PART * ROW_BYTES - calls.memory.buffer.byteLength;
    if (more > 0) calls.memory.grow(BigInt(Math.ceil(more / 65536)));
  }

  said() {
    const view = new DataView(this.calls.memory.buffer);
    const row = Number(view.getBigUint64(this.verdict, true)), rule = Number(view.getBigUint64(this.verdict + 8, true));
    if (rule === NO_ROW) throw new Error(`row ${row} is out of range`);
    return rule ? {row, rule} : null;
  }

  start() {
    this.calls.scsibus_judge_start(BigInt(this.state));
  }

  // Puts rows from `first` on to the memory of the module; `timeOf` may give them other times.
  put(trace, first, last, timeOf = (time) => time) {
    const view = new DataView(this.calls.memory.buffer);
    for (let row = first, at = this.rows; row < last; row++, at += ROW_BYTES) {
      const time = timeOf(trace.times[row]), value = trace.values[row];
      view.setUint32(at, time % 4294967296, true);
      view.setUint32(at + 4, Math.floor(time / 4294967296), true);
      view.setUint32(at + 8, value < 0 ? -1 - value : value, true);
      view.setUint8(at + 12, trace.devices[row]);
      view.setUint8(at + 13, value < 0 ? 1 : 0);
    }
    return [BigInt(this.rows), BigInt(last - first)];
  }

  feed(trace, first, last) {
    this.calls.scsibus_judge_feed(BigInt(this.state), ...this.put(trace, first, last), BigInt(this.verdict));
    return this.said();
  }

  // The rule that a row would break at another time, after the rows that were fed; 0 for none.
  ruleAt(trace, row, time) {
    this.calls.scsibus_judge_try(BigInt(this.state), ...this.put(trace, row, row + 1, () => time), BigInt(this.verdict));
    const said = this.said();
    return said ? said.rule : 0;
  }

  finish(end) {
    this.calls.scsibus_judge_finish(BigInt(this.state), BigInt(end), BigInt(this.verdict));
    return this.said();
  }

  save() {
    return new Uint8Array(this.calls.memory.buffer, this.state, this.stateSize).slice();
  }

  load(saved) {
    new Uint8Array(this.calls.memory.buffer, this.state, this.stateSize).set(saved);
  }

  // The verdict on a whole trace, null for lawful. Between parts it waits for `pause`; where the trace is broken, the judge is left as
  // it was before the broken row.
  async judge(trace, pause) {
    this.start();
    for (let first = 0; first < trace.count; first += PART) {
      const before = this.save(), last = Math.min(first + PART, trace.count), said = this.feed(trace, first, last);
      if (said) {
        this.load(before);
        this.feed(trace, first, said.row - 1);
        return said;
      }
      await pause(last);
    }
    return this.finish(trace.end);
  }
}
