// Why a trace is broken, and what stands at a row: by the second reading of the rules; which time would be right is asked of the judge.

const SLICE = 50000;

// What stands on the bus before a row; kept now and then, so that a later call need not begin at the first row.
class Walk {
  constructor(trace) {
    this.trace = trace;
    this.kept = [{row: 0, bus: new Bus()}];
  }

  async before(row, pause) {
    const {times, devices, values} = this.trace;
    let found = this.kept[0];
    for (const it of this.kept) if (it.row <= row && it.row >= found.row) found = it;
    const bus = found.bus.copy();
    for (let at = found.row; at < row; at++) {
      if (at > found.row && at % SLICE === 0) {
        if (!this.kept.some((it) => it.row === at)) this.kept.push({row: at, bus: bus.copy()});
        await pause(at);
      }
      bus.step(times[at], devices[at], values[at]);
    }
    return bus;
  }
}

const ns = (time) => time.toLocaleString("en-US") + " ns";

function measured(finding, time) {
  const sentence = DATA_OF_PAGE.sentences[finding.sentence];
  if (finding.since === null || !sentence.since) {
    return finding.delay ? `What is measured from has not come, or comes in the same row. Wanted: at least ${ns(finding.delay)}.` : "";
  }
  const passed = time - finding.since, wrong = finding.isLatest ? passed - finding.delay : finding.delay - passed;
  const here = `${ns(passed)} after ${sentence.since} (at ${ns(finding.since)}). Wanted: at ${finding.isLatest ? "most" : "least"} ${ns(finding.delay)}.`;
  return wrong > 0 ? `${here} It comes ${ns(wrong)} too ${finding.isLatest ? "late" : "soon"}.` : here;
}

// From when on a broken row is right, or up to when, as the judge says; or null. The judge stands before the row.
function rightTime(judge, trace, row, bus, broken) {
  if (!judge || row >= trace.count || !broken.length || broken.some((it) => it.since === null)) return null;
  const bounds = broken.map((it) => it.since + it.delay), ruleAt = (time) => judge.ruleAt(trace, row, time);
  if (broken.every((it) => !it.isLatest)) {
    const first = Math.max(...bounds, bus.last);
    if (ruleAt(first) !== 0 || !ruleAt(first - 1)) return null;
    return `Right from ${ns(first)} on, ${ns(first - trace.times[row])} later than it is: the judge lets the row be at ${ns(first)}, and not 1 ns before.`;
  }
  if (broken.every((it) => it.isLatest)) {
    const last = Math.min(...bounds);
    if (last < bus.last || ruleAt(last) !== 0 || !ruleAt(last + 1)) return null;
    return `It may come up to ${ns(last)}, ${ns(trace.times[row] - last)} sooner than it does: the judge lets the row be at ${ns(last)}, and not 1 ns later.`;
  }
  return null;
}

// What is told of a row, or of the end: what it does, the sentences that it breaks, and those of a time that it keeps.
async function tell(trace, walk, row, verdict, judge, pause) {
  const bus = await walk.before(Math.min(row, trace.count), pause), atEnd = row >= trace.count;
  const isBroken = verdict !== null && verdict.row === row + 1;
  const time = atEnd ? trace.end : trace.times[row], device = atEnd ? null : trace.devices[row], value = atEnd ? null : trace.values[row];
  const {broken, kept} = atEnd ? bus.findingsAtEnd(time) : bus.findings(time, device, value);
  const told = {row, atEnd, time, device, isBroken, stage: bus.stage(), kept, broken: [], rule: isBroken ? verdict.rule : 0, right: null};
  if (!atEnd) {
    const after = bus.copy();
    after.step(time, device, value);
    told.role = bus.roleOf(device) || after.roleOf(device);
    told.change = value < 0 ? `a fault on bit ${-1 - value} of a sample` : changeWords(bus.drives[device], value);
    told.drives = value < 0 ? drivesWords(bus.drives[device]) : drivesWords(value);
    told.bus = drivesWords(after.lines);
    told.since = time - bus.last;
    if (after.receiver !== null) told.byte = hex2(after.lines & IDS);
  } else {
    told.change = "the trace ends";
    told.bus = drivesWords(bus.lines);
    told.since = time - bus.last;
  }
  if (isBroken) {
    // The judge's word is the last: of sentences of another rule nothing is told.
    if (lowestRule(broken) === verdict.rule) told.broken = broken.filter((it) => ruleOf(it.sentence) === verdict.rule);
    told.right = rightTime(judge, trace, row, bus, broken);
  }
  return told;
}
