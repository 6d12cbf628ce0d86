// The picture of a window of a trace: a band of what stands on the bus, a band of what the page reads in it, the lines by the device
// that drives them, the data byte, and a tick for each row. A window of many rows shows where a line is true, false, or both.

const LANES = [["RST", RST], ["BSY", BSY], ["SEL", SEL], ["ATN", ATN], ["MSG", MSG], ["C/D", CD], ["I/O", IO], ["REQ", REQ], ["ACK", ACK]];
const STAGE_SHORT = ["free", "arb", "sel", "resel", "D out", "D in", "cmd", "stat", "res", "res", "M out", "M in", "RST"];
const RIGHT = 12, AXIS = 20, BAND = 20, ITEMS = 18, LANE = 24, TICKS = 22, LEGEND = 20, MARKS = 18;
// A picture goes line by line up to so many rows for each of its columns.
const DENSE = 1.5;

function niceStep(span) {
  const power = 10 ** Math.floor(Math.log10(Math.max(span, 1)));
  return span / power < 2 ? 2 * power : span / power < 5 ? 5 * power : 10 * power;
}

function timeWords(time) {
  if (time >= 1e6) return +(time / 1e6).toFixed(6) + " ms";
  return time >= 1e4 ? +(time / 1e3).toFixed(3) + " µs" : +time.toFixed(1) + " ns";
}

class Picture {
  constructor(canvas) {
    this.canvas = canvas;
    this.g = canvas.getContext("2d");
    this.probe = document.createElement("span");
    canvas.parentElement.append(this.probe);
    this.colours = new Map();
    this.widths = new Map();
    this.trace = null;
    this.byRows = this.showsItems = false;
    this.from = 0;
    this.to = 1;
    this.cursor = this.broken = null;
    this.marks = [];
  }

  // A moment is a number of rows after which the bus stands; the axis is this number, or the time of the last of these rows.
  axisOf(rows) {
    if (this.byRows) return rows;
    return rows === 0 ? 0 : rows > this.trace.count ? Math.max(this.trace.end, this.lastTime()) : this.trace.moments[rows - 1];
  }

  lastTime() {
    return this.trace.count ? this.trace.moments[this.trace.count - 1] : 0;
  }

  last() {
    return this.byRows ? this.trace.count + 1 : Math.max(1, this.trace.end, this.lastTime());
  }

  rowsAt(axis) {
    if (this.byRows) return Math.max(0, Math.min(this.trace.count, Math.floor(axis)));
    return axis < 0 ? 0 : this.trace.rowsUpTo(axis);
  }

  x(axis) {
    return this.left + ((axis - this.from) / (this.to - this.from)) * (this.width - this.left - RIGHT);
  }

  axisAt(x) {
    return this.from + ((x - this.left) / (this.width - this.left - RIGHT)) * (this.to - this.from);
  }

  // The moment that is drawn nearest to a place.
  momentAt(x) {
    if (this.byRows) return Math.max(0, Math.min(this.trace.count + 1, Math.round(this.axisAt(x))));
    const axis = this.axisAt(x), rows = this.rowsAt(axis), next = Math.min(rows + 1, this.trace.count);
    return Math.abs(this.axisOf(next) - axis) < Math.abs(axis - this.axisOf(rows)) ? next : rows;
  }

  // Shows this window, within the trace and not too narrow.
  show(from, to) {
    // A little room behind the last row, so that what stands there is seen.
    const last = this.last() * 1.03, span = Math.max(this.byRows ? 4 : 20, Math.min(to - from, last));
    const start = Math.max(0, Math.min((from + to - span) / 2, last - span));
    this.from = start;
    this.to = start + span;
  }

  zoom(factor, axis = (this.from + this.to) / 2) {
    this.show(axis - (axis - this.from) * factor, axis + (this.to - axis) * factor);
  }

  // A colour of the style sheet, as it is in the theme of now.
  colour(name) {
    if (!this.colours.has(name)) {
      this.probe.style.color = `var(${name})`;
      this.colours.set(name, getComputedStyle(this.probe).color);
    }
    return this.colours.get(name);
  }

  // How wide a text is; the same texts come again and again.
  wide(words) {
    if (this.widths.size > 5000) this.widths.clear();
    if (!this.widths.has(words)) this.widths.set(words, this.g.measureText(words).width);
    return this.widths.get(words);
  }

  // The theme may have changed.
  repaint() {
    this.colours.clear();
    this.draw();
  }

  draw() {
    const {canvas, g} = this, ratio = window.devicePixelRatio || 1;
    this.width = canvas.parentElement.clientWidth;
    this.left = this.width < 500 ? 48 : 64;
    this.top = AXIS + BAND + ITEMS;
    this.height = this.top + LANE * (LANES.length + 2) + TICKS + LEGEND + MARKS;
    canvas.style.height = this.height + "px";
    canvas.width = Math.round(this.width * ratio);
    canvas.height = Math.round(this.height * ratio);
    g.setTransform(ratio, 0, 0, ratio, 0, 0);
    g.clearRect(0, 0, this.width, this.height);
    g.font = "11px system-ui, sans-serif";
    g.textBaseline = "middle";
    this.ink = this.colour("--ink");
    this.dim = this.colour("--dim");
    this.devices = [0, 1, 2, 3, 4, 5, 6, 7].map((device) => this.colour("--device-" + device));
    if (!this.trace) return;
    const first = this.rowsAt(this.from), last = this.byRows ? this.rowsAt(this.to) : this.trace.rowsUpTo(this.to);
    this.isDense = last - first > DENSE * (this.width - this.left);
    this.axis();
    this.names();
    if (this.isDense) this.columns();
    else this.rows(first, last);
    this.legend();
    if (this.broken !== null) this.upright(this.broken, this.colour("--bad"), [4, 3]);
    this.marks.forEach((rows, number) => this.upright(rows, this.colour("--mark"), [], "AB"[number]));
    if (this.cursor !== null) {
      this.upright(this.cursor, this.colour("--cursor"));
      this.foot(this.cursor, this.cursor === this.broken ? "broken: " : "");
    }
  }

  axis() {
    const {g} = this, step = niceStep((this.to - this.from) / Math.max(2, (this.width - this.left) / 110));
    for (let value = Math.ceil(this.from / step) * step; value <= this.to; value += step) {
      if (this.byRows && value % 1) continue;
      const x = this.x(value);
      g.strokeStyle = this.colour("--grid");
      g.beginPath();
      g.moveTo(x, AXIS);
      g.lineTo(x, this.height - LEGEND - MARKS);
      g.stroke();
      g.fillStyle = this.dim;
      const words = this.byRows ? "row " + value : timeWords(value);
      g.fillText(words, Math.min(x + 2, this.width - this.wide(words) - 2), AXIS / 2);
    }
  }

  names() {
    const {g} = this;
    g.fillStyle = this.ink;
    [...LANES.map((lane) => lane[0]), this.left < 60 ? "DB" : "DB(7-0)", "DB(P)"].forEach((name, at) => g.fillText(name, 6, this.top + (at + 0.5) * LANE));
    g.fillStyle = this.dim;
    g.fillText("rows", 6, this.top + (LANES.length + 2) * LANE + TICKS / 2);
    g.fillText("bus", 6, AXIS + BAND / 2);
    if (this.showsItems) g.fillText("read", 6, AXIS + BAND + ITEMS / 2);
  }

  // A piece of a band, with words where they fit.
  band(top, height, x0, x1, fill, words) {
    const {g} = this, left = Math.max(this.left, x0), right = Math.min(this.width - RIGHT, x1);
    if (right <= left) return;
    if (fill) {
      g.fillStyle = fill;
      g.fillRect(left, top, Math.max(1, right - left), height);
    }
    const found = right - left > 12 && words.find((it) => this.wide(it) < right - left - 4);
    if (!found) return;
    g.fillStyle = this.ink;
    g.fillText(found, left + 3, top + height / 2 + 1);
  }

  clip() {
    this.g.save();
    this.g.beginPath();
    this.g.rect(this.left, 0, this.width - this.left - RIGHT, this.height);
    this.g.clip();
  }

  bands(first, last) {
    const {trace} = this, {items} = trace;
    for (let item = items.at(Math.max(0, first - 1)); item < items.length && items.firsts[item] <= last; item++) {
      const stage = items.stages[item], isLast = item === items.length - 1;
      const x0 = item === 0 ? this.x(0) : this.x(this.axisOf(items.firsts[item] + 1));
      const x1 = isLast ? this.x(this.last()) : this.x(this.axisOf(items.firsts[item + 1] + 1));
      if (x1 - x0 < 0.5) continue;
      this.band(AXIS + 1, BAND - 2, x0, x1, this.colour("--stage-" + stage), [STAGES[stage], STAGE_SHORT[stage]]);
      if (this.showsItems && stage > ARBITRATING) {
        const words = items.words(item);
        this.band(AXIS + BAND, ITEMS, x0, x1, "", [words, words.split("  ")[0], words.split("  ").pop(), words.split(",")[0]]);
      }
    }
  }

  // Row by row: each line in the colour of the device that drives it.
  rows(first, last) {
    const {g, trace} = this, {lines} = trace, start = Math.max(0, first - 1), stop = Math.min(trace.count, last + 1);
    const drives = trace.drivesAfter(start), lanes = [...LANES, ["DB(P)", DBP]];
    const levels = lanes.map(() => -2), begins = lanes.map(() => 0), paths = new Map();
    const right = this.x(this.last());
    const path = (colour, wide) => {
      const key = colour + wide;
      if (!paths.has(key)) paths.set(key, {colour, wide, path: new Path2D()});
      return paths.get(key).path;
    };
    const y = (lane, isHigh) => this.top + (lane < LANES.length ? lane : LANES.length + 1) * LANE + (isHigh ? 5 : LANE - 5);
    const level = (lane, x) => {
      if (levels[lane] === -2 || x < begins[lane]) return;
      const isHigh = levels[lane] >= 0, it = path(isHigh ? this.devices[levels[lane]] : this.dim, isHigh ? 2 : 1);
      it.moveTo(begins[lane], y(lane, isHigh));
      it.lineTo(x, y(lane, isHigh));
    };
    this.clip();
    this.bands(first, last);
    for (let rows = start; rows <= stop; rows++) {
      if (rows > start && trace.values[rows - 1] >= 0) drives[trace.devices[rows - 1]] = trace.values[rows - 1];
      const x = this.x(this.axisOf(rows));
      lanes.forEach(([, bit], lane) => {
        const who = lines[rows] & bit ? drives.findIndex((driven) => driven & bit) : -1;
        if (who === levels[lane]) return;
        level(lane, x);
        if (levels[lane] !== -2 && (who < 0) !== (levels[lane] < 0)) {
          const edge = path(this.dim, 1);
          edge.moveTo(x, y(lane, true));
          edge.lineTo(x, y(lane, false));
        }
        levels[lane] = who;
        begins[lane] = x;
      });
      if (rows > start) {
        const tick = path(this.devices[trace.devices[rows - 1]], 1.5), top = this.top + (LANES.length + 2) * LANE + (trace.devices[rows - 1] % 2) * 9 + 2;
        tick.moveTo(x, top);
        tick.lineTo(x, top + 8);
      }
    }
    lanes.forEach((_, lane) => level(lane, stop === trace.count ? right : this.x(this.axisOf(stop))));
    for (const it of paths.values()) {
      g.strokeStyle = it.colour;
      g.lineWidth = it.wide;
      g.stroke(it.path);
    }
    g.lineWidth = 1;
    this.data(start, stop, right);
    g.restore();
  }

  // The byte on the data lines.
  data(start, stop, right) {
    const {g, trace} = this, top = this.top + LANES.length * LANE, middle = top + LANE / 2, bytes = new Path2D(), none = new Path2D();
    g.fillStyle = this.ink;
    for (let rows = start, next; rows <= stop; rows = next) {
      const shown = trace.lines[rows] & DATA;
      for (next = rows + 1; next <= stop && (trace.lines[next] & DATA) === shown;) next++;
      const x0 = this.x(this.axisOf(rows)), x1 = next > stop ? (stop === trace.count ? right : this.x(this.axisOf(stop))) : this.x(this.axisOf(next));
      if (!shown) {
        none.moveTo(x0, middle);
        none.lineTo(x1, middle);
        continue;
      }
      const slope = Math.min(2, (x1 - x0) / 2);
      bytes.moveTo(x0, middle);
      bytes.lineTo(x0 + slope, top + 4);
      bytes.lineTo(x1 - slope, top + 4);
      bytes.lineTo(x1, middle);
      bytes.lineTo(x1 - slope, top + LANE - 4);
      bytes.lineTo(x0 + slope, top + LANE - 4);
      bytes.closePath();
      const words = hex2(shown & IDS), wide = this.wide(words);
      if (x1 - x0 > wide + 5) g.fillText(words, (Math.max(x0, this.left) + Math.min(x1, this.width - RIGHT) - wide) / 2, middle + 1);
    }
    g.strokeStyle = this.dim;
    g.stroke(none);
    g.strokeStyle = this.colour("--data");
    g.stroke(bytes);
  }

  // Column by column: where a line is true, false, or both. Columns that show the same are filled at one stroke.
  columns() {
    const {g, trace} = this, lanes = [...LANES, ["data", IDS], ["DB(P)", DBP]], columns = [], ticks = this.top + (LANES.length + 2) * LANE + TICKS - 2;
    for (let x = this.left, first = this.rowsAt(this.axisAt(x)); x < this.width - RIGHT; x++) {
      const last = Math.max(first, this.rowsAt(this.axisAt(x + 1))), [any, all] = trace.between(first, last);
      columns.push({any, all, stage: trace.stages[last], rows: last - first});
      first = last;
    }
    const runs = (shown, fill) => {
      for (let at = 0, next; at < columns.length; at = next) {
        const it = shown(columns[at]);
        for (next = at + 1; next < columns.length && shown(columns[next]) === it;) next++;
        fill(it, this.left + at, next - at);
      }
    };
    runs((it) => it.stage, (stage, x, wide) => {
      g.fillStyle = this.colour("--stage-" + stage);
      g.fillRect(x, AXIS + 1, wide, BAND - 2);
    });
    lanes.forEach(([, bits], lane) => {
      const top = this.top + lane * LANE;
      // 0: false, 1: true, 2: both
      runs((it) => (it.any & bits ? ((it.all & bits) === bits ? 1 : 2) : 0), (level, x, wide) => {
        g.fillStyle = level === 2 ? this.colour("--many") : this.dim;
        g.fillRect(x, level === 0 ? top + LANE - 6 : top + 5, wide, level === 2 ? LANE - 10 : 2 - (level === 0));
      });
    });
    g.fillStyle = this.colour("--many");
    runs((it) => (it.rows ? Math.round(Math.min(TICKS - 4, 1 + 3 * Math.log2(it.rows))) : 0), (high, x, wide) => g.fillRect(x, ticks - high, wide, high));
  }

  legend() {
    const {g, trace} = this, y = this.height - LEGEND - MARKS + LEGEND / 2;
    if (this.isDense) {
      g.fillStyle = this.dim;
      g.fillText("many rows: a filled piece is a line that is true and false in it. Zoom in for devices and bytes.", this.left, y);
      return;
    }
    let x = this.left;
    trace.used = trace.used || [...Array(8).keys()].filter((device) => trace.devices.includes(device));
    for (const device of trace.used) {
      g.fillStyle = this.devices[device];
      g.fillRect(x, y - 4, 10, 8);
      g.fillStyle = this.ink;
      const words = this.width < 500 ? "" + device : "device " + device;
      g.fillText(words, x + 14, y + 1);
      x += this.wide(words) + 28;
    }
    const words = this.showsItems ? "read: by this page, unproved" : "";
    g.fillStyle = this.dim;
    if (x + this.wide(words) < this.width - RIGHT) g.fillText(words, this.width - RIGHT - this.wide(words), y + 1);
  }

  // An upright line at a moment, with a letter above it.
  upright(rows, colour, dashes = [], letter = "") {
    const {g} = this, x = this.x(this.axisOf(rows));
    if (x < this.left - 1 || x > this.width - RIGHT + 1) return;
    g.strokeStyle = g.fillStyle = colour;
    g.setLineDash(dashes);
    g.beginPath();
    g.moveTo(x, AXIS);
    g.lineTo(x, this.height - MARKS);
    g.stroke();
    g.setLineDash([]);
    if (!letter) return;
    g.fillRect(x - 7, 3, 14, AXIS - 4);
    g.fillStyle = this.colour("--paper");
    g.fillText(letter, x - this.wide(letter) / 2, AXIS / 2 + 2);
  }

  // The row and the time of a moment, below it.
  foot(rows, name) {
    const {g} = this, x = this.x(this.axisOf(rows)), time = rows > this.trace.count ? this.trace.end : rows ? this.trace.times[rows - 1] : 0;
    const words = `${name}${rows > this.trace.count ? "end" : "row " + rows.toLocaleString("en-US")}, ${time.toLocaleString("en-US")} ns`;
    g.fillStyle = this.colour("--cursor");
    g.fillText(words, Math.max(this.left, Math.min(x + 4, this.width - this.wide(words) - 4)), this.height - MARKS / 2);
  }
}
