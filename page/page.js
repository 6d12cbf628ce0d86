// The page: what is asked of it, and what it shows.

const DATA_OF_PAGE = JSON.parse(document.getElementById("data").textContent);
const $ = (name) => document.getElementById(name);
const picture = new Picture($("picture"));
// Texts up to this length stand in the text field.
const WRITTEN = 2000000;

let judge = null, trace = null, walk = null, verdict = null, selected = null, turn = 0;

// ---- small things

function element(name, text, kind) {
  const made = document.createElement(name);
  if (text !== undefined) made.textContent = text;
  if (kind) made.className = kind;
  return made;
}

function say(words, kind) {
  $("verdict").textContent = words;
  $("verdict").className = kind || "";
}

// A pause in work for this turn, at which the page may show something else; false once another trace has come.
function pauses(words) {
  const mine = turn;
  let shown = performance.now();
  return async (done) => {
    if (performance.now() - shown < 30) return;
    if (words) $("about").textContent = `${words} ${done.toLocaleString("en-US")} rows ..`;
    await new Promise((go) => setTimeout(go));
    if (mine !== turn) throw new Error("another trace");
    shown = performance.now();
  };
}

function draw() {
  if (draw.waits) return;
  draw.waits = true;
  requestAnimationFrame(() => {
    draw.waits = false;
    picture.draw();
  });
}

// ---- a trace

async function load(bytes, name) {
  const mine = ++turn;
  trace = walk = verdict = selected = picture.trace = picture.cursor = picture.broken = null;
  picture.marks = [];
  $("broken").hidden = true;
  $("told").replaceChildren(element("p", "Click into the picture for what a row does, what it keeps and what it breaks. Paste a trace or a report, or drop a file.", "hint"));
  delete $("told").dataset.row;
  $("row").value = "";
  if (!(name in DATA_OF_PAGE.examples)) $("examples").selectedIndex = -1;
  $("between").textContent = "";
  listRules();
  say("reading");
  $("about").textContent = name;
  await new Promise((go) => setTimeout(go));
  if (mine !== turn) return;
  try {
    trace = new Trace(bytes);
  } catch (error) {
    say(error instanceof Refused ? `trace line ${error.line}` : "refused", "refused");
    $("told").replaceChildren(element("h2", "This text is no trace"), element("p", error.message));
    draw();
    return;
  }
  walk = new Walk(trace);
  picture.trace = trace;
  picture.showsItems = false;
  picture.show(0, 2 * picture.last());
  $("row").max = trace.count;
  draw();
  if (!judge) {
    say("not judged");
    $("about").textContent = `${name}: ${trace.count.toLocaleString("en-US")} rows`;
    picture.showsItems = true;
    return;
  }
  say("judging");
  const begun = performance.now();
  try {
    verdict = await judge.judge(trace, pauses("judged"));
  } catch (error) {
    if (mine === turn) say(error.message, "refused");
    return;
  }
  if (mine !== turn) return;
  const took = performance.now() - begun;
  $("about").textContent = `${name}: ${trace.count.toLocaleString("en-US")} rows, judged in ${took < 10 ? took.toFixed(1) : Math.round(took)} ms`;
  if (verdict) {
    say(`broken: row ${verdict.row}, rule ${verdict.rule}`, "broken");
    picture.broken = verdict.row;
    $("broken").hidden = false;
    await toBroken();
  } else {
    say("lawful", "lawful");
    picture.showsItems = true;
  }
  draw();
}

function loadText(text, name) {
  if (text.length <= WRITTEN) $("text").value = text;
  // A trace that was pasted without its last line feed is meant to have one.
  return load(new TextEncoder().encode(text.endsWith("\n") ? text : text + "\n"), name);
}

async function loadFile(file) {
  $("text").value = "";
  const bytes = new Uint8Array(await file.arrayBuffer());
  if (bytes.length <= WRITTEN) $("text").value = new TextDecoder().decode(bytes);
  return load(bytes, file.name);
}

async function toBroken() {
  const before = 10, after = 5;
  if (picture.byRows) {
    picture.show(verdict.row - 4 * before, verdict.row + 4 * before);
  } else {
    const from = picture.axisOf(Math.max(0, verdict.row - before)), to = picture.axisOf(Math.min(trace.count + 1, verdict.row + after));
    const room = Math.max(20, (to - from) / 10);
    picture.show(from - room, to + room);
  }
  await select(verdict.row);
}

// ---- what is told of a row

// Selects the moment after so many rows; the end of the trace counts as one row more.
async function select(rows) {
  if (!trace) return;
  const mine = turn;
  rows = Math.max(1, Math.min(rows, trace.count + 1));
  selected = picture.cursor = rows;
  $("row").value = rows;
  draw();
  let told;
  try {
    told = await tell(trace, walk, rows - 1, verdict, judge, pauses(""));
  } catch (error) {
    return;
  }
  if (mine === turn && selected === rows) show(told);
}

function show(told) {
  const title = told.atEnd ? `The end, at ${ns(told.time)}` : `Row ${told.row + 1} at ${ns(told.time)}, device ${told.device}${told.role ? ", " + told.role : ""}`;
  const table = element("table");
  const line = (name, words) => {
    if (words === undefined || words === "") return;
    const row = table.insertRow();
    row.append(element("th", name), element("td", words));
  };
  line("phase before", told.stage);
  line("change", told.change);
  line("drives then", told.drives);
  line("bus then", told.bus);
  line("byte", told.byte && told.byte + " crosses");
  line("since last row", ns(told.since));
  if (picture.showsItems && !told.atEnd) line("read (unproved)", trace.items.words(trace.items.at(told.row)));
  $("told").replaceChildren(element("h2", title), table);
  $("told").dataset.row = told.row + 1;
  const list = [];
  if (told.isBroken) {
    list.push(element("h2", told.broken.length ? `Rule ${told.rule} is broken` : `Rule ${told.rule} is broken; this page cannot tell which of its sentences`));
    for (const it of told.broken) list.push(sentence(it, told.time, true));
    if (!told.broken.length) list.push(ruleText(told.rule));
    if (told.right) list.push(element("p", told.right));
    if (DATA_OF_PAGE.hints[told.rule]) list.push(element("p", "Often: " + DATA_OF_PAGE.hints[told.rule], "hint"));
  }
  if (told.kept.length) list.push(element("h2", "Times that this row keeps"), ...told.kept.map((it) => sentence(it, told.time, false)));
  list.push(allRules());
  $("rules").replaceChildren(...list);
}

function sentence(finding, time, isBroken) {
  const {text, clause} = DATA_OF_PAGE.sentences[finding.sentence], made = element("div", undefined, isBroken ? "sentence broken" : "sentence");
  const head = element("p");
  head.append(element("b", "Rule " + finding.sentence), element("span", ` clause ${clause}`, "clause"));
  made.dataset.sentence = finding.sentence;
  made.append(head, element("p", text));
  const words = measured(finding, time);
  if (words) made.append(element("p", words));
  return made;
}

function ruleText(number) {
  const rule = DATA_OF_PAGE.rules[number - 1], made = element("div", undefined, "sentence broken"), head = element("p");
  head.append(element("b", "Rule " + number), element("span", ` clause ${rule.clause}`, "clause"));
  made.append(head, element("p", rule.text));
  return made;
}

function allRules() {
  const made = element("details"), list = element("div");
  made.append(element("summary", "The 28 rules"), list);
  made.addEventListener("toggle", () => {
    if (list.childElementCount) return;
    for (const [name, it] of Object.entries(DATA_OF_PAGE.sentences)) {
      const line = element("p");
      line.append(element("b", name + " "), it.text + " ", element("span", it.clause, "clause"));
      list.append(line);
    }
  });
  return made;
}

function listRules() {
  $("rules").replaceChildren(allRules());
}

// ---- marks

function mark(number) {
  if (picture.cursor === null) return;
  picture.marks[number] = picture.cursor;
  const [a, b] = picture.marks, timeOf = (rows) => (rows > trace.count ? trace.end : rows ? trace.times[rows - 1] : 0);
  if (a !== undefined && b !== undefined) $("between").textContent = `A to B: ${ns(timeOf(b) - timeOf(a))}, ${(b - a).toLocaleString("en-US")} rows`;
  else $("between").textContent = `${number ? "B" : "A"} at ${ns(timeOf(picture.cursor))}`;
  draw();
}

// ---- the view

function axis(byRows) {
  if (!trace || picture.byRows === byRows) return;
  const first = picture.rowsAt(picture.from), last = picture.byRows ? picture.rowsAt(picture.to) : trace.rowsUpTo(picture.to);
  const isWhole = picture.to - picture.from >= picture.last();
  picture.byRows = byRows;
  $("by-rows").setAttribute("aria-pressed", byRows);
  $("by-time").setAttribute("aria-pressed", !byRows);
  if (isWhole) whole();
  else picture.show(picture.axisOf(first), picture.axisOf(Math.min(last + 1, trace.count + 1)));
  draw();
}

function zoom(factor, at) {
  if (!trace) return;
  picture.zoom(factor, at);
  draw();
}

function move(part) {
  if (!trace) return;
  const by = (picture.to - picture.from) * part;
  picture.show(picture.from + by, picture.to + by);
  draw();
}

function whole() {
  if (!trace) return;
  picture.show(0, 2 * picture.last());
  draw();
}

// Selects a row and brings it into view.
function go(rows) {
  if (!trace) return;
  select(rows);
  const at = picture.axisOf(selected);
  if (at < picture.from || at > picture.to) picture.show(at - (picture.to - picture.from) / 2, at + (picture.to - picture.from) / 2);
  draw();
}

// ---- what the user does

const fingers = new Map();
let drag = null;

function placeOf(event) {
  return event.clientX - $("picture").getBoundingClientRect().left;
}

$("picture").addEventListener("pointerdown", (event) => {
  if (!trace) return;
  $("picture").setPointerCapture(event.pointerId);
  fingers.set(event.pointerId, placeOf(event));
  drag = {x: placeOf(event), from: picture.from, to: picture.to, moved: false};
});

$("picture").addEventListener("pointermove", (event) => {
  if (!trace) return;
  const x = placeOf(event);
  if (!fingers.has(event.pointerId)) {
    picture.cursor = picture.momentAt(x);
    draw();
    return;
  }
  if (fingers.size === 2) {
    const [a, b] = fingers.keys(), other = fingers.get(event.pointerId === a ? b : a);
    const before = Math.max(10, Math.abs(fingers.get(event.pointerId) - other)), now = Math.max(10, Math.abs(x - other));
    zoom(before / now, picture.axisAt((x + other) / 2));
    drag.moved = true;
  } else if (drag && (drag.moved || Math.abs(x - drag.x) > 4)) {
    drag.moved = true;
    const by = ((drag.x - x) / (picture.width - picture.left)) * (drag.to - drag.from);
    picture.show(drag.from + by, drag.to + by);
    draw();
  }
  fingers.set(event.pointerId, x);
});

function lift(event) {
  const wasOne = fingers.size === 1;
  fingers.delete(event.pointerId);
  if (event.type === "pointerup" && trace && wasOne && drag && !drag.moved) {
    select(picture.momentAt(placeOf(event)));
    if (event.shiftKey) mark(1);
  }
  if (!fingers.size) drag = null;
}

$("picture").addEventListener("pointerup", lift);
$("picture").addEventListener("pointercancel", lift);
$("picture").addEventListener("pointerleave", () => {
  picture.cursor = selected;
  draw();
});
$("picture").addEventListener("wheel", (event) => {
  if (!trace) return;
  event.preventDefault();
  if (event.shiftKey || Math.abs(event.deltaX) > Math.abs(event.deltaY)) move((event.deltaX || event.deltaY) / 1000);
  else zoom(event.deltaY < 0 ? 0.8 : 1.25, picture.axisAt(placeOf(event)));
}, {passive: false});

function write() {
  $("paper").hidden = !$("paper").hidden;
  $("write").setAttribute("aria-expanded", !$("paper").hidden);
  if (!$("paper").hidden) $("text").focus();
  draw();
}

function theme() {
  const root = document.documentElement, next = {"": "dark", dark: "light", light: ""}[root.dataset.theme || ""];
  if (next) root.dataset.theme = next;
  else delete root.dataset.theme;
  picture.repaint();
}

const KEYS = {
  "ArrowLeft": () => move(-0.1), "ArrowRight": () => move(0.1), "+": () => zoom(0.7), "=": () => zoom(0.7), "-": () => zoom(1 / 0.7), "0": whole,
  "n": () => go((selected || 0) + 1), "p": () => go((selected || 2) - 1), "a": () => mark(0), "b": () => mark(1), "t": () => axis(false),
  "r": () => axis(true), "g": () => verdict && toBroken(), "o": () => $("file").click(), "e": write, "d": theme,
};

document.addEventListener("keydown", (event) => {
  if (event.ctrlKey || event.metaKey || event.altKey || ["TEXTAREA", "INPUT", "SELECT"].includes(event.target.tagName)) return;
  if (!KEYS[event.key]) return;
  event.preventDefault();
  KEYS[event.key]();
});

document.addEventListener("paste", (event) => {
  if (["TEXTAREA", "INPUT"].includes(event.target.tagName)) return;
  const file = event.clipboardData.files[0], text = event.clipboardData.getData("text/plain");
  if (file) loadFile(file);
  else if (text) loadText(text, "pasted text");
});

document.addEventListener("dragover", (event) => {
  event.preventDefault();
  $("view").classList.add("drop");
});
document.addEventListener("dragleave", () => $("view").classList.remove("drop"));
document.addEventListener("drop", (event) => {
  event.preventDefault();
  $("view").classList.remove("drop");
  const file = event.dataTransfer.files[0], text = event.dataTransfer.getData("text/plain");
  if (file) loadFile(file);
  else if (text) loadText(text, "dropped text");
});

$("open").addEventListener("click", () => $("file").click());
$("file").addEventListener("change", () => {
  if ($("file").files[0]) loadFile($("file").files[0]);
  $("file").value = "";
});
$("write").addEventListener("click", write);
$("take").addEventListener("click", () => loadText($("text").value, "written text"));
$("theme").addEventListener("click", theme);
$("by-time").addEventListener("click", () => axis(false));
$("by-rows").addEventListener("click", () => axis(true));
$("in").addEventListener("click", () => zoom(0.6));
$("out").addEventListener("click", () => zoom(1 / 0.6));
$("whole").addEventListener("click", whole);
$("broken").addEventListener("click", toBroken);
$("mark-a").addEventListener("click", () => mark(0));
$("mark-b").addEventListener("click", () => mark(1));
$("row").addEventListener("change", () => go(Math.floor(+$("row").value) || 1));
$("examples").addEventListener("change", () => loadText(DATA_OF_PAGE.examples[$("examples").value], $("examples").value));
window.addEventListener("resize", draw);
window.matchMedia("(prefers-color-scheme: dark)").addEventListener("change", () => picture.repaint());

async function begin() {
  for (const name of Object.keys(DATA_OF_PAGE.examples)) $("examples").append(new Option(name, name));
  listRules();
  try {
    judge = await Judge.of(Uint8Array.from(atob(DATA_OF_PAGE.judge), (letter) => letter.charCodeAt(0)));
  } catch (error) {
    $("notice").textContent = "This browser cannot run the judge: it has no 64-bit memory for WebAssembly (memory64). The page draws traces, and judges none. "
      + "Chromium and Chrome from 133 on and Firefox from 134 on have it.";
    $("notice").hidden = false;
  }
  const name = Object.keys(DATA_OF_PAGE.examples)[0];
  await loadText(DATA_OF_PAGE.examples[name], name);
  document.documentElement.dataset.ready = "true";
}

begin();
