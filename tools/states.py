#!/usr/bin/env python3
"""Draws the state diagrams of docs/states.md, docs/states_NAME.svg, each out of tools/states/NAME.txt.

    tools/states.py [--check]

With `--check` it writes nothing, and finds pictures that are not what it would write. Either way it finds names that no definition has, delays
that docs/bus.md gives otherwise, and texts that leave their box or the picture, or lie on another text, a box or an arrow, and ends with status 1
where there is one. A description has these lines, in pixels:

    size WIDTH HEIGHT
    frame X Y WIDTH HEIGHT [STYLE] : TITLE
    box NAME X Y WIDTH [STYLE] : LINE | LINE ..       X and Y are its middle; the first line is its title
    arrow A:SIDE B:SIDE [STYLE] [via X,Y X,Y ..] [at SEGMENT SHARE WHERE] : LINE | LINE ..
    text X Y : LINE | LINE ..                         from its left end

A SIDE is n, e, s or w of a box, with a shift along it, as in e-10. Where no points are given an arrow has one bend or two. A label stands beside
the SEGMENT, counted from 0, at this SHARE of it: above, below, left or right of it. A line that begins with ` is the name of a definition, one
that begins with + a time. The STYLEs give the colour: of whom it tells.
"""
import pathlib
import re
import sys

ROOT = pathlib.Path(__file__).resolve().parent.parent
SIZE, STEP, TITLE_STEP, PAD = 11, 13.5, 16, 8
STYLES = ("plain", "initiator", "target", "both", "free", "fault")
# Widths of letters in thousandths of their size, of DejaVu Sans and Verdana; others are narrower or as wide as a digit.
WIDTHS = {}
for width, letters in (
    (278, "ijlI'"), (318, " ,."), (337, "/:;"), (361, "-"), (352, "f"), (390, "()[]"), (392, "t"), (411, "r"), (521, "s*"), (550, "c"), (579, "k"),
    (592, "vxy"), (612, "aeo"), (635, "bdghnpqu0123456789"), (603, "P"), (557, "L"), (575, "F"), (632, "E"), (635, "S"), (685, "ABCKRVXZ"), (611, "TY"),
    (752, "HNU"), (770, "DGOQ"), (838, "+<=>≤≥×"), (818, "w"), (863, "M"), (974, "m"), (989, "W"), (500, "_"), (525, "z"), (840, "→"),
):
    WIDTHS.update(dict.fromkeys(letters, width))
MONO = 602
COLOURS = """
    .back { fill: #ffffff; } .box { fill: #f6f8fa; stroke: #57606a; stroke-width: 1.2; } .frame { fill: none; stroke: #8c959f; stroke-dasharray: 5 4; }
    text { fill: #1f2328; } .name { fill: #0550ae; font-family: DejaVu Sans Mono, Menlo, Consolas, monospace; } .time { font-weight: bold; }
    .title { font-weight: bold; } .arrow { fill: none; stroke: #57606a; stroke-width: 1.3; } .head { fill: #57606a; }
    .box.initiator { fill: #fff1e0; stroke: #bc4c00; } .arrow.initiator { stroke: #bc4c00; } .head.initiator { fill: #bc4c00; }
    .box.target { fill: #e3f0ff; stroke: #0969da; } .arrow.target { stroke: #0969da; } .head.target { fill: #0969da; }
    .box.both { fill: #e6f6e9; stroke: #1a7f37; } .arrow.both { stroke: #1a7f37; } .head.both { fill: #1a7f37; }
    .box.free { fill: #eaeef2; stroke: #57606a; stroke-dasharray: 4 3; }
    .box.fault { fill: #ffebe9; stroke: #cf222e; } .arrow.fault { stroke: #cf222e; stroke-dasharray: 6 3; } .head.fault { fill: #cf222e; }
"""
DARK = """
    .back { fill: #0d1117; } .box { fill: #1c2128; stroke: #9ea7b1; } .frame { stroke: #6e7781; }
    text { fill: #e6edf3; } .name { fill: #79c0ff; } .arrow { stroke: #9ea7b1; } .head { fill: #9ea7b1; }
    .box.initiator { fill: #3a2410; stroke: #f0883e; } .arrow.initiator { stroke: #f0883e; } .head.initiator { fill: #f0883e; }
    .box.target { fill: #0c2d52; stroke: #58a6ff; } .arrow.target { stroke: #58a6ff; } .head.target { fill: #58a6ff; }
    .box.both { fill: #12331c; stroke: #56d364; } .arrow.both { stroke: #56d364; } .head.both { fill: #56d364; }
    .box.free { fill: #22272e; stroke: #9ea7b1; }
    .box.fault { fill: #40171a; stroke: #ff7b72; } .arrow.fault { stroke: #ff7b72; } .head.fault { fill: #ff7b72; }
"""


def said_of(line):
    """A line without its mark."""
    return line[1:] if line[:1] in ("`", "+") else line


def wide(line, is_title=False):
    """The width of a line in pixels."""
    if line.startswith("`"):
        return MONO * SIZE * (len(line) - 1) / 1000
    bold = 1.13 if is_title or line.startswith("+") else 1
    return bold * SIZE * sum(WIDTHS.get(letter, 640) for letter in said_of(line)) / 1000


def escaped(text):
    return text.replace("&", "&amp;").replace("<", "&lt;").replace(">", "&gt;")


class Rect:
    def __init__(self, x, y, width, height, what):
        self.x, self.y, self.width, self.height, self.what = x, y, width, height, what

    def meets(self, other):
        return (self.x < other.x + other.width and other.x < self.x + self.width
                and self.y < other.y + other.height and other.y < self.y + self.height)


class Picture:
    def __init__(self, name, text):
        self.name, self.boxes, self.drawn, self.texts, self.lines, self.edges, self.wrong = name, {}, {"frame": [], "arrow": [], "box": [], "text": []}, [], [], [], []
        self.width = self.height = 0
        waiting = []
        for line in text.splitlines():
            words, _, said = line.partition(" : ")
            words = words.split()
            said = [part.strip() for part in said.split(" | ")] if said else []
            if not words or words[0].startswith("#"):
                continue
            if words[0] == "arrow":
                waiting.append((words[1:], said))
            else:
                getattr(self, words[0])(words[1:], said)
        for words, said in waiting:
            self.arrow(words, said)
        self.check()

    def size(self, words, said):
        self.width, self.height = int(words[0]), int(words[1])

    def line(self, x, y, line, kind, is_title=False, anchor=""):
        style = "title" if is_title else "name" if line.startswith("`") else "time" if line.startswith("+") else ""
        marks = (' class="%s"' % style if style else "") + (' text-anchor="%s"' % anchor if anchor else "")
        self.drawn[kind].append('<text x="%.1f" y="%.1f"%s>%s</text>' % (x, y, marks, escaped(said_of(line))))

    def frame(self, words, said):
        x, y, width, height = map(int, words[:4])
        self.drawn["frame"].append('<rect class="frame" x="%d" y="%d" width="%d" height="%d" rx="10"/>' % (x, y, width, height))
        self.block(x + 10, y + 6, said, True)
        edges = ((x, y, width, 1), (x, y + height, width, 1), (x, y, 1, height), (x + width, y, 1, height))
        self.edges += [Rect(*edge, "the frame of " + said[0]) for edge in edges]

    def block(self, x, y, said, is_title=False, anchor=""):
        """Lines from the top of the first one, at their left end, middle or right end."""
        for number, line in enumerate(said):
            title = is_title and number == 0
            self.line(x, y + SIZE, line, "text", title, anchor)
            left = x - wide(line, title) * {"": 0, "middle": 0.5, "end": 1}[anchor]
            self.texts.append(Rect(left, y + 1, wide(line, title), SIZE + 1, line))
            y += STEP

    def text(self, words, said):
        self.block(int(words[0]), int(words[1]), said)

    def box(self, words, said):
        name, x, y, width = words[0], int(words[1]), int(words[2]), int(words[3])
        style = words[4] if len(words) > 4 else "plain"
        height = TITLE_STEP + STEP * (len(said) - 1) + 2 * PAD - 2
        box = Rect(x - width / 2, y - height / 2, width, height, name)
        self.boxes[name] = box
        self.drawn["box"].append('<rect class="box %s" x="%.1f" y="%.1f" width="%.1f" height="%.1f" rx="8"/>' % (style, box.x, box.y, width, height))
        top = box.y + PAD + SIZE - 1
        for number, line in enumerate(said):
            long = wide(line, number == 0)
            if long > width - PAD:
                self.wrong.append("box %s: %s is wider by %.0f" % (name, line, long - width + PAD))
            self.line(x, top, line, "box", number == 0, "middle")
            top += TITLE_STEP if number == 0 else STEP

    def end(self, word):
        name, side, shift = re.fullmatch(r"(\w+):([nesw])([+-]\d+)?", word).groups()
        box, shift = self.boxes[name], int(shift or 0)
        x, y = box.x + box.width / 2, box.y + box.height / 2
        return {"n": (x + shift, box.y), "s": (x + shift, box.y + box.height), "w": (box.x, y + shift), "e": (box.x + box.width, y + shift)}[side], side

    def arrow(self, words, said):
        (start, from_side), (end, to_side) = self.end(words[0]), self.end(words[1])
        rest, style, via, at = words[2:], "plain", [], None
        if rest and rest[0] in STYLES:
            style, rest = rest[0], rest[1:]
        if rest and rest[0] == "via":
            points = [word for word in rest[1:] if "," in word]
            via, rest = [tuple(map(float, point.split(","))) for point in points], rest[1 + len(points):]
        if rest and rest[0] == "at":
            at = (int(rest[1]), float(rest[2]), rest[3])
        if not via and start[0] != end[0] and start[1] != end[1]:
            flat, level = from_side in "ew", to_side in "ew"
            if flat and level:
                via = [((start[0] + end[0]) / 2, start[1]), ((start[0] + end[0]) / 2, end[1])]
            elif not flat and not level:
                via = [(start[0], (start[1] + end[1]) / 2), (end[0], (start[1] + end[1]) / 2)]
            else:
                via = [(end[0], start[1])] if flat else [(start[0], end[1])]
        points = [start, *via, end]
        for a, b in zip(points, points[1:]):
            if abs(a[0] - b[0]) > 0.1 and abs(a[1] - b[1]) > 0.1:
                self.wrong.append("arrow %s %s is not square at %s %s" % (words[0], words[1], a, b))
        path = "M%.1f %.1f" % start
        for before, point, after in zip(points, points[1:], points[2:]):
            near = [point[i] + max(-7, min(7, before[i] - point[i])) for i in (0, 1)]
            far = [point[i] + max(-7, min(7, after[i] - point[i])) for i in (0, 1)]
            path += " L%.1f %.1f Q%.1f %.1f %.1f %.1f" % (*near, *point, *far)
        path += " L%.1f %.1f" % end
        self.drawn["arrow"].append('<path class="arrow %s" d="%s" marker-end="url(#%s)"/>' % (style, path, style))
        for a, b in zip(points, points[1:]):
            self.lines.append(Rect(min(a[0], b[0]) - 1, min(a[1], b[1]) - 1, abs(a[0] - b[0]) + 2, abs(a[1] - b[1]) + 2, words[0] + " " + words[1]))
        if said:
            self.label(points, said, at)

    def label(self, points, said, at):
        segments = list(zip(points, points[1:]))
        longest = max(range(len(segments)), key=lambda i: abs(segments[i][0][0] - segments[i][1][0]) + abs(segments[i][0][1] - segments[i][1][1]))
        number, share, where = at or (longest, 0.5, "")
        (ax, ay), (bx, by) = segments[number]
        x, y = ax + (bx - ax) * share, ay + (by - ay) * share
        where = where or ("above" if ay == by else "right")
        tall = STEP * len(said)
        top = {"above": y - tall - 4, "below": y + 4, "left": y - tall / 2, "right": y - tall / 2}[where]
        self.block(x + {"left": -7, "right": 7}.get(where, 0), top, said, False, {"left": "end", "right": ""}.get(where, "middle"))

    def check(self):
        whole = [*self.texts, *self.boxes.values()]
        for rect in whole:
            if rect.x < 4 or rect.y < 2 or rect.x + rect.width > self.width - 4 or rect.y + rect.height > self.height - 2:
                self.wrong.append("%s leaves the picture" % rect.what)
        for i, rect in enumerate(whole):
            self.wrong += ["%s lies on %s" % (rect.what, other.what) for other in whole[i + 1:] if rect.meets(other)]
        for edge in self.edges:
            self.wrong += ["%s lies on %s" % (rect.what, edge.what) for rect in whole if rect.meets(edge)]
        for line in self.lines:
            self.wrong += ["%s lies on arrow %s" % (rect.what, line.what) for rect in self.texts if rect.meets(line)]
            inner = [Rect(box.x + 2, box.y + 2, box.width - 4, box.height - 4, box.what) for box in self.boxes.values()]
            self.wrong += ["arrow %s crosses box %s" % (line.what, box.what) for box in inner if box.meets(line)]

    def svg(self):
        heads = "".join(
            '<marker id="%s" viewBox="0 0 10 10" refX="9" refY="5" markerWidth="7.5" markerHeight="7.5" orient="auto">'
            '<path class="head %s" d="M0 0.8 L10 5 L0 9.2 z"/></marker>' % (style, style) for style in STYLES
        )
        return "\n".join([
            '<svg xmlns="http://www.w3.org/2000/svg" width="%d" height="%d" viewBox="0 0 %d %d" font-family="DejaVu Sans, Verdana, Arial, sans-serif" font-size="%d">'
            % (self.width, self.height, self.width, self.height, SIZE),
            "<style>%s    @media (prefers-color-scheme: dark) {%s    }\n</style>" % (COLOURS, DARK), "<defs>%s</defs>" % heads,
            '<rect class="back" width="100%" height="100%" rx="6"/>',
            *self.drawn["frame"], *self.drawn["arrow"], *self.drawn["box"], *self.drawn["text"], "</svg>", "",
        ])


def misnamed(text):
    """Names that no definition has, and delays that are not as docs/bus.md says."""
    defined = set()
    for path in ROOT.glob("crates/*/specs/**/*.antt"):
        defined.update(re.findall(r"^(?:abbrev pub |pub |def pub )?(\w+) :", path.read_text(), re.M))
    for path in ROOT.glob("crates/*/src/**/*.rt"):
        defined.update(re.findall(r"^pub enum (\w+)", path.read_text(), re.M))
    delays = {name: time for time, name in re.findall(r"\| ([\d,]+) \| `(\w+)` \|", (ROOT / "docs" / "bus.md").read_text())}
    for name in re.findall(r"`([^|\n]+?) *(?=$|\|)", text, re.M):
        if name not in defined:
            yield "nothing defines " + name
    for name, time in re.findall(r"\b([A-Z]\w+_[A-Z_]+)\b ?([\d,]*\d|)", text):
        if delays.get(name) != time:
            yield "docs/bus.md does not say %s %s" % (name, time)


def main():
    if sys.argv[1:] not in ([], ["--check"]):
        sys.exit(__doc__)
    wrong = []
    for path in sorted((ROOT / "tools" / "states").glob("*.txt")):
        picture = Picture(path.stem, path.read_text())
        wrong += ["tools/states/%s: %s" % (path.name, what) for what in [*picture.wrong, *misnamed(path.read_text())]]
        file = ROOT / "docs" / ("states_%s.svg" % path.stem)
        if len(sys.argv) == 1:
            file.write_text(picture.svg())
        elif not file.exists() or file.read_text() != picture.svg():
            wrong.append("docs/%s is not what tools/states.py writes" % file.name)
    print("\n".join(wrong) if wrong else "the state diagrams are as their descriptions say")
    sys.exit(1 if wrong else 0)


main()
