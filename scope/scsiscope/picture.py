"""A picture (SVG) of what stands on the bus."""
from html import escape

from .lines import ACK, ATN, BSY, CD, DATA, DBP, IDS, IO, MSG, REQ, RST, SEL, data_words, drives_words, name_of
from .rules import PHASE_NAMES
from .trace import bus_after, step

LANES = (BSY, SEL, ATN, MSG, CD, IO, REQ, ACK)
COLOURS = {
    "BUS FREE": "#f1f1f1", "ARBITRATION": "#ffe3b8", "SELECTION": "#ffd08a", "RESELECTION": "#ffd08a", "COMMAND": "#bfdcf7",
    "DATA IN": "#c9e7c9", "DATA OUT": "#e2f0c4", "STATUS": "#dfc8ea", "MESSAGE OUT": "#f8c9d8", "MESSAGE IN": "#f6d9c9", "RESET": "#f1a0a0",
    "reserved phase": "#bbbbbb",
}
SHORT = {"MESSAGE OUT": "MSG OUT", "MESSAGE IN": "MSG IN", "ARBITRATION": "ARB", "SELECTION": "SEL", "RESELECTION": "RESEL", "COMMAND": "CMD",
         "STATUS": "STAT", "DATA OUT": "OUT", "DATA IN": "IN", "BUS FREE": "FREE", "reserved phase": "?", "RESET": "RST"}
LEFT, TOP, HIGH, LEVEL = 74, 46, 26, 15
# How many rows are drawn where nothing is said.
ROWS = 160


def window(trace, verdict, options):
    """The rows that are drawn, from first to stop; and whether they were chosen here."""
    size = len(trace)
    if options.rows:
        first, _, last = options.rows.partition("-")
        first = max(0, int(first) - 1)
        return min(first, max(0, size - 1)), min(size, int(last) if last else first + 1), False
    if options.start is not None or options.stop is not None:
        first, stop = 0, size
        if options.start is not None:
            first = next((row for row in range(size) if trace.times[row] >= options.start), size)
        if options.stop is not None:
            stop = next((row for row in range(first, size) if trace.times[row] > options.stop), size)
        return first, stop, False
    if verdict is not None:
        place = verdict[0] - 1
        return max(0, place - 60), min(size, place + 12), size > 72
    return 0, min(size, ROWS), size > ROWS


class Scale:
    """Where a row or a time stands, in pixels."""

    def __init__(self, points, low, high, width, by_rows):
        self.low, self.high, self.width, self.by_rows = low, high, width, by_rows
        self.step = width / (len(points) + 1)

    def of_row(self, number, time):
        """Where the row of this number in the window stands."""
        return LEFT + (self.step * (number + 1) if self.by_rows else self.of_time(time))

    def of_time(self, time):
        return (min(max(time, self.low), self.high) - self.low) * self.width / max(1, self.high - self.low)


def stage_of(bus):
    stage = bus.stage()
    return "ARBITRATION" if stage.startswith("ARB") else stage


def picture(trace, verdict, first, stop, options, sentences=()):
    """The SVG of the rows from first to stop."""
    bus = bus_after(trace, first)
    start, start_stage = bus.lines, stage_of(bus)
    points = []
    for row in range(first, stop):
        before = bus.connection
        step(bus, trace.row(row))
        time, device, value = trace.row(row)
        points.append((row, time, bus.lines, stage_of(bus), device, value))
    times = [point[1] for point in points] or [0]
    is_whole = stop >= len(trace)
    span = max(1, times[-1] - times[0])
    if options.start is not None or options.stop is not None:
        low = options.start if options.start is not None else times[0] - span // 40
        high = options.stop if options.stop is not None else max(times[-1] + span // 40, trace.end if is_whole else 0)
    else:
        low, high = times[0] - max(1, span // 40), max(times[-1] + max(1, span // 40), trace.end if is_whole else 0)
    low = max(0, low)
    same = sum(1 for one, two in zip(times, times[1:]) if one == two)
    far = max((two - one for one, two in zip(times, times[1:])), default=0)
    by_rows = options.time == "rows" or options.time == "auto" and (same * 8 > len(times) or far * 3 > span and len(times) > 8)
    width = max(300, options.width - LEFT - 16)
    scale = Scale(points, low, max(high, low + 1), width, by_rows)
    xs = [scale.of_row(number, point[1]) for number, point in enumerate(points)]
    right = LEFT + width
    lanes = list(LANES)
    if any((point[2] | start) & RST for point in points):
        lanes.append(RST)
    bottom = TOP + HIGH * (len(lanes) + 1) + 6
    height = bottom + 46
    out = ['<svg xmlns="http://www.w3.org/2000/svg" width="%d" height="%d" viewBox="0 0 %d %d" font-family="DejaVu Sans, Arial, sans-serif" '
           'font-size="12">' % (right + 16, height, right + 16, height), '<rect width="100%" height="100%" fill="white"/>']
    name = "" if trace.name == "-" else trace.name.rsplit("/", 1)[-1] + ", "
    rows = "rows %d to %d of %d" % (first + 1, stop, len(trace)) if (first, stop) != (0, len(trace)) else "%d rows" % len(trace)
    out.append('<text x="6" y="15" font-size="11" fill="#555">%s%s%s</text>' % (
        escape(name), rows, ", one step a row: time is not to scale" if by_rows else ""))
    # Phases.
    spans, stage, begin = [], start_stage, LEFT
    for x, point in zip(xs, points):
        if point[3] != stage:
            spans.append((begin, x, stage))
            stage, begin = point[3], x
    spans.append((begin, right, stage))
    for begin, end, stage in spans:
        if end - begin < 0.3:
            continue
        out.append('<rect x="%.1f" y="%d" width="%.1f" height="%d" fill="%s"><title>%s</title></rect>' % (
            begin, TOP - 4, end - begin, bottom - TOP + 2, COLOURS.get(stage, "#dddddd"), stage))
        room = end - begin
        label = stage if room > 7.6 * len(stage) else SHORT.get(stage, "") if room > 6.4 * len(SHORT.get(stage, "?")) else ""
        if label:
            out.append('<text x="%.1f" y="%d" text-anchor="middle" font-size="%d" fill="#222">%s</text>' % (
                (begin + end) / 2, TOP - 9, 11 if label == stage else 9, label))
    # Times.
    out += ticks(points, xs, scale, bottom, right)
    # Lines.
    y = TOP
    for line in lanes:
        out.append('<text x="6" y="%d">%s</text>' % (y + LEVEL, name_of(line)))
        level = bool(start & line)
        path = "M%d %d" % (LEFT, y + 2 if level else y + LEVEL)
        for x, point in zip(xs, points):
            if bool(point[2] & line) != level:
                level = not level
                path += "H%.1fV%d" % (x, y + 2 if level else y + LEVEL)
        out.append('<path d="%sH%d" fill="none" stroke="#1a1a1a" stroke-width="1.2"/>' % (path, right))
        y += HIGH
    # Bytes.
    out.append('<text x="6" y="%d">DB(7-0)</text>' % (y + LEVEL))
    data, begin = start & DATA, LEFT
    for x, lines in list(zip(xs, (point[2] for point in points))) + [(right, -1)]:
        now = lines & DATA if lines >= 0 else -1
        if now == data:
            continue
        if data:
            out.append(box(begin, x, y, data))
        else:
            out.append('<path d="M%.1f %dH%.1f" stroke="#888" stroke-width="1"/>' % (begin, y + 9, x))
        data, begin = now, x
    # The broken row.
    if verdict is not None and first <= verdict[0] - 1 <= stop:
        place = verdict[0] - 1
        x = xs[place - first] if place < stop else right
        label = "%s: rule %s" % ("row %d" % verdict[0] if place < len(trace) else "end", ", ".join(sentences) or verdict[1])
        anchor = "end" if x > right - 150 else "start" if x < LEFT + 150 else "middle"
        out.append('<path d="M%.1f %dV%d" stroke="#d00000" stroke-width="1.6" stroke-dasharray="4 2"/>' % (x, TOP - 5, bottom))
        out.append('<text x="%.1f" y="%d" text-anchor="%s" fill="#d00000" font-weight="bold">%s</text>' % (x, TOP - 24, anchor, label))
        if place < len(trace):
            out.append('<title>%s: device %d drives %s</title>' % (label, trace.devices[place], drives_words(max(0, trace.values[place]))))
    out.append("</svg>")
    return "\n".join(out) + "\n"


def box(begin, end, y, data):
    """Data lines that stand: the byte where there is room."""
    half = min(3.0, (end - begin) / 3)
    points = "%.1f,%d %.1f,%d %.1f,%d %.1f,%d %.1f,%d %.1f,%d" % (
        begin, y + 9, begin + half, y + 1, end - half, y + 1, end, y + 9, end - half, y + 17, begin + half, y + 17)
    text = ""
    words = data_words(data)
    if end - begin > 17:
        text = '<text x="%.1f" y="%d" text-anchor="middle" font-size="10">%02x</text>' % ((begin + end) / 2, y + 13, data & IDS)
    return '<polygon points="%s" fill="white" stroke="#1a1a1a" stroke-width="0.8"><title>%s</title></polygon>%s' % (points, words, text)


def ticks(points, xs, scale, bottom, right):
    """Marks of time under the lines."""
    out = []
    if scale.by_rows:
        # A mark where time goes on, as many as there is room for.
        last_x, last_time = -1e9, None
        for x, point in zip(xs, points):
            time = point[1]
            if time == last_time:
                continue
            last_time = time
            out.append('<path d="M%.1f %dV%d" stroke="#999" stroke-width="0.6"/>' % (x, bottom, bottom + 5))
            if x - last_x > 8.0 + 6.2 * len(str(time)):
                out.append('<path d="M%.1f %dV%d" stroke="#aaa" stroke-width="0.5" stroke-dasharray="2 3"/>' % (x, TOP, bottom))
                out.append('<text x="%.1f" y="%d" text-anchor="middle" font-size="10">%d</text>' % (x, bottom + 17, time))
                last_x = x
        out.append('<text x="6" y="%d" font-size="10" fill="#555">ns</text>' % (bottom + 17))
        return out
    span = max(1, scale.high - scale.low)
    unit = 1
    while span / unit > 12:
        unit *= 5 if str(unit)[0] == "2" else 2
        if str(unit)[0] == "4":
            unit = unit // 4 * 5
    time = -(-scale.low // unit) * unit
    while time <= scale.high:
        x = LEFT + scale.of_time(time)
        out.append('<path d="M%.1f %dV%d" stroke="#aaa" stroke-width="0.5" stroke-dasharray="2 3"/>' % (x, TOP, bottom))
        out.append('<text x="%.1f" y="%d" text-anchor="middle" font-size="10">%d</text>' % (x, bottom + 17, time))
        time += unit
    out.append('<text x="6" y="%d" font-size="10" fill="#555">ns</text>' % (bottom + 17))
    return out
