#!/usr/bin/env python3
"""Draws what stands on the bus in a trace or a report, as SVG: the lines over time, the phases coloured, the bytes of the data lines.

    tools/picture.py [FROM TO] < TRACE > PICTURE.svg

FROM and TO are times in ns; where they are not given the whole trace is drawn. A line is high where it is true.
"""
import sys

sys.dont_write_bytecode = True
from annotate import NAMES, phase

ROWS = ("BSY", "SEL", "ATN", "MSG", "C/D", "I/O", "REQ", "ACK")
LEFT, WIDTH, TOP, HIGH, FOOT = 62, 1000, 22, 22, 26
# Pixels of a letter, by its size.
LETTER = {11: 6.7, 9: 5.5}
COLOURS = {
    "BUS FREE": "#eeeeee", "ARBITRATION": "#ffe0b2", "SELECTION": "#ffcc80", "RESELECTION": "#ffcc80", "COMMAND": "#bbdefb",
    "DATA IN": "#c8e6c9", "DATA OUT": "#dcedc8", "STATUS": "#e1bee7", "MESSAGE OUT": "#f8bbd0", "MESSAGE IN": "#f8bbd0",
    "RESET": "#ef9a9a",
}
SHORT = {"MESSAGE OUT": "MSG OUT", "MESSAGE IN": "MSG IN", "BUS FREE": "FREE", "ARBITRATION": "ARB", "SELECTION": "SEL", "RESELECTION": "RESEL"}
PLAIN = "#f7f7f7"


def read(text):
    """The moments at which the bus changes, each with the lines and what stands on the bus from then on, and the end."""
    driven, moments, linked, before = [0] * 8, [(0, 0, "BUS FREE")], False, 0
    for line in text.splitlines()[1:]:
        if line.startswith("end "):
            return moments, int(line.split()[1])
        time, device, kind = line.split()
        if kind.startswith("f"):
            continue
        driven[int(device)] = int(kind, 16)
        bits = 0
        for drives in driven:
            bits |= drives
        # A connection begins as SEL falls while BSY is true, and ends with BSY.
        linked = bool(bits >> 9 & 1) and (linked or bool((before & ~bits) >> 10 & 1))
        moments.append((int(time), bits, phase(bits, linked)))
        before = bits
    sys.exit("no line `end`: this is no whole trace")


def stretches(moments, end):
    """From when to when each stage or phase stands. In an information transfer phase REQ is true at some time."""
    found = []
    for time, bits, name in moments:
        if not found or found[-1][2] != name:
            if found:
                found[-1][1] = time
            found.append([time, end, name, False])
        found[-1][3] |= bool(bits >> 14 & 1) or name in ("BUS FREE", "ARBITRATION", "SELECTION", "RESELECTION", "RESET")
    return found


class Picture:
    def __init__(self, start, end, height):
        self.start, self.end, self.out = start, end, []
        self.add('<svg xmlns="http://www.w3.org/2000/svg" width="%d" height="%d" font-family="DejaVu Sans Mono,monospace" font-size="11">', LEFT + WIDTH + 12, height)
        self.add('<rect width="100%%" height="100%%" fill="white"/>')

    def add(self, text, *values):
        self.out.append(text % values)

    def x(self, time):
        return LEFT + (min(max(time, self.start), self.end) - self.start) * WIDTH / (self.end - self.start)

    def name(self, begin, end, y, names, size):
        """The longest of the names that has room between two times."""
        for name in names:
            for letters in (size, 9):
                if self.x(end) - self.x(begin) > len(name) * LETTER[letters] + 2:
                    middle = (self.x(begin) + self.x(end)) / 2
                    return self.add('<text x="%.1f" y="%d" text-anchor="middle" font-size="%d">%s</text>', middle, y, letters, name)
        return None


def draw(moments, start, end):
    height = TOP + HIGH * (len(ROWS) + 1) + 8 + FOOT
    picture = Picture(start, end, height)
    for begin, until, name, is_named in stretches(moments, end):
        if until > start and begin < end:
            colour = COLOURS.get(name, PLAIN) if is_named else PLAIN
            wide = picture.x(until) - picture.x(begin)
            picture.add('<rect x="%.1f" y="%d" width="%.1f" height="%d" fill="%s"/>', picture.x(begin), TOP - 2, wide, height - TOP - FOOT + 6, colour)
            if is_named:
                picture.name(begin, until, TOP - 8, [name, SHORT.get(name, name)], 11)
    step = next(step for step in (100, 200, 500, 1000, 2000, 5000, 10**4, 10**5, 10**6, 10**9) if (end - start) / step <= 12)
    for time in range(-(-start // step) * step, end + 1, step):
        x, low = picture.x(time), height - FOOT + 4
        picture.add('<line x1="%.1f" x2="%.1f" y1="%d" y2="%d" stroke="#aaa" stroke-dasharray="2 3" stroke-width="0.6"/>', x, x, TOP - 2, low)
        picture.add('<text x="%.1f" y="%d" text-anchor="middle" font-size="9">%g µs</text>', x, height - 8, time / 1000)
    bit_of = {name: bit for bit, name in NAMES.items()}
    for row, name in enumerate(ROWS):
        y, value = TOP + 8 + HIGH * row, 0
        level = lambda value: y + 2 if value else y + 14
        picture.add('<text x="4" y="%d">%s</text>', y + 13, name)
        path = ""
        for time, bits, _ in moments:
            new = bits >> bit_of[name] & 1
            if time <= start:
                path = "M%.1f %d" % (picture.x(start), level(new))
            elif new != value and time <= end:
                path += " H%.1f V%d" % (picture.x(time), level(new))
            value = new
        picture.add('<path d="%s H%.1f" fill="none" stroke="#111"/>', path, picture.x(end))
    y, value, since = TOP + 8 + HIGH * len(ROWS), 0, start
    picture.add('<text x="4" y="%d">DB(7-0)</text>', y + 13)
    for time, bits, _ in [*moments, (end, 0, "")]:
        if bits & 0x1FF != value:
            if value and time > start and since < end:
                wide = max(1.0, picture.x(time) - picture.x(since))
                picture.add('<rect x="%.1f" y="%d" width="%.1f" height="13" fill="white" stroke="#111" stroke-width="0.7"/>', picture.x(since), y + 2, wide)
                picture.name(since, time, y + 12, ["%02x" % (value & 0xFF)], 9)
            value, since = bits & 0x1FF, time
    picture.add("</svg>")
    return "\n".join(picture.out)


def main():
    moments, end = read(sys.stdin.read())
    start = moments[1][0] - 400 if len(moments) > 1 else 0
    if len(sys.argv) == 3 and int(sys.argv[1]) < int(sys.argv[2]):
        start, end = int(sys.argv[1]), int(sys.argv[2])
    elif len(sys.argv) == 1:
        # What stands at the end is seen, too.
        start, end = max(0, start), end + (end - start) // 30 + 1
    else:
        sys.exit(__doc__)
    print(draw(moments, start, end))


main()
