#!/usr/bin/env python3
"""Prints the rows of a trace or a report with the names of their lines.

    tools/annotate.py [COUNT] < TRACE

Each row as a line of a table: time in ns, device, the lines that it drives from then on, what that changes on the bus, and the phase
of the bus after it. COUNT is how many rows.
"""
import sys

NAMES = {9: "BSY", 10: "SEL", 11: "C/D", 12: "I/O", 13: "MSG", 14: "REQ", 15: "ACK", 16: "ATN", 17: "RST"}
PHASES = {
    (0, 0, 0): "DATA OUT",
    (0, 0, 1): "DATA IN",
    (0, 1, 0): "COMMAND",
    (0, 1, 1): "STATUS",
    (1, 1, 0): "MESSAGE OUT",
    (1, 1, 1): "MESSAGE IN",
}


def lines(bits):
    """The names of these lines, and the value of the data lines."""
    named = [name for bit, name in NAMES.items() if bits >> bit & 1]
    data = ["%02x%s" % (bits & 0xFF, " with parity" if bits >> 8 & 1 else "")] if bits & 0x1FF else []
    return " ".join(named + data) or "none"


def change(before, after):
    """Which lines rise and which fall; the data lines as a whole."""
    said = ["+" + name for bit, name in NAMES.items() if (after & ~before) >> bit & 1]
    said += ["-" + name for bit, name in NAMES.items() if (before & ~after) >> bit & 1]
    if (before ^ after) & 0x1FF:
        said.append("data %02x" % (after & 0xFF) if after & 0x1FF else "data released")
    return " ".join(said) or "nothing"


def phase(bits, linked):
    """What stands on the bus."""
    if bits >> 17 & 1:
        return "RESET"
    if bits >> 10 & 1:
        return "SELECTION" if not bits >> 12 & 1 else "RESELECTION"
    if not bits >> 9 & 1:
        return "BUS FREE"
    if not linked:
        return "ARBITRATION"
    return PHASES.get((bits >> 13 & 1, bits >> 11 & 1, bits >> 12 & 1), "reserved")


def table(rows):
    """The lines of a table of these rows, as a trace has them."""
    driven, before, linked = [0] * 8, 0, False
    made = ["| Time | Device | Drives | Changes on the bus | Bus |", "|---|---|---|---|---|"]
    for row in rows:
        time, device, kind = row.split()
        if kind.startswith("f"):
            made.append("| %s | %s | fault of bit %s | nothing | %s |" % (time, device, kind[1:], phase(before, linked)))
            continue
        driven[int(device)] = int(kind, 16)
        after = 0
        for bits in driven:
            after |= bits
        # A connection begins as SEL falls while BSY is true, and ends with BSY.
        linked = bool(after >> 9 & 1) and (linked or bool((before & ~after) >> 10 & 1))
        made.append("| %s | %s | %s | %s | %s |" % (time, device, lines(driven[int(device)]), change(before, after), phase(after, linked)))
        before = after
    return made


def main():
    count = int(sys.argv[1]) if len(sys.argv) > 1 else None
    print("\n".join(table(sys.stdin.read().split("\nend ", 1)[0].splitlines()[1:][:count])))


if __name__ == "__main__":
    main()
