"""Small drawings of lines in letters."""
from .lines import ACK, ATN, BSY, CD, DATA, IO, MSG, PHASE, REQ, RST, SEL, SHOWN, data_words, name_of
from .rules import PHASE_NAMES, SENTENCES, rule_of
from .style import ns, paint
from .trace import step

# The lines that a rule is about.
ABOUT = {
    1: 0, 2: 0, 3: BSY | SEL, 4: BSY | SEL, 5: BSY | SEL, 6: BSY | SEL, 7: BSY | SEL, 8: BSY | SEL, 9: BSY | SEL | ATN | IO,
    10: BSY | SEL | ATN | IO, 11: BSY | SEL | ATN, 12: BSY | SEL | ATN, 13: BSY | SEL | IO | REQ, 14: PHASE | REQ | ACK, 15: IO | REQ | ACK,
    16: IO | REQ | ACK, 17: IO | REQ | ACK, 18: REQ | ACK, 19: REQ | ACK, 20: REQ | ACK, 21: REQ | ACK, 22: REQ | ACK,
    23: PHASE | REQ | ACK, 24: ATN | MSG | REQ | ACK, 25: PHASE | REQ | ACK, 26: REQ | ACK, 27: BSY | REQ | ACK, 28: RST | BSY | SEL,
}
WITH_DATA = {3, 4, 5, 6, 7, 8, 9, 10, 11, 12, 15, 16, 17, 19, 20, 21, 22, 25, 26}
# From which lines a sentence measures.
FROM = {
    "3b": BSY | SEL, "4c": BSY | SEL | RST, "4d": BSY, "5b": BSY, "7b": SEL, "8a": SEL, "9f": DATA, "10c": BSY | SEL | DATA, "11a": BSY,
    "11b": BSY, "12b": BSY, "12d": DATA, "14e": PHASE | SEL, "15c": IO, "16a": IO, "16b": IO, "19a": DATA, "22a": REQ | ACK,
    "22b": REQ | ACK, "22c": REQ | ACK, "22d": DATA, "22e": REQ | ACK, "24b": ATN, "28c": RST, "28d": RST,
}
LEAST, WIDE = 7, 104


def drawing(trace, place, bus, findings, before=8, after=2):
    """The lines around a row, before which `bus` stands with the rows from its count on; None where nothing is to be seen.

    `bus` stands before row place - before, or the first.
    """
    first = max(0, place - before)
    last = min(len(trace), place + after + 1)
    at_end = place >= len(trace)
    rule = rule_of(findings[0].sentence) if findings else 0
    shown = ABOUT.get(rule, 0)
    columns = []
    state = bus.lines
    start = state
    for row in range(first, last):
        lines_before = bus.lines
        step(bus, trace.row(row))
        columns.append((row, trace.times[row], bus.lines, lines_before ^ bus.lines))
    if not columns:
        return []
    if not at_end:
        changed = next(column[3] for column in columns if column[0] == place)
        shown |= changed & ~DATA
    is_data = rule in WITH_DATA or not at_end and changed & DATA
    if not shown and not is_data:
        return []
    wide = max(LEAST, max(len(str(time)) for _, time, _, _ in columns) + 1)
    room = max(3, (WIDE - 6) // wide - (1 if at_end else 0))
    if len(columns) > room:
        cut = len(columns) - room
        start = columns[cut - 1][2]
        columns = columns[cut:]
    if at_end:
        columns.append((place, max(trace.end, 0), columns[-1][2], 0))
    lines = []
    header, previous = "", None
    for row, time, _, _ in columns:
        text = "" if time == previous else str(time)
        header += text.ljust(wide)
        previous = time
    lines.append("        " + header.rstrip())
    for line in SHOWN:
        if shown & line:
            level, text = bool(start & line), "~" if start & line else "_"
            for _, _, now, _ in columns:
                up = bool(now & line)
                text += ("~" if up else "_") * wide if up == level else ("/" + "~" * (wide - 1) if up else "\\" + "_" * (wide - 1))
                level = up
            lines.append("  %-4s %s" % (name_of(line), text))
    if is_data:
        data, text = start & DATA, "=" if start & DATA else "-"
        for _, _, now, _ in columns:
            if now & DATA == data:
                text += ("=" if data else "-") * wide
            else:
                data = now & DATA
                text += ("<" + data_words(data)).ljust(wide, "=") if data else ">".ljust(wide, "-")
        lines.append("  DB   " + text)
    here = next((number for number, column in enumerate(columns) if column[0] == place), None)
    if here is None:
        return lines
    lines.append("        " + " " * (wide * here) + paint("^ row %s" % ns(place + 1) if not at_end else "^ end", "bold", "red"))
    for finding in findings:
        if finding.since is None or finding.sentence not in FROM:
            continue
        time = columns[here][1]
        begin = None
        for number, (row, moment, now, change) in enumerate(columns[:here]):
            if moment == finding.since and change & FROM[finding.sentence]:
                begin = number
        label = " %s ns " % ns(time - finding.since)
        limit = "rule %s: at %s %s" % (finding.sentence, "most" if finding.is_latest else "least", ns(finding.delay))
        left = 0 if begin is None else begin * wide
        length = here * wide - left
        if length < 5:
            bar, limit = " " * length + "|", "%s ns; %s" % (label.strip(" ns"), limit)
        elif length > len(label) + 4:
            bar = ("|<" if begin is not None else "--") + label.center(length - 3, "-") + ">|"
        else:
            bar, limit = ("|<" if begin is not None else "--") + "-" * (length - 3) + ">|", "%s; %s" % (label.strip(), limit)
        lines.append("        " + " " * left + bar + "  " + limit)
    return lines
