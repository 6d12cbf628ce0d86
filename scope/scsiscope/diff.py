"""Where two traces first differ."""
from .lines import IO, change_words
from .style import big, count, ns, paint
from .trace import bus_after


def first_difference(mine, other, untimed):
    """The first row in which they differ, from 0, or None; the end is the row after the last."""
    size = min(len(mine), len(other))
    piece = 1 << 16
    for start in range(0, size, piece):
        stop = min(size, start + piece)
        same = mine.devices[start:stop] == other.devices[start:stop] and mine.values[start:stop] == other.values[start:stop]
        if same and (untimed or mine.times[start:stop] == other.times[start:stop]):
            continue
        for row in range(start, stop):
            one, two = mine.row(row), other.row(row)
            if one[1:] != two[1:] or not untimed and one[0] != two[0]:
                return row
    if len(mine) != len(other) or not untimed and mine.end != other.end:
        return size
    return None


def times_apart(mine, other):
    """How many rows of the same place have another time, and the first of them."""
    found, first = 0, None
    for row in range(min(len(mine), len(other))):
        if mine.times[row] != other.times[row]:
            found += 1
            first = row if first is None else first
    return found, first


def row_words(trace, row, bus):
    """A row in words: time, device, role, change."""
    if row >= len(trace):
        return "%12s ns  the end" % ns(trace.end)
    time, device, value = trace.row(row)
    role = bus.role_of(device)
    words = "a fault on bit %d" % (-1 - value) if value < 0 else change_words(bus.drives[device], value)
    return "%12s ns  device %d%s: %s" % (ns(time), device, " (%s)" % role if role else "", words)


def where(bus):
    """What stands on the bus, with the byte that comes next."""
    stage = bus.stage()
    if not bus.connection:
        return stage
    byte = (bus.req if bus.lines & IO else bus.ack) + 1
    return "%s of initiator %d and target %d, byte %d of the phase" % (stage, bus.connection.initiator, bus.connection.target, byte)


def text(mine, other, row, untimed):
    names = [mine.name, other.name]
    width = max(map(len, names))
    if row is None:
        if not untimed:
            return "the same: %s, end at %s ns\n" % (count(len(mine), "row"), ns(mine.end))
        found, first = times_apart(mine, other)
        told = "" if not found else "; %s at another time, the first row %d" % (count(found, "row is", "rows are"), first + 1)
        return "the same rows in the same order (%s)%s\n" % (big(len(mine)), told)
    one, two = bus_after(mine, row), bus_after(other, row)
    out = ["row %d differs; %s" % (row + 1, "none is the same before it" if row == 0 else "the row before it is the same" if row == 1 else "the %d before it are the same" % row)]
    out.append("%s" % where(one))
    for trace, bus, name in ((mine, one, names[0]), (other, two, names[1])):
        out.append("  %s %s" % (name.ljust(width), row_words(trace, row, bus)))
    both = row < len(mine) and row < len(other)
    if both and mine.row(row)[1:] == other.row(row)[1:]:
        apart = mine.times[row] - other.times[row]
        out.append("  the same change, %d ns %s in %s" % (abs(apart), "later" if apart > 0 else "sooner", names[0]))
        if not untimed:
            further = first_difference(mine, other, True)
            out.append("  --untimed: %s" % ("the rest differs in times alone" if further is None else "row %d is the first of another device or lines" % (further + 1)))
    elif not both:
        longer = mine if len(mine) > len(other) else other
        out.append("  %s goes on for %s" % (longer.name, count(abs(len(mine) - len(other)), "row")) if len(mine) != len(other) else
                   "  the ends are at other times")
    return "\n".join(out) + "\n"


def json(mine, other, row, untimed):
    if row is None:
        return {"same": True, "rows": len(mine), "untimed": untimed}
    bus = bus_after(mine, row)
    rows = [{"file": trace.name, "time": trace.times[row], "device": trace.devices[row], "value": trace.values[row]}
            if row < len(trace) else {"file": trace.name, "end": trace.end} for trace in (mine, other)]
    return {"same": False, "row": row + 1, "where": where(bus), "untimed": untimed, "rows": rows}
