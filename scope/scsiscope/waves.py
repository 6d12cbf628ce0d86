"""A value change dump of the bus: 18 named wires, the byte, and the phase as text; and a save file for GTKWave."""
from .lines import ACK, ATN, DATA, PHASES, REQ
from .rules import Bus
from .trace import step

WIRES = ["DB0", "DB1", "DB2", "DB3", "DB4", "DB5", "DB6", "DB7", "DBP", "BSY", "SEL", "CD", "IO", "MSG", "REQ", "ACK", "ATN", "RST"]
CODES = [chr(33 + bit) for bit in range(18)]
# Lines that no phase goes by.
PLAIN = DATA | REQ | ACK | ATN
MOVES = {name.replace(" ", "_") for name in PHASES.values()}
STAGE, BROKEN = "P", "X"
DEVICES = [chr(97 + device) for device in range(8)]


def dump(trace, verdict, is_low, with_devices, write):
    """Writes the dump, piece by piece."""
    write(b"$comment scsiscope waves: what stands on the bus $end\n$timescale 1 ns $end\n$scope module scsi $end\n")
    for bit, name in enumerate(WIRES):
        write(b"$var wire 1 %s %s $end\n" % (CODES[bit].encode(), (("n" if is_low else "") + name).encode()))
    write(b"$var string 1 %s phase $end\n" % STAGE.encode())
    write(b"$var wire 1 %s broken $end\n" % BROKEN.encode())
    if with_devices:
        for device in range(8):
            write(b"$var wire 18 %s d%d $end\n" % (DEVICES[device].encode(), device))
    write(b"$upscope $end\n$enddefinitions $end\n#0\n$dumpvars\n")
    write("".join("%d%s\n" % (int(is_low), code) for code in CODES).encode())
    write(b"sBUS_FREE %s\n0%s\n" % (STAGE.encode(), BROKEN.encode()))
    if with_devices:
        write("".join("b%018d %s\n" % (0, code) for code in DEVICES).encode())
    write(b"$end\n")
    bus = Bus()
    shown, stage, time_written, out = 0, "BUS_FREE", 0, []
    size = len(trace)
    broken = verdict[0] - 1 if verdict is not None else -1
    pending, pending_time = [], 0
    row, times, devices, values, drives = 0, trace.times, trace.devices, trace.values, bus.drives
    while row <= size:
        moment = times[row] if row < size else max(trace.end, times[size - 1] if size else 0)
        changed_devices = {}
        is_broken = False
        while row < size and times[row] == moment:
            is_broken |= row == broken
            value, device = values[row], devices[row]
            if bus.connection and not bus.call and value >= 0 and not (drives[device] ^ value) & ~PLAIN:
                # The phase stays: the lines alone change.
                drives[device] = value
                bus.lines = bus.union_with(device, value)
            else:
                step(bus, (moment, device, value))
            if with_devices and value >= 0:
                changed_devices[device] = value
            row += 1
        lines, marks, before = bus.lines, [], shown & ~PLAIN
        changed, bit = lines ^ shown, 0
        while changed:
            if changed & 1:
                marks.append("%d%s" % ((lines >> bit & 1) ^ is_low, CODES[bit]))
            changed >>= 1
            bit += 1
        shown = lines
        now = stage if shown & ~PLAIN == before and bus.connection and stage in MOVES else bus.stage().replace(" ", "_")
        if now != stage:
            marks.append("s%s %s" % (now, STAGE))
            stage = now
        if is_broken or row >= size and broken == size:
            marks.append("1" + BROKEN)
            broken = -1
        marks += ["b%s %s" % (format(value, "018b"), DEVICES[device]) for device, value in changed_devices.items()]
        if (marks or row >= size) and moment >= time_written:
            if moment > time_written:
                out.append("#%d" % moment)
                time_written = moment
            out += marks
        if len(out) > 100_000:
            write(("\n".join(out) + "\n").encode())
            out = []
        if row >= size:
            break
    end = max(trace.end, time_written)
    if end > time_written:
        out.append("#%d" % end)
    if out:
        write(("\n".join(out) + "\n").encode())


def save_file(dump_name, trace, verdict, is_low):
    """A save file of GTKWave: the lines in a good order, the byte as a number, the phase as text, a marker at the broken row."""
    low = "n" if is_low else ""
    name = lambda wire: "scsi.%s%s" % (low, wire)  # noqa: E731
    marker = -1
    if verdict is not None:
        marker = trace.times[verdict[0] - 1] if verdict[0] <= len(trace) else trace.end
    # Some 10 us around the broken row, or all of it.
    zoom = 11 if verdict is not None else max(4, max(trace.end, 1).bit_length() - 3)
    out = ['[*] written by scsiscope waves', '[dumpfile] "%s"' % dump_name, "[timestart] %d" % max(0, marker - 4000), "[size] 1400 600",
           "[pos] -1 -1", "*-%d.0 %d %s" % (zoom, marker, " ".join(["-1"] * 26)), "[treeopen] scsi.", "@200", "-Phase",
           "@820", "scsi.phase", "@200", "-Control", "@28"]
    out += [name(wire) for wire in ("BSY", "SEL", "ATN", "MSG", "CD", "IO", "REQ", "ACK", "RST")]
    out += ["@200", "-Data", "@22", "#{DB(7-0)} " + " ".join(name("DB%d" % bit) for bit in range(7, -1, -1)), "@28", name("DBP")]
    if verdict is not None:
        out += ["@28", "scsi.broken"]
    return "\n".join(out) + "\n"
