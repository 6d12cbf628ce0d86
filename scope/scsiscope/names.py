"""Messages, commands, status and sense data in words (ANSI X3.131-1994, 6.6, 7.3, 8.2 and 9.2).

More commands are named than scsibus runs, since a trace of other devices may have them.
"""

MESSAGES = {
    0x00: "COMMAND COMPLETE", 0x02: "SAVE DATA POINTER", 0x03: "RESTORE POINTERS", 0x04: "DISCONNECT", 0x05: "INITIATOR DETECTED ERROR",
    0x06: "ABORT", 0x07: "MESSAGE REJECT", 0x08: "NO OPERATION", 0x09: "MESSAGE PARITY ERROR", 0x0C: "BUS DEVICE RESET",
    0x0D: "ABORT TAG", 0x0E: "CLEAR QUEUE",
}
TAGS = {0x20: "SIMPLE QUEUE TAG", 0x21: "HEAD OF QUEUE TAG", 0x22: "ORDERED QUEUE TAG"}
STATUS = {0x00: "GOOD", 0x02: "CHECK CONDITION", 0x04: "CONDITION MET", 0x08: "BUSY", 0x10: "INTERMEDIATE", 0x18: "RESERVATION CONFLICT",
          0x22: "COMMAND TERMINATED", 0x28: "QUEUE FULL"}
COMMANDS = {
    0x00: "TEST UNIT READY", 0x01: "REZERO UNIT", 0x03: "REQUEST SENSE", 0x04: "FORMAT UNIT", 0x07: "REASSIGN BLOCKS", 0x08: "READ(6)",
    0x0A: "WRITE(6)", 0x0B: "SEEK(6)", 0x12: "INQUIRY", 0x15: "MODE SELECT(6)", 0x16: "RESERVE", 0x17: "RELEASE", 0x18: "COPY",
    0x1A: "MODE SENSE(6)", 0x1B: "START STOP UNIT", 0x1C: "RECEIVE DIAGNOSTIC RESULTS", 0x1D: "SEND DIAGNOSTIC",
    0x1E: "PREVENT ALLOW MEDIUM REMOVAL", 0x25: "READ CAPACITY", 0x28: "READ(10)", 0x2A: "WRITE(10)", 0x2B: "SEEK(10)",
    0x2E: "WRITE AND VERIFY", 0x2F: "VERIFY", 0x34: "PRE-FETCH", 0x35: "SYNCHRONIZE CACHE", 0x37: "READ DEFECT DATA(10)", 0x3B: "WRITE BUFFER",
    0x3C: "READ BUFFER",
}
KEYS = ["NO SENSE", "RECOVERED ERROR", "NOT READY", "MEDIUM ERROR", "HARDWARE ERROR", "ILLEGAL REQUEST", "UNIT ATTENTION", "DATA PROTECT",
        "BLANK CHECK", "vendor specific", "COPY ABORTED", "ABORTED COMMAND", "EQUAL", "VOLUME OVERFLOW", "MISCOMPARE", "reserved"]
CODES = {
    (0x00, 0x00): "no additional sense", (0x04, 0x00): "not ready", (0x11, 0x00): "unrecovered read error",
    (0x20, 0x00): "invalid command operation code", (0x21, 0x00): "logical block address out of range", (0x24, 0x00): "invalid field in CDB",
    (0x25, 0x00): "logical unit not supported", (0x28, 0x00): "medium may have changed", (0x29, 0x00): "power on, reset or BUS DEVICE RESET",
    (0x2F, 0x00): "commands cleared by another initiator", (0x43, 0x00): "message error", (0x47, 0x00): "SCSI parity error",
    (0x48, 0x00): "initiator detected error message received", (0x3A, 0x00): "medium not present",
}


def rate(period):
    """Bytes in a second by a transfer period in ns, in words."""
    return "%.3g MB/s" % (1000 / period) if period else "no rate"


def message_words(data):
    """A message in words."""
    first = data[0]
    if first >= 0x80:
        return "IDENTIFY, unit %d%s" % (first & 7, ", may disconnect" if first & 0x40 else "")
    if first in TAGS and len(data) > 1:
        return "%s %d" % (TAGS[first], data[1])
    if first == 1 and len(data) == 5:
        if not data[4]:
            return "SYNCHRONOUS DATA TRANSFER REQUEST, offset 0 (asynchronous)"
        return "SYNCHRONOUS DATA TRANSFER REQUEST, period %d ns (%s), offset %d" % (4 * data[3], rate(4 * data[3]), data[4])
    return MESSAGES.get(first, "unknown message")


def blocks_words(first, many):
    if many == 0:
        return "block %d, no block" % first
    return "block %d" % first if many == 1 else "%d blocks from %d" % (many, first)


def command_words(data):
    """A command block in words, with its fields."""
    if not data:
        return "no byte"
    code = data[0]
    name = COMMANDS.get(code, "operation code %02x" % code)
    want = {0: 6, 1: 10, 2: 10, 5: 12}.get(code >> 5)
    if want and len(data) != want:
        return "%s, %d bytes of %d" % (name, len(data), want)
    if code in (0x08, 0x0A):
        return "%s, %s" % (name, blocks_words((data[1] & 31) << 16 | data[2] << 8 | data[3], data[4] or 256))
    if code in (0x28, 0x2A, 0x2E, 0x2F):
        flags = "".join(", " + flag for bit, flag in ((16, "DPO"), (8, "FUA")) if data[1] & bit and code in (0x28, 0x2A))
        return "%s, %s%s" % (name, blocks_words(int.from_bytes(data[2:6], "big"), data[7] << 8 | data[8]), flags)
    if code in (0x03, 0x12, 0x1A, 0x15):
        page = ", page %02x" % (data[2] & 63) if code == 0x1A else ""
        return "%s, at most %d bytes%s" % (name, data[4], page)
    return name


def sense_words(data):
    """Sense data in words."""
    if len(data) < 3 or data[0] & 0x7F not in (0x70, 0x71):
        return "sense data, cut short" if len(data) < 3 else "sense data of an unknown form"
    key = KEYS[data[2] & 15]
    if len(data) < 14:
        return "sense: %s (the codes are cut off)" % key
    code = (data[12], data[13])
    return "sense: %s, %02x/%02x %s" % (key, *code, CODES.get(code, "another code"))


def data_words(command, data):
    """What a command's data say, where this is known; or nothing."""
    if not command:
        return ""
    if command[0] == 0x03:
        return sense_words(data)
    if command[0] == 0x12 and len(data) >= 32:
        kind = {0: "disk", 1: "tape", 5: "CD-ROM", 0x7F: "no such unit"}.get(data[0], "type %02x" % (data[0] & 31))
        text = ["".join(chr(it) if 32 <= it < 127 else "." for it in part).strip() for part in (data[8:16], data[16:32], data[32:36])]
        return "inquiry: %s, %s, SCSI-%d" % (kind, " ".join(it for it in text if it), data[2] & 7)
    if command[0] == 0x25 and len(data) == 8:
        last, size = int.from_bytes(data[:4], "big"), int.from_bytes(data[4:], "big")
        return "capacity: %d blocks of %d bytes" % (last + 1, size)
    return ""


def dump_lines(data, first=0, most=0):
    """Bytes as a hex dump with their offsets, at most so many (0: all)."""
    shown = data if not most else data[:most]
    for start in range(0, len(shown), 16):
        part = shown[start: start + 16]
        text = "".join(chr(byte) if 32 <= byte < 127 else "." for byte in part)
        yield "%06x  %-23s  %-23s  |%s|" % (first + start, part[:8].hex(" "), part[8:].hex(" "), text)
    if len(shown) < len(data):
        yield "..      %d bytes more (--bytes 0 shows all)" % (len(data) - len(shown))
