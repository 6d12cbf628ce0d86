"""A scenario from words."""
import re

from .trouble import Trouble


def disk_of(text):
    match = re.fullmatch(r"([0-7])(?:\.([0-7]))?:(\d+)[xX](\d+)", text)
    if not match:
        raise Trouble("--disk %s: a disk is TARGET[.UNIT]:BLOCKSxBYTES, as 0:4096x512 or 1.2:100x256" % text)
    return int(match[1]), int(match[2] or 0), int(match[3]), int(match[4])


def access_of(word, text, disks):
    match = re.fullmatch(r"(?:([0-7])(?:\.([0-7]))?:)?(\d+)(?:\+(\d+))?", text)
    if not match:
        raise Trouble("--%s %s: an access is [TARGET[.UNIT]:]BLOCK[+BLOCKS], as 5, 5+8 or 1.2:0+4" % (word, text))
    target = disks[0][0] if match[1] is None else int(match[1])
    unit = (disks[0][1] if match[1] is None else 0) if match[2] is None else int(match[2])
    return target, unit, int(match[3]), int(match[4] or 1)


def block(code, first, many):
    """A READ or WRITE: of six bytes where it fits, else of ten."""
    if first < 1 << 21 and 1 <= many <= 256:
        return "%02x%02x%04x%02x00" % (code, first >> 16, first & 0xFFFF, many & 0xFF)
    if first < 1 << 32 and many < 1 << 16:
        return "%02x00%08x00%04x00" % (code | 0x20, first, many)
    raise Trouble("block %d, %d blocks: a READ(10) has a block below 2^32 and fewer than 65536 blocks" % (first, many))


def scenario(options):
    """The text of the scenario."""
    disks = [disk_of(text) for text in options.disk] or [(0, 0, 4096, 512)]
    sync = (0, 0)
    if options.sync:
        match = re.fullmatch(r"(\d+),(\d+)", options.sync)
        if not match:
            raise Trouble("--sync %s: a transfer period factor and an offset, as 50,8" % options.sync)
        sync = (int(match[1]), int(match[2]))
    depth = 16 if options.tags else 1
    lines = ["scsi 1", "initiator %d latency %d open %d retries 2 sync %d %d lag 0" % (
        options.initiator, options.latency, 4 if options.tags else 1, *sync)]
    for target in dict.fromkeys(disk[0] for disk in disks):
        lines.append("target %d latency %d retries 2 disc %s pick first seek %d sync %d %d" % (
            target, options.latency, "command" if options.disconnect else "never", options.seek, *sync))
    for target, unit, many, size in disks:
        lines.append("unit %d %d blocks %d size %d depth %d" % (target, unit, many, size, max(depth, 1)))
    commands = []
    if options.boot:
        for target, unit, _, _ in disks:
            commands += [(target, unit, cdb, "none") for cdb in (
                "000000000000", "120000002400", "25000000000000000000", block(0x08, 0, 1))]
    for word, code, accesses in (("write", 0x0A, options.write), ("read", 0x08, options.read)):
        for text in accesses:
            target, unit, first, many = access_of(word, text, disks)
            commands.append((target, unit, block(code, first, many), "out from 00" if word == "write" and many else "none"))
    if not commands:
        commands = [(disks[0][0], disks[0][1], block(0x08, 0, 1), "none")]
    for number, (target, unit, cdb, data) in enumerate(commands):
        tag = "simple %d" % (number % 256) if options.tags else "untagged"
        lines.append("cmd %d %d %d at 0 %s cdb %s %s" % (options.initiator, target, unit, tag, cdb, data))
    for text in options.fault:
        match = re.fullmatch(r"(\d+):([0-8])", text)
        if not match:
            raise Trouble("--fault %s: a time in ns and a bit from 0 to 8, as 8280:8" % text)
        lines.append("fault at %s bit %s" % match.groups())
    return "\n".join(lines + ["end"]) + "\n"
