"""The eighteen lines of the bus, its phases and its devices' changes, as numbers and in words (ANSI X3.131-1994, 5.6 and 6.1)."""

DATA, IDS, DBP = 0x1FF, 0xFF, 0x100
BSY, SEL, CD, IO, MSG, REQ, ACK, ATN, RST = (1 << bit for bit in range(9, 18))
PHASE = MSG | CD | IO
ALL = 0x3FFFF

NAMES = {9: "BSY", 10: "SEL", 11: "C/D", 12: "I/O", 13: "MSG", 14: "REQ", 15: "ACK", 16: "ATN", 17: "RST"}
# The order in which lines are shown.
SHOWN = (BSY, SEL, ATN, MSG, CD, IO, REQ, ACK, RST)
# The bits of each set of data lines.
BITS = [tuple(bit for bit in range(9) if mask >> bit & 1) for mask in range(512)]

PHASES = {
    0: "DATA OUT",
    IO: "DATA IN",
    CD: "COMMAND",
    CD | IO: "STATUS",
    MSG | CD: "MESSAGE OUT",
    MSG | CD | IO: "MESSAGE IN",
    MSG: "reserved phase 4",
    MSG | IO: "reserved phase 5",
}


def name_of(line):
    """The name of one line, by its bit mask."""
    return NAMES[line.bit_length() - 1]


def line_names(mask):
    """The names of the lines of a set but the data lines."""
    return [name_of(line) for line in SHOWN if mask & line]


def is_odd(data):
    """Whether nine data lines have odd parity (5.6)."""
    return bin(data & DATA).count("1") % 2 == 1


def with_parity(byte):
    """A byte with DB(P) as odd parity asks."""
    return byte if is_odd(byte) else byte | DBP


def data_words(data):
    """The data lines in words: the byte, and `p` where DB(P) is true; `-` where none is."""
    if not data & DATA:
        return "-"
    return "%02x%s" % (data & IDS, "p" if data & DBP else "")


def change_words(own, after):
    """What a device changes, from one set of its lines to another."""
    words = ["+" + name for name in line_names(after & ~own)] + ["-" + name for name in line_names(own & ~after)]
    if (own ^ after) & DATA:
        words.append("data released" if not after & DATA else "data " + data_words(after))
    return " ".join(words) or "nothing"


def drives_words(lines):
    """What a device drives, in words."""
    words = line_names(lines)
    if lines & DATA:
        words.append("data " + data_words(lines))
    return " ".join(words) or "no line"
