"""How words look: colours on a terminal alone, columns, times."""
import os
import sys
import textwrap

CODES = {"bold": "1", "red": "31", "green": "32", "yellow": "33", "blue": "34", "dim": "2"}
_colours = False


def set_colours(stream):
    """Colours where the stream is a terminal and NO_COLOR is not set."""
    global _colours
    _colours = stream.isatty() and "NO_COLOR" not in os.environ and os.environ.get("TERM") != "dumb"


def paint(text, *kinds):
    if not _colours or not text:
        return text
    return "\033[%sm%s\033[0m" % (";".join(CODES[kind] for kind in kinds), text)


def fold(text, indent="", width=110):
    """A paragraph in lines."""
    return textwrap.fill(text, width, initial_indent=indent, subsequent_indent=indent, break_on_hyphens=False)


def ns(value):
    """A time, a length in ns or the number of a row: plain digits, as the texts have them."""
    return str(value)


def big(value):
    """A count, in digits by three from 10,000 on."""
    return format(value, ",") if abs(value) >= 10_000 else str(value)


def count(number, word, many=None):
    """A number with its word: 1 row, 2 rows."""
    return "%s %s" % (big(number), word if number == 1 else many or word + "s")


def warn(text):
    sys.stderr.write("scsiscope: %s\n" % text)
