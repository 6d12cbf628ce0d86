#!/usr/bin/env python3
"""The judge of traces in process, for Python: the C library of docs/library.md by ctypes.

    from scsibus_judge import Judge, Row, judge_trace, rows_of

    rows, end = rows_of(open("read6.out").read())
    print(judge_trace(rows, end))           # None where the trace is lawful, else (row, rule)

    judge = Judge()
    for row in rows:
        broken = judge.feed([row])
    saved = bytes(judge)                    # to be kept; Judge(saved) goes on from here
    print(judge.finish(end))

As a program, `scsibus_judge.py FILE..` prints `FILE lawful` or `FILE broken ROW RULE` for each trace or report.
The library is the one that $SCSIBUS_LIBRARY names, or the one that tools/library built here, or the installed one.
"""
import ctypes
import ctypes.util
import os
import pathlib
import sys

LINES, FAULT = 0, 1
NO_JUDGE, NO_ROW = 254, 255


class Row(ctypes.Structure):
    """What a device drives from a time in ns on (kind LINES), or the bit that a fault strikes (kind FAULT)."""

    _fields_ = [("time", ctypes.c_uint64), ("value", ctypes.c_uint32), ("dev", ctypes.c_uint8), ("kind", ctypes.c_uint8)]


class Verdict(ctypes.Structure):
    """A verdict as the library writes it."""

    _fields_ = [("row", ctypes.c_uint64), ("rule", ctypes.c_uint64)]


def find():
    """The library."""
    own = pathlib.Path(__file__).resolve().parent.parent / ".build/library/lib/libscsibus.so"
    path = os.environ.get("SCSIBUS_LIBRARY") or (str(own) if own.exists() else ctypes.util.find_library("scsibus"))
    if not path:
        raise OSError("there is no libscsibus: tools/library builds it")
    found = ctypes.CDLL(path)
    rows, memory, out = ctypes.POINTER(Row), ctypes.c_void_p, ctypes.POINTER(Verdict)
    found.scsibus_judge_size.restype = found.scsibus_version.restype = ctypes.c_uint64
    found.scsibus_judge_trace.argtypes = [rows, ctypes.c_size_t, ctypes.c_uint64, out]
    found.scsibus_judge_start.argtypes = [memory]
    found.scsibus_judge_feed.argtypes = found.scsibus_judge_try.argtypes = [memory, rows, ctypes.c_size_t, out]
    found.scsibus_judge_finish.argtypes = [memory, ctypes.c_uint64, out]
    for it in ("trace", "start", "feed", "try", "finish"):
        getattr(found, "scsibus_judge_" + it).restype = None
    if found.scsibus_version() != 1:
        raise OSError("%s is of another version" % path)
    return found


LIBRARY = find()


def told(verdict):
    """None for lawful, else the row, from 1, and the rule."""
    if verdict.rule == NO_JUDGE:
        raise ValueError("these bytes are no judge")
    if verdict.rule == NO_ROW:
        raise ValueError("row %d of this call is out of range" % verdict.row)
    return (verdict.row, verdict.rule) if verdict.rule else None


def array_of(rows):
    return rows if isinstance(rows, ctypes.Array) else (Row * len(rows))(*rows)


def judge_trace(rows, end):
    """The verdict on the trace of these rows that ends at `end`, in ns."""
    verdict, rows = Verdict(), array_of(rows)
    LIBRARY.scsibus_judge_trace(rows, len(rows), end, verdict)
    return told(verdict)


class Judge:
    """A judge of the rows so far. Its bytes can be kept, and a judge made of them goes on from there."""

    def __init__(self, saved=None):
        size = LIBRARY.scsibus_judge_size()
        self.memory = (ctypes.c_uint64 * (size // 8))()
        if saved is None:
            LIBRARY.scsibus_judge_start(self.memory)
        elif len(saved) != size:
            raise ValueError("a judge has %d bytes" % size)
        else:
            ctypes.memmove(self.memory, bytes(saved), size)

    def __bytes__(self):
        return bytes(self.memory)

    def feed(self, rows):
        """The judge takes these rows: the verdict on all rows so far."""
        verdict, rows = Verdict(), array_of(rows)
        LIBRARY.scsibus_judge_feed(self.memory, rows, len(rows), verdict)
        return told(verdict)

    def try_rows(self, rows):
        """The verdict that these rows would get as the next ones."""
        verdict, rows = Verdict(), array_of(rows)
        LIBRARY.scsibus_judge_try(self.memory, rows, len(rows), verdict)
        return told(verdict)

    def finish(self, end):
        """The verdict on the trace of the rows so far that ends at `end`, in ns."""
        verdict = Verdict()
        LIBRARY.scsibus_judge_finish(self.memory, end, verdict)
        return told(verdict)


def rows_of(text):
    """The rows and the end of a trace or a report."""
    lines = iter(text.split("\n"))
    if next(lines) != "trace 1":
        raise ValueError("a trace begins with the line `trace 1`")
    rows = []
    for line in lines:
        if line.startswith("end "):
            return array_of(rows), int(line[4:])
        time, dev, what = line.split(" ")
        is_fault = what.startswith("f") and len(what) == 2
        rows.append(Row(int(time), int(what[1:] if is_fault else what, 10 if is_fault else 16), int(dev), int(is_fault)))
    raise ValueError("a trace has a line `end T`")


def main():
    if len(sys.argv) < 2:
        sys.exit(__doc__)
    for name in sys.argv[1:]:
        with open(name) as text:
            rows, end = rows_of(text.read())
        judge, half = Judge(), len(rows) // 2
        judge.feed(rows[:half])
        judge = Judge(bytes(judge))
        judge.feed(rows[half:])
        verdict = judge.finish(end)
        if verdict != judge_trace(rows, end):
            sys.exit("%s: the verdicts on the whole trace and on its parts differ" % name)
        print(name, "broken %d %d" % verdict if verdict else "lawful")


if __name__ == "__main__":
    main()
