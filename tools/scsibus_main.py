#!/usr/bin/env python3
"""The program scsibus in process, for Python: the C library of docs/library.md by ctypes.

    from scsibus_main import call

    status, text = call("run --transcript", open("read6.scsi", "rb").read())

As a program, `scsibus_main.py WORDS` does what `./scsibus WORDS` does. The library is the one that $SCSIBUS_MAIN_LIBRARY names, or the
one that `tools/library --main` built here, or the installed one.
"""
import ctypes
import ctypes.util
import os
import pathlib
import sys

# Room of a first call; a text that is longer is asked for again.
ROOM = 1 << 16


class Answer(ctypes.Structure):
    """The exit status of the program, and how long its text is."""

    _fields_ = [("status", ctypes.c_uint64), ("length", ctypes.c_uint64)]


def find():
    """The library."""
    own = pathlib.Path(__file__).resolve().parent.parent / ".build/library/lib/libscsibus_main.so"
    path = os.environ.get("SCSIBUS_MAIN_LIBRARY") or (str(own) if own.exists() else ctypes.util.find_library("scsibus_main"))
    if not path:
        raise OSError("there is no libscsibus_main: `tools/library --main` builds it")
    found = ctypes.CDLL(path)
    text, size = ctypes.c_char_p, ctypes.c_size_t
    found.scsibus_main.argtypes = [text, size, text, size, ctypes.c_void_p, size, ctypes.POINTER(Answer)]
    found.scsibus_main.restype = None
    found.scsibus_main_version.restype = ctypes.c_uint64
    if found.scsibus_main_version() != 1:
        raise OSError("%s is of another version" % path)
    return found


LIBRARY = find()


def call(words, data=b"", room=ROOM):
    """What the program answers to these words, in one string, and these bytes: its exit status and the bytes that it writes."""
    words, answer = words.encode(), Answer()
    while True:
        out = ctypes.create_string_buffer(max(room, 1))
        LIBRARY.scsibus_main(words, len(words), data, len(data), out, room, answer)
        if answer.length <= room:
            return answer.status, out.raw[: answer.length]
        room = answer.length


def main():
    words = sys.argv[1:]
    status, text = call(" ".join(words), b"" if words[:1] == ["make"] else sys.stdin.buffer.read())
    sys.stdout.buffer.write(text)
    sys.exit(status)


if __name__ == "__main__":
    main()
