#!/usr/bin/env python3
"""Writes, of traces and their transcripts, the lemmas that the definition of a transcript computes them.

    tools/makers/transcript_case.py tools/transcript_cases/*.out > crates/bus_transcript/proofs/Cases.antt

Beside each report or trace text NAME.out stands its transcript NAME.transcript; both come from outside this repository.
"""
import sys

import array_case
from array_case import items, octets, record

HEAD = """-- Traces and their transcripts, computed; an independent program printed them. Written by tools/makers/transcript_case.py.
use Rattle.std.proofs.Common.{ℕ, ◌≡◌, true, false, List, [], ◌∷◌, ◌++◌, reverse, refl}
use Rattle.std.specs.Prelude.{Option, Some, None, codes}
use Rattle.std.specs.Fmt.{digits}
use lib.Count.{ones}
use Rattle.bus_base.specs.declared.AbortKind.TheVariants as aborts
use Rattle.bus_trace.specs.LineSet.{set_of, line_of}
use Rattle.bus_trace.specs.View.{union_below}
use Rattle.bus_trace.specs.declared.Row.{Row}
use Rattle.bus_trace.specs.declared.Kind.TheVariants.{Drives, Fault}
use Rattle.msg_grammar.specs.declared.message.MsgOut.TheVariants as to_target
use Rattle.msg_grammar.specs.declared.message.MsgIn.TheVariants as to_initiator
use Rattle.msg_grammar.specs.Messages.{form_out, form_in}
use Rattle.bus_transcript.specs.declared.item.Name.{Name}
use Rattle.bus_transcript.specs.declared.item.Item.{Item}
use Rattle.bus_transcript.specs.declared.item.Item.TheVariants as items
use Rattle.bus_transcript.specs.Rows.{by_change, closed_by, transcript_of}
use Rattle.bus_transcript.specs.Text.{transcript_text}

abbrev drive : ℕ → ℕ → ℕ → Row
drive time dev lines = record { time = time; dev = dev; kind = Drives (set_of lines) }

abbrev strike : ℕ → ℕ → ℕ → Row
strike time dev bit = record { time = time; dev = dev; kind = Fault bit }

abbrev process : ℕ → ℕ → Option ℕ → Option ℕ → ℕ → Name
process initiator target unit tag number =
    record { initiator = initiator; target = target; unit = unit; tag = tag; number = number }
"""

UNFOLDING = "unfolding ones union_below line_of form_out form_in by_change closed_by"

# How many lines of a transcript stand in one string.
PART = 40

OUT = {0x05: "DetectedError", 0x06: "Abort", 0x07: "Reject", 0x08: "Nop", 0x09: "ParityError", 0x0C: "DeviceReset", 0x0D: "AbortTag", 0x0E: "ClearQueue"}
IN = {0x00: "CommandComplete", 0x02: "SavePointer", 0x03: "RestorePointers", 0x04: "Disconnect", 0x07: "Reject"}
TAGS = {0x20: "SimpleTag", 0x21: "HeadTag", 0x22: "OrderedTag"}


def message(end, alone, text):
    """A message that these bytes are, to this end."""
    b = bytes.fromhex(text)
    if b[0] >= 0x80:
        privilege = ("true " if b[0] & 0x40 else "false ") if end == "to_target" else ""
        return "(%s.Identify %s%d)" % (end, privilege, b[0] & 7)
    if b[0] in TAGS:
        return "(%s.%s %d)" % (end, TAGS[b[0]], b[1])
    if b[0] == 1:
        return "(%s.Sdtr (%s))" % (end, record(period=b[3], offset=b[4]))
    return "%s.%s" % (end, alone[b[0]])


def optional(word):
    return "None" if word in ("-", "none") else "(Some %s)" % word


def name(word):
    initiator, target, unit, tag, number = word.split(".")
    return "(process %s %s %s %s %s)" % (initiator, target, optional(unit), optional(tag), number)


def item(w):
    """The item that a line of a transcript says, by its words."""
    kind = w[0]
    if kind == "connect":
        return "items.Connect %s %s %s" % (w[1], name(w[2]), "true" if w[3] == "again" else "false")
    if kind == "unanswered":
        return "items.Unanswered %s %s %s" % tuple(w[1:])
    if kind == "out":
        return "items.Out %s" % message("to_target", OUT, w[1])
    if kind == "in":
        return "items.In %s" % message("to_initiator", IN, w[1])
    if kind == "command":
        return "items.Cdb %s" % octets(w[1])
    if kind in ("dataout", "datain"):
        return "items.Payload %s %s %s" % ("true" if kind == "dataout" else "false", w[1], octets(w[2]))
    if kind == "status":
        return "items.Status %d" % int(w[1], 16)
    if kind in ("arrive", "ready", "lost"):
        return "items.%s %s" % (kind.capitalize(), name(w[1]))
    if kind == "end":
        return "items.End %s %s" % (name(w[1]), "None" if w[2] == "none" else "(Some %d)" % int(w[2], 16))
    if kind == "abort":
        return "items.Abort %s %s %s %s" % (w[1], w[2], optional(w[3]), array_case.what(w[4:]))
    return "items.%s %s" % (kind.capitalize(), w[1])


def text(lines):
    """The bytes of some lines."""
    parts = ["".join(line + "\\n" for line in lines[at : at + PART]) for at in range(0, len(lines), PART)]
    return " ++ (".join('codes "%s"' % part for part in parts) + ")" * (len(parts) - 1)


def main():
    print(HEAD)
    for out in sys.argv[1:]:
        case = array_case.name_of(out, "")
        lines = open(out[: -len("out")] + "transcript").read().splitlines()
        array_case.print_rows(case, out)
        print("abbrev %s_items : List Item\n%s_items = %s\n" % (case, case, items(item(line.split()) for line in lines[1:-1])))
        print("%s_told : transcript_of (reverse %s_rows) ≡ %s_items\n%s\n%s_told = refl\n" % (case, case, case, UNFOLDING, case))
        print("%s_text : transcript_text %s_items ≡ %s\nunfolding digits\n%s_text = refl\n" % (case, case, text(lines), case))


if __name__ == "__main__":
    main()
