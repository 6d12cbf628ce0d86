#!/usr/bin/env python3
"""Writes, of scenarios, their reports and their transcripts, the lemmas that the transcript has the events of the history.

    tools/makers/told_case.py tools/cases/NAME.scn .. > crates/bus_transcript/proofs/ToldCases.antt

Beside each NAME.scn stand its report NAME.out and the transcript NAME.transcript of that report; both come from outside this
repository. The lemmas say that the definitions of either side compute the events of that transcript, without the `ready` of processes that
were refused: so `TellsHistory` holds of the run.
"""
import sys

import array_case
import transcript_case
from array_case import items

EVENTS = ("arrive", "ready", "end", "lost", "abort", "reset")
UNFOLDING = "unfolding need_of sent_of ones union_below line_of form_out form_in by_change closed_by"

TITLE = """-- Whole runs, computed: their transcripts have the events of their histories. An independent simulator printed the rows and the
-- transcripts. Written by tools/makers/told_case.py."""

USES = """use Rattle.std.proofs.Common.{◌∙◌, sym}
use Rattle.bus_transcript.specs.Events.{events_shown, named_history, TellsHistory}"""


def heads():
    """The imports and definitions of both makers, each once."""
    lines = (array_case.HEAD + USES + "\n" + transcript_case.HEAD).splitlines()
    lines = [line for line in lines if not line.startswith("-- ") and ".Text." not in line and ".Fmt." not in line]
    modules = {}
    for line in lines:
        module, brace, names = line.partition(".{")
        if line.startswith("use "):
            modules.setdefault(module, []).extend(name for name in names.rstrip("}").split(", ") if brace and name not in modules.get(module, []))
    uses = [module + (".{%s}" % ", ".join(names) if names else "") for module, names in modules.items()]
    return uses, [line for line in lines if not line.startswith("use ")]


def refused(report):
    """Which arrivals of a history were refused, in its order."""
    return [event[0] == "refuse" for event in report["history"] if event[0] in ("accept", "refuse")]


def shown(lines, report):
    """The events of a transcript, without the `ready` of a process that was refused."""
    given, names, found = refused(report), set(), []
    for line in lines:
        words = line.split()
        if words[0] == "arrive" and given.pop(0):
            names.add(words[1])
        if words[0] in EVENTS and not (words[0] == "ready" and words[1] in names):
            found.append(transcript_case.item(words))
    return found


def main():
    uses, definitions = heads()
    print("\n".join([TITLE] + uses + definitions))
    for scn in sys.argv[1:]:
        name, stem = array_case.name_of(scn, "_told"), scn[: -len("scn")]
        report = array_case.report(stem + "out")
        lines = open(stem + "transcript").read().splitlines()
        array_case.print_scenario(name, scn)
        array_case.print_rows(name, stem + "out")
        print("abbrev %s_events : List Item\n%s_events = %s\n" % (name, name, items(shown(lines, report))))
        for side, what in (("shown", "events_shown"), ("named", "named_history")):
            print("%s_%s : %s %s (reverse %s_rows) ≡ %s_events" % (name, side, what, name, name, name))
            print("%s\n%s_%s = refl\n" % (UNFOLDING, name, side))
        print("pub %s_alike : TellsHistory %s (reverse %s_rows)\n%s_alike = %s_shown ∙ sym %s_named\n" % ((name,) * 6))


main()
