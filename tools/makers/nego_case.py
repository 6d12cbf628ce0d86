#!/usr/bin/env python3
"""nego_case.py > crates/sync_nego/proofs/Cases.antt: what both ends keep of their negotiation after whole reports.

Each case is a report of tools/due_cases/ or tools/cases/, made by an independent simulator; the initiator and the target, and
what each offers, as its scenario says; whether they offer again after a reset, as text 2 has it; the period and the offset that
are agreed on at its end, by the larger period and the smaller offset of 6.6.21; and whether either may still offer."""
import os

HERE = os.path.dirname(os.path.dirname(os.path.abspath(__file__)))
CASES = [
    # report, initiator, target, what they offer, again, agreed, may offer
    ("cases/negotiation", 7, 0, (50, 8), (50, 8), False, (50, 8), False),
    ("due_cases/request_of_a_target_struck", 5, 2, (30, 4), (25, 3), True, (30, 3), False),
    ("due_cases/offset_255", 7, 3, (50, 255), (80, 16), False, (0, 0), False),
    ("due_cases/offset_255", 5, 4, (70, 2), (0, 5), False, (70, 0), False),
    ("due_cases/text_two", 6, 1, (25, 8), (30, 8), True, (30, 8), False),
    ("due_cases/device_reset_by_message", 7, 0, (50, 2), (40, 8), True, (50, 2), False),
    ("due_cases/opening_given_up", 6, 1, (50, 8), (50, 8), False, (0, 0), True),
]
HEAD = """-- What both ends keep of their negotiation after whole reports of an independent simulator. Written by tools/makers/nego_case.py.
use Rattle.std.proofs.Common.{ℕ, ◌≡◌, Bool, true, false, List, [], ◌∷◌, reverse, refl}
use lib.Count.{ones}
use Rattle.bus_trace.specs.LineSet.{set_of}
use Rattle.bus_trace.specs.View.{union_below}
use Rattle.bus_trace.specs.declared.Row.{Row}
use Rattle.bus_trace.specs.declared.Kind.TheVariants.{Drives, Fault}
use Rattle.bus_phases.specs.declared.words.End.TheVariants as ends
use Rattle.msg_grammar.specs.Messages.{form_out, form_in}
use Rattle.sync_nego.specs.Exchange.{side}
use Rattle.sync_nego.specs.Rows.{turns}

abbrev drive : ℕ → ℕ → ℕ → Row
drive time dev lines = record { time = time; dev = dev; kind = Drives (set_of lines) }

abbrev strike : ℕ → ℕ → ℕ → Row
strike time dev bit = record { time = time; dev = dev; kind = Fault bit }"""


def rows_of(report):
    rows = []
    for line in open(os.path.join(HERE, report + ".out")):
        words = line.split()
        if words[:1] == ["end"]:
            return rows
        if len(words) == 3 and words[2][0] == "f":
            rows.append(f"strike {words[0]} {words[1]} {words[2][1:]}")
        elif len(words) == 3:
            rows.append(f"drive {words[0]} {words[1]} 0x{words[2]}")
    return rows


def agreement(a):
    return f"record {{ period = {a[0]}; offset = {a[1]} }}"


def main():
    print(HEAD)
    printed = set()
    for report, host, target, offered, would, again, agreed, may in CASES:
        name = os.path.basename(report)
        if name not in printed:
            printed.add(name)
            print(f"\n-- ---- {report}\n\nabbrev {name} : List Row\n{name} = {' ∷ '.join(rows_of(report))} ∷ []")
        for end, own in (("Initiator", offered), ("Target", would)):
            lemma = f"{name}_{end.lower()}_{host if end == 'Initiator' else target}"
            left = f"(side {str(again).lower()} ends.{end} ({agreement(own)}) (turns (reverse {name}) {host} {target})).nego"
            right = f"record {{ own = {agreement(own)}; agreed = {agreement(agreed)}; may_offer = {str(may).lower()} }}"
            print(f"\n{lemma} : {left} ≡ {right}\nunfolding ones union_below form_out form_in\n{lemma} = refl")


main()
