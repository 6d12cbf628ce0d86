#!/usr/bin/env python3
"""Turns traces with the verdicts that are wanted into lemmas that the kernel computes.

    tools/makers/rule_cases.py < CASES > crates/bus_cases/proofs/RuleCases.antt

A line of CASES is `NAME: ROW; ROW; .. | END | VERDICT`, with rows as a trace text has them and a verdict as
`judge` prints it. Lines that are empty or begin with `#` are skipped.
"""
import sys

UNFOLDING = "unfolding union_below seen_with line_of ones form_out form_in"

HEAD = """-- Small traces and their verdicts, computed: for each rule one that breaks it and nothing else before, and
-- beside it one that keeps it by a nanosecond or a line. Written by tools/makers/rule_cases.py from
-- tools/rule_cases.txt, whose verdicts come from an independent judge.
use Rattle.std.proofs.Common.{ℕ, ◌≡◌, [], ◌∷◌, reverse, refl}
use lib.Count.{ones}
use Rattle.bus_trace.specs.LineSet.{set_of, line_of}
use Rattle.bus_trace.specs.View.{union_below}
use Rattle.bus_trace.specs.declared.Row.{Row}
use Rattle.bus_trace.specs.declared.Kind.TheVariants.{Drives, Fault}
use Rattle.msg_grammar.specs.Messages.{form_out, form_in}
use Rattle.bus_rules.specs.Seen.{seen_with}
use Rattle.bus_rules.specs.Rules.{judged_whole}
use Rattle.bus_rules.specs.declared.verdict.Verdict.TheVariants.{Lawful, Broken}

abbrev drive : ℕ → ℕ → ℕ → Row
drive time dev lines = record { time = time; dev = dev; kind = Drives (set_of lines) }

abbrev strike : ℕ → ℕ → ℕ → Row
strike time dev bit = record { time = time; dev = dev; kind = Fault bit }
"""


def row(text):
    time, dev, kind = text.split()
    if kind.startswith("f"):
        return "strike %s %s %s" % (time, dev, kind[1:])
    return "drive %s %s 0x%s" % (time, dev, kind)


def verdict(text):
    words = text.split()
    return "Lawful" if words == ["lawful"] else "Broken %s %s" % (words[1], words[2])


def main():
    cases = []
    for line in sys.stdin:
        line = line.strip()
        if not line or line.startswith("#"):
            continue
        name, rest = line.split(":", 1)
        rows, end, wanted = (part.strip() for part in rest.split("|"))
        items = "".join("%s ∷ " % row(r) for r in rows.split(";") if r.strip())
        cases.append("%s : judged_whole (reverse (%s[])) %s ≡ %s\n%s\n%s = refl\n" % (name, items, end, verdict(wanted), UNFOLDING, name))
    print("\n".join([HEAD] + cases), end="")


main()
