#!/usr/bin/env python3
"""Writes, of runs that faults strike, how many struck a command, how many it bears, and whether it ended GOOD, as lemmas that are computed.

    tools/makers/limit_case.py tools/due_cases/NAME.scn .. tools/limit_cases/*.scn > crates/delivery_laws/proofs/LimitCases.antt

Runs of tools/due_cases stand in crates/due_model/proofs/Cases.antt; of the others scenario and rows are written. Beside each NAME.scn stands its
report NAME.out, which comes from outside this repository. Expected are: as many faults as the report has fault rows, which are all of one
command, or one of each; the smaller retry limit of initiator and target; and GOOD where the report shows it. Each run has room, no reset and no
abort, and its commands are valid, but for those whose target is absent, of which nothing is said here.
"""
import re
import sys

import array_case
import run_lemmas

COMMENT = """-- In some runs: how many faults struck a command, how many it bears, and whether it ended GOOD, on both sides of the limit, computed. What valid
-- commands are owed (IsDelivered) is computed of each. Written by tools/makers/limit_case.py."""

USES = """use Rattle.due_model.proofs.Seams.{onto}
use Rattle.bus_trace.specs.LineSet.{set_of}
use Rattle.bus_trace.specs.declared.Row.{Row}
use Rattle.bus_trace.specs.declared.Kind.TheVariants.{Drives, Fault}
use Rattle.delivery_laws.proofs.Limits.{delivers, limit_told}"""

DEFINITIONS = """
abbrev drive : ℕ → ℕ → ℕ → Row
drive time dev lines = record { time = time; dev = dev; kind = Drives (set_of lines) }

abbrev strike : ℕ → ℕ → ℕ → Row
strike time dev bit = record { time = time; dev = dev; kind = Fault bit }
"""


def commands(scn):
    """Of each command the retry limits of its initiator and of its target, None where that is absent."""
    hosts, targets, found = {}, {}, []
    for line in open(scn):
        w = line.split()
        if w and w[0] == "initiator":
            hosts[w[1]] = int(w[7])
        elif w and w[0] == "target":
            targets[w[1]] = int(w[5])
        elif w and w[0] == "cmd":
            found.append((hosts[w[1]], targets.get(w[2])))
        elif w and w[0] in ("reset", "abort"):
            sys.exit("%s: it has a reset or an abort" % scn)
    return found


def expected(scn):
    """Of each command its faults, its limit, and whether it ended GOOD."""
    report = open(scn[: -len("scn")] + "out").read()
    struck = len(re.findall(r"^\d+ \d f\d$", report, re.M))
    ended = dict(re.findall(r"^cmd (\d+) (\w+)", report, re.M))
    limits = [own if other is None else min(own, other) for own, other in commands(scn)]
    counts = [struck] if len(limits) == 1 else [1] * len(limits)
    if sum(counts) != struck:
        sys.exit("%s: whose are its faults?" % scn)
    return [(counts[i], limit, ended[str(i + 1)] == "GOOD") for i, limit in enumerate(limits)]


def main():
    scenarios = sys.argv[1:]
    near = [scn for scn in scenarios if "due_cases" in scn]
    own = [scn for scn in scenarios if scn not in near]
    lines = (run_lemmas.SHARED + "\n" + USES + "\n" + array_case.HEAD).splitlines()
    uses = sorted({line for line in lines if line.startswith("use ")}, key=lines.index)
    names = [array_case.name_of(scn, "_due") for scn in near]
    print(COMMENT)
    print("\n".join(uses))
    print("use Rattle.due_model.proofs.Cases.{%s}" % ", ".join("%s, %s_rows" % (name, name) for name in names))
    print(DEFINITIONS)
    for scn in scenarios:
        name = array_case.name_of(scn, "_due" if scn in near else "_limit")
        if scn in own:
            array_case.print_scenario(name, scn, is_public=True)
            array_case.print_rows(name, scn[: -len("scn")] + "out")
        for n, (faults, limit, good) in enumerate(expected(scn), 1):
            if commands(scn)[n - 1][1] is None:
                continue
            print("%s_%d : limit_told %s (onto %s_rows []) %d %d %d %s ≡ true" % (name, n, name, name, n, faults, limit, str(good).lower()))
            print("%s\n%s_%d = refl\n" % (run_lemmas.UNFOLDING, name, n))
        print("%s_delivers : delivers %s (onto %s_rows []) ≡ true" % (name, name, name))
        print("%s\n%s_delivers = refl\n" % (run_lemmas.UNFOLDING, name))


main()
