#!/usr/bin/env python3
"""Finds runs whose transcript has other events than their history.

    tools/comparisons/told_events.py PROGRAM SCENARIO..

Of each scenario the events of `run --transcript`, without the `ready` of a process that was refused, are to be the history of `run` with
names in place of numbers: `arrive` for `accept` and `refuse`, `ready` for `run` and `fail`. Each process has one name throughout, that no
other has, with the initiator, the target, the unit and the tag of its line in the scenario; a REQUEST SENSE that an initiator sends by
itself has no tag. Prints the runs that differ and how many runs and events there were; ends with status 1 where one differs.
"""
import subprocess
import sys

SHOWN = ("arrive", "ready", "end", "lost", "abort", "reset")
AS = {"accept": "arrive", "refuse": "arrive", "run": "ready", "fail": "ready"}


def printed(program, words, scenario):
    """The lines that a program prints of a scenario."""
    with open(scenario, "rb") as text:
        return subprocess.run([program] + words, stdin=text, capture_output=True, check=False).stdout.decode().splitlines()


def nexuses(scenario):
    """The nexus of each command of a scenario, from 1: initiator, target, unit and tag."""
    found = [None]
    with open(scenario) as text:
        for line in text:
            words = line.split()
            if words[:1] == ["cmd"]:
                found.append(".".join(words[1:4] + ["-" if words[6] == "untagged" else words[7]]))
    return found


def history(report):
    """The events of a report."""
    begin, end = report.index("history") + 1, report.index("replies")
    return [line.split() for line in report[begin:end]]


class Names:
    """One name for each process."""

    def __init__(self, nexus):
        self.nexus, self.of = nexus, {}

    def is_named(self, process, name):
        """Whether this can be the name of the process, as of now on it is."""
        nexus = self.nexus[int(process.rstrip("S"))]
        if process.endswith("S"):
            nexus = nexus.rsplit(".", 1)[0] + ".-"
        fresh = process in self.of or name not in self.of.values()
        return fresh and self.of.setdefault(process, name) == name and name.rsplit(".", 1)[0] == nexus


def is_shown(names, event, item):
    """Whether an event of the history is this item with a name in place of the number."""
    if event[0] in ("abort", "reset"):
        return event == item
    same = AS.get(event[0], event[0]) == item[0] and names.is_named(event[1], item[1])
    return same and (event[0] != "end" or event[2] == item[2])


def difference(program, scenario):
    """What differs, or nothing, and how many events there are."""
    told = history(printed(program, ["run"], scenario))
    shown = [line.split() for line in printed(program, ["run", "--transcript"], scenario)]
    shown = [item for item in shown if item[0] in SHOWN]
    names, refused, at = Names(nexuses(scenario)), set(), 0
    for item in shown:
        if item[0] == "ready" and item[1] in refused:
            continue
        if at == len(told) or not is_shown(names, told[at], item):
            return " ".join(item), at
        if told[at][0] == "refuse":
            refused.add(item[1])
        at += 1
    return (None if at == len(told) else "the history goes on"), at


def main():
    program, scenarios, bad, events = sys.argv[1], sys.argv[2:], 0, 0
    for scenario in scenarios:
        what, count = difference(program, scenario)
        events += count
        if what is not None:
            bad += 1
            print("%s: after %d events: %s" % (scenario, count, what))
    print("%d runs, %d events, %d differ" % (len(scenarios), events, bad))
    sys.exit(1 if bad else 0)


main()
