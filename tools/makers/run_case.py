#!/usr/bin/env python3
"""Writes small scenarios with their reports as a table of the tests of whole runs.

    tools/makers/run_case.py tools/run_cases/*.scn > crates/bus_tests/src/whole_program/small_runs.rt

A scenario NAME.scn has its report NAME.out beside it, which an independent simulator of the bus wrote. Those of tools/run_cases are of
tools/comparisons/random_scenario.py, named by their seeds; with those of tools/tape_runs (tools/checks/fresh.py says which) they are all.
"""
import pathlib
import sys


def literal(text):
    return '"%s"' % text


def main():
    names = sys.argv[1:]
    print("//! Small scenarios, each with its report from an independent simulator. Written by tools/makers/run_case.py.")
    print("\n/// Its name, the scenario, and the report of its run.")
    print("pub const SMALL_RUNS: [(&str, &str, &str); %d] = [" % len(names))
    for name in names:
        scenario = pathlib.Path(name)
        report = scenario.with_suffix(".out")
        print("    (\n        %s,\n        %s,\n        %s,\n    )," % (
            literal(scenario.stem), literal(scenario.read_text()), literal(report.read_text())))
    print("];")


main()
