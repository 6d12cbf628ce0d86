#!/usr/bin/env python3
"""Finds random scenarios of which two programs print other reports.

    tools/comparisons/same_reports.py [--tapes] [--first SEED] [--count N] PROGRAM OTHER

Each program is run with the word `run` on the scenarios that tools/comparisons/random_scenario.py prints of N seeds (100) from SEED
on (1), with --tapes on those of tools/comparisons/random_tapes.py. Prints each seed where a report or the exit status differs, and how
many scenarios, rows and outcomes of each kind there were; ends with status 1 where one differs.
"""
import argparse
import collections
import concurrent.futures
import os
import subprocess
import sys

import random_scenario
import random_tapes


def answered(program, text):
    """What a program prints of a scenario, and how it ends."""
    run = subprocess.run([program, "run"], input=text, capture_output=True, check=False)
    return run.stdout, run.returncode


def compared(program, other, text):
    """Whether both answer the same; and how many rows the report has, and its outcomes."""
    one, two = answered(program, text), answered(other, text)
    lines = two[0].decode("ascii", "replace").splitlines()
    rows = sum(1 for line in lines if line[:1].isdigit())
    kinds = [line.split()[2] for line in lines if line.startswith("cmd ")]
    return one == two, rows, kinds if two[1] == 0 else ["refused"]


def main():
    words = argparse.ArgumentParser()
    words.add_argument("--tapes", action="store_true")
    words.add_argument("--first", type=int, default=1)
    words.add_argument("--count", type=int, default=100)
    words.add_argument("program")
    words.add_argument("other")
    asked = words.parse_args()
    maker = random_tapes if asked.tapes else random_scenario
    seeds = range(asked.first, asked.first + asked.count)
    texts = ["\n".join(maker.lines(seed)).encode() + b"\n" for seed in seeds]
    different, rows, kinds = 0, 0, collections.Counter()
    with concurrent.futures.ThreadPoolExecutor(os.cpu_count()) as pool:
        for seed, found in zip(seeds, pool.map(lambda text: compared(asked.program, asked.other, text), texts)):
            rows += found[1]
            kinds.update(found[2])
            if not found[0]:
                different += 1
                print("seed %d: they differ" % seed)
    print("%d scenarios, %d rows, %d differ; %s" % (
        len(texts), rows, different, ", ".join("%d %s" % (kinds[kind], kind) for kind in sorted(kinds))))
    sys.exit(1 if different else 0)


if __name__ == "__main__":
    main()
