#!/usr/bin/env python3
"""Counts the paths of the crates' graph, and finds what a line of crates.txt has in vain.

    tools/checks/graph.py [LIMIT]

Some kits sum the files of a crate, and then of each crate on its line, with nothing kept: a visit for each path down the graph. A check of a
crate whose libraries are built sums each crate below it three times, a run of a program four times and the program twice. So what counts is
one pass over all crates below the program `scsibus`; it grows by a factor with each layer whose crates list all those below them.

Prints for each crate how many it lists, how many lie below, the paths down from it, and the visits of its check and, for a program, of its
run; then those of the whole; then each crate or library of the kit that a line has and no file of that crate names. Ends with status 1 where
there is one, or where one pass takes more than LIMIT visits (25,000).
"""
import re
import sys

import imports

# What a visit takes on the average, in seconds: from 0.2 ms for a crate of three files to 80 ms for one of three hundred.
SECONDS = 0.0028
ROOT, GRAPH = imports.ROOT, imports.GRAPH


def libraries():
    """Of each crate the libraries of the kit that its line has."""
    rows = (line.partition(":") for line in (ROOT / "crates.txt").read_text().splitlines())
    return {name.split()[0]: [low for low in uses.split() if low not in GRAPH] for name, colon, uses in rows if colon and not name.startswith("#")}


def paths(name, known):
    """How many paths lead down from this crate, that of no step among them."""
    if name not in known:
        known[name] = 1 + sum(paths(low, known) for low in GRAPH[name])
    return known[name]


def unnamed(name, uses):
    """Those of these libraries that no file of the crate names."""
    folder = ROOT / "crates" / name
    code = "".join(path.read_text() for path in sorted(folder.glob("src/**/*.rt")))
    logic = "".join(path.read_text() for part in ("specs", "proofs") for path in sorted(folder.glob(part + "/**/*.antt")))
    text = re.sub(r"(?m)//.*$", "", code) + re.sub(r"(?m)--.*$", "", logic)
    return [low for low in uses if not re.search(rf"(?<![\w:.]){low}(?:::|!| as )|\bRattle\.{low}\b", text)]


def main(words):
    limit, under, sums, wrong = int(words[0]) if words else 25000, {}, {}, 0
    print(f"{'crate':16}{'lists':>7}{'below':>7}{'paths':>9}{'check':>10}{'run':>10}")
    for name, uses in GRAPH.items():
        once = sum(paths(low, sums) for low in imports.below(name, under))
        own, is_program = paths(name, sums), (ROOT / "crates" / name / "src" / "main.rt").is_file()
        run = 4 * once + 2 * own if is_program else ""
        print(f"{name:16}{len(uses):7}{len(under[name]):7}{own:9}{3 * once:10}{run:>10}")
    one = sum(sums[low] for low in under["scsibus"])
    edges = sum(map(len, GRAPH.values()))
    print(f"{len(GRAPH)} crates list {edges}; one pass below scsibus: {one} visits, about {one * SECONDS:.0f} seconds; at most {limit} are wanted")
    for name, kits in libraries().items():
        for low in unnamed(name, GRAPH[name] + kits):
            wrong += 1
            print(f"{name} lists {low}, and names it nowhere")
    return 1 if wrong or one > limit else 0


if __name__ == "__main__":
    sys.exit(main(sys.argv[1:]))
