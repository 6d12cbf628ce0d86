#!/usr/bin/env python3
"""Changes value change dumps at random, and finds those to which two programs answer differently.

    tools/comparisons/dump_mutants.py [--seed N] [--count N] PROGRAM OTHER DUMP..

Each program is run with the word `unvcd` on each changed dump. Prints where the answers or the exit statuses differ, and how many broke
the form; ends with status 1 where any differs.
"""
import argparse
import concurrent.futures
import pathlib
import random
import subprocess
import sys

# What is put in place of a token, or beside one.
WORDS = """$date $version $comment $timescale $scope $upscope $var $enddefinitions $end $dumpvars $dumpall $dumpon $dumpoff
1ns 1 ns 10ns 1us module scsi wire reg 18 17 018 1 0 18446744073709551615 18446744073709551616 a b h ! % aa d0 d1 d7 d8 D0 d00 clk
[17:0] #0 #1 #00 #1200 #5390 #9223372036854775807 #9223372036854775808 #x # b b0 b1 B1 b01 bx bz b2 b111111111111111111
b0000000000000000000 b0000000000000000001 r1.5 R r 0a 1a xa za 0! 1% x% z% X% Z% 0 x 0% 00a""".split()
SPACES = [" ", "\n", "\t", "\r", "\r\n", "\n\n", " \t "]


def tokens(text):
    """The tokens and the white space of a text, in order."""
    parts, at = [], 0
    for k, c in enumerate(text):
        if k and (c in " \t\r\n") != (text[k - 1] in " \t\r\n"):
            parts.append(text[at:k])
            at = k
    return parts + [text[at:]]


def changed(rng, text):
    """The text with one to three changes."""
    for _ in range(rng.choice((1, 1, 1, 2, 3))):
        parts = tokens(text)
        at = rng.randrange(len(parts))
        kind = rng.randrange(10)
        if kind == 0:
            del parts[at]
        elif kind == 1:
            parts[at] = rng.choice(WORDS)
        elif kind == 2:
            parts.insert(at, rng.choice(SPACES) + rng.choice(WORDS) + rng.choice(SPACES))
        elif kind == 3:
            parts[at] = rng.choice(SPACES)
        elif kind == 4 and parts[at]:
            k = rng.randrange(len(parts[at]))
            parts[at] = parts[at][:k] + chr(rng.choice((9, 11, 12, 32, 33, 48, 49, 126, 127, 128, 200, 0))) + parts[at][k + 1:]
        elif kind == 5 and parts[at]:
            k = rng.randrange(len(parts[at]))
            parts[at] = parts[at][:k] + parts[at][k + 1:]
        elif kind == 6:
            other = rng.randrange(len(parts))
            parts[at], parts[other] = parts[other], parts[at]
        elif kind == 7:
            parts = parts[:at]
        elif kind == 8:
            end = min(len(parts), at + rng.randrange(1, 9))
            parts[at:at] = parts[at:end]
        else:
            end = min(len(parts), at + rng.randrange(1, 9))
            del parts[at:end]
        text = "".join(parts)
        if not text:
            return text
    return text


def answer(program, text):
    run = subprocess.run([program, "unvcd"], input=text.encode("latin-1"), capture_output=True)
    return run.returncode, run.stdout


def main():
    parser = argparse.ArgumentParser()
    parser.add_argument("--seed", type=int, default=1)
    parser.add_argument("--count", type=int, default=1000)
    parser.add_argument("programs", nargs=2)
    parser.add_argument("dumps", nargs="+")
    given = parser.parse_args()
    rng = random.Random(given.seed)
    dumps = [pathlib.Path(name).read_bytes().decode("latin-1") for name in given.dumps]
    broken = differ = 0
    texts = [changed(rng, rng.choice(dumps)) for _ in range(given.count)]

    def both(text):
        return [answer(program, text) for program in given.programs]

    with concurrent.futures.ThreadPoolExecutor(2) as pool:
        for text, (ours, others) in zip(texts, pool.map(both, texts)):
            broken += ours[0] == 10
            if ours != others:
                differ += 1
                print("differs: %r: %r, %r" % (text, ours, others))
    print("%d dumps, of which %d break the form; %d answers differ" % (len(texts), broken, differ))
    sys.exit(1 if differ else 0)


if __name__ == "__main__":
    main()
