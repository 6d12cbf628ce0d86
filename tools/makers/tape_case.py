#!/usr/bin/env python3
"""Turns scenarios with one tape and their reports into lemmas that play their commands on the definition of a tape.

    tools/makers/tape_case.py tools/tape_cases/*.scn > crates/tape_unit/proofs/Cases.antt

Beside each NAME.scn stands its report NAME.out, which comes from outside this repository. The commands run in the order of
the report's history, one at a time. The lemmas say that the replies have the status and the sense of the report and the bytes
that cross in its trace, that the sense data of each sense are those which cross for the REQUEST SENSE behind it, that each
takes as many bytes as cross to the target, that the commands which make the tape new are those that end GOOD or meet a
filemark or an edge, and that the tape is left with the objects and the position of the report.
"""
import pathlib
import sys

from array_case import items, octets, record, report

HEAD = """-- Commands of whole runs, carried out by the definition of a tape and computed: replies, sense data, objects and
-- position are those of reports and traces which an independent simulator printed. Written by
-- tools/makers/tape_case.py.
use Rattle.std.proofs.Common.{ℕ, ◌≡◌, List, [], ◌∷◌, ◌++◌, length, refl}
use Rattle.std.specs.Prelude.{Option, Some, None, Bool, true, false, ◌==◌, if◌then◌else◌}
use Rattle.cdb_codec.specs.declared.Sense.{Sense}
use Rattle.cdb_codec.specs.declared.status.TheConstants.{CHECK_CONDITION}
use Rattle.cdb_codec.specs.Replies.{plain_sense, sense_data}
use Rattle.array_model.specs.Execution.{Reply, good}
use Rattle.array_model.specs.Reels.{Object, block, filemark}
use Rattle.array_model.specs.TapeExecution.{Tape, check_after}
use Rattle.tape_unit.specs.Tape.{blank_tape, with_objects, tape_after, tape_reply, is_changed, taken_now}

-- A command and the bytes that it sends.
record Step : Type 0 where
  cdb : List ℕ
  sent : List ℕ

abbrev replies : Tape → List Step → List Reply
replies t [] = []
replies t (s ∷ steps) = tape_reply t s.cdb ∷ replies (tape_after t s.cdb s.sent) steps

abbrev changes : Tape → List Step → List Bool
changes t [] = []
changes t (s ∷ steps) = is_changed t s.cdb ∷ changes (tape_after t s.cdb s.sent) steps

abbrev taken : Tape → List Step → List ℕ
taken t [] = []
taken t (s ∷ steps) = taken_now t s.cdb ∷ taken (tape_after t s.cdb s.sent) steps

abbrev left : Tape → List Step → Tape
left t [] = t
left t (s ∷ steps) = left (tape_after t s.cdb s.sent) steps

-- The sense data of those that end with CHECK CONDITION.
abbrev senses : List Reply → List (List ℕ)
senses [] = []
senses (r ∷ given) = if r.status == CHECK_CONDITION then sense_data r.sense ∷ senses given else senses given
"""

REQ, MSG, IO, CD = 0x4000, 0x2000, 0x1000, 0x0800

# What a walk meets: a filemark, the beginning of the medium, the end of data.
MET = ("000001", "000004", "080005")


def obj(word):
    return "filemark" if word == "mark" else "block %s" % octets(word)


def crossed(path):
    """The bytes of the DATA IN phases of each process, and how many crossed in its DATA OUT phases, in the order of the STATUS
    phases. Every byte has a REQ of its own."""
    groups, data, sent, before = [], [], 0, 0
    for line in open(path):
        w = line.split()
        if w[0] == "end":
            break
        if not w[0].isdigit() or w[1] != "0":
            continue
        lines = int(w[2], 16)
        if lines & REQ and not before & REQ:
            if lines & (MSG | IO | CD) == IO:
                data.append(lines & 0xFF)
            elif not lines & (MSG | IO | CD):
                sent += 1
            elif lines & (MSG | IO | CD) == IO | CD:
                groups.append((data, sent))
                data, sent = [], 0
        before = lines
    return groups


def scenario(path):
    tape, loads, commands = None, [], []
    for line in open(path):
        w = line.split()
        if w and w[0] == "tape":
            tape = (w[4], int(w[6]))
        elif w and w[0] == "load":
            loads.append(obj(w[3]))
        elif w and w[0] == "cmd":
            at = w.index("cdb")
            cdb = bytes.fromhex(w[at + 1])
            sent = b""
            if w[at + 2] == "out":
                first = int(w[at + 4], 16)
                sent = bytes((first + k) % 256 for k in range(int.from_bytes(cdb[2:5], "big") * tape[1]))
            commands.append((cdb, sent))
    return tape, loads, commands


def sense(word, marks, residue):
    key, asc, ascq = bytes.fromhex(word)
    if not marks:
        return "plain_sense %d %d %d" % (key, asc, ascq)
    return record(key=key, asc=asc, ascq=ascq, marks=int(marks, 16), residue="Some %s" % residue)


def case(scn):
    name = pathlib.Path(scn).stem
    out = scn[: -len("scn")] + "out"
    (capacity, size), loads, commands = scenario(scn)
    parts = report(out)
    runs = [w[1] for w in parts["history"] if w[0] == "run"]
    data = dict(zip(runs, crossed(out)))
    ends = {w[1]: w[2:] for w in parts["replies"]}
    steps, replies, senses, changes, taken = [], [], [], [], []
    for run in runs:
        given = octets(bytes(data[run][0]).hex())
        if run.endswith("S"):
            senses.append(given)
            continue
        cdb, sent = commands[int(run) - 1]
        steps.append(record(cdb=octets(cdb.hex()), sent=octets(sent.hex())))
        end = ends[run]
        changes.append("true" if end[0] == "GOOD" or end[1] in MET else "false")
        taken.append(str(data[run][1]))
        if end[0] == "GOOD":
            assert octets(end[1] if len(end) > 1 else "") == given
            replies.append("good %s" % given)
        else:
            replies.append("check_after %s (%s)" % (given, sense(end[1], *(end[2:] or ("", "")))))
    position = [w[3] for w in parts["blocks"] if w[0] == "tape"][0]
    objects = [obj(w[4]) for w in parts["blocks"] if w[0] == "object"]
    print("-- ---- %s\n" % name)
    print("abbrev %s : Tape\n%s = with_objects (blank_tape %s %d) (%s)\n" % (name, name, capacity, size, items(loads)))
    print("abbrev %s_steps : List Step\n%s_steps = %s\n" % (name, name, items(steps)))
    print("%s_replies : replies %s %s_steps ≡ %s\n%s_replies = refl\n" % (name, name, name, items("(%s)" % r for r in replies), name))
    print("%s_senses : senses (replies %s %s_steps) ≡ %s\n%s_senses = refl\n" % (name, name, name, items(senses), name))
    print("%s_changes : changes %s %s_steps ≡ %s\n%s_changes = refl\n" % (name, name, name, items(changes), name))
    print("%s_taken : taken %s %s_steps ≡ %s\n%s_taken = refl\n" % (name, name, name, items(taken), name))
    print("%s_tape : left %s %s_steps ≡ record {\n  capacity = %s;\n  size = %d;" % (name, name, name, capacity, size))
    print("  reel = record { objects = %s; position = %s };\n}\n%s_tape = refl\n" % (items(objects), position, name))
    return len(steps)


def main():
    print(HEAD)
    count = sum(case(scn) for scn in sys.argv[1:])
    print("%d commands" % count, file=sys.stderr)


if __name__ == "__main__":
    main()
