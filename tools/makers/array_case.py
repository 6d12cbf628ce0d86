#!/usr/bin/env python3
"""Turns scenarios and their reports into lemmas that play each history on the plain disk array.

    tools/makers/array_case.py tools/cases/*.scn > crates/array_model/proofs/Stories.antt

Beside each NAME.scn stands its report NAME.out, which comes from outside this repository. The lemmas say that the
history of the report, played from the scenario, is allowed and leaves the blocks of the report, and the objects and the
position of each tape; that the replies are those which the report shows; and that a command which met a full queue may not
enter it. Of a reply that ends with CHECK CONDITION at a tape the report shows the sense alone: its bytes are those that
cross, which tools/makers/story_case.py compares.
"""
import pathlib
import sys

HEAD = """-- Histories of whole runs, played on the plain disk array and computed: the blocks and the replies are those of
-- the reports, which an independent simulator printed. Written by tools/makers/array_case.py.
use Rattle.std.proofs.Common.{ℕ, ◌≡◌, Bool, true, false, List, [], ◌∷◌, reverse, refl}
use Rattle.std.specs.Prelude.{Option, Some, None}
use lib.Count.{ones}
use Rattle.bus_base.specs.declared.ProcId.{ProcId}
use Rattle.bus_base.specs.declared.AbortKind.TheVariants as aborts
use Rattle.bus_base.specs.declared.Event.{Event}
use Rattle.bus_base.specs.declared.Event.TheVariants as events
use Rattle.bus_base.specs.declared.events.Pick.TheVariants as picks
use Rattle.scenario.specs.declared.value.FillDef.{FillDef}
use Rattle.scenario.specs.declared.value.UnitDef.{UnitDef}
use Rattle.scenario.specs.declared.value.Policy.TheVariants as policies
use Rattle.scenario.specs.declared.value.Load.TheVariants as loads
use Rattle.scenario.specs.declared.value.Tag.TheVariants as tags
use Rattle.scenario.specs.declared.value.Payload.TheVariants as payloads
use Rattle.scenario.specs.Value.{ScenarioValue}
use Rattle.scenario.specs.Needs.{need_of, sent_of}
use Rattle.array_model.specs.Contents.{Contents, starting_contents, printed_blocks}
use Rattle.array_model.specs.Execution.{Reply, good, check_condition, queue_full, sense_of}
use Rattle.array_model.specs.ArrayHistory.{array_after, disks_of, reply_of}

abbrev command : ℕ → ProcId
command n = record { command = n; sense = false }

abbrev sense : ℕ → ProcId
sense n = record { command = n; sense = true }
"""

DISKS = """\
abbrev printed : List Contents → List (List (ℕ × List ℕ))
printed [] = []
printed (c ∷ disks) = printed_blocks c ∷ printed disks

abbrev started : List UnitDef → List FillDef → List Contents
started [] fills = []
started (u ∷ units) fills = starting_contents u fills ∷ started units fills
"""

# For scenarios with tapes.
TAPES_HEAD = """use Rattle.cdb_codec.specs.declared.Sense.{Sense}
use Rattle.cdb_codec.specs.declared.status.TheConstants.{CHECK_CONDITION}
use Rattle.array_model.specs.Reels.{block, filemark}
use Rattle.array_model.specs.ArrayHistory.{tapes_of}
"""

TAPES = """\
-- The sense of a reply that ends with CHECK CONDITION.
abbrev check_in : Option Reply → Option Sense
check_in None = None
check_in (Some reply) = if reply.status == CHECK_CONDITION then Some reply.sense else None
"""


def items(parts):
    return "".join(part + " ∷ " for part in parts) + "[]"


def octets(text):
    return "(" + items(str(b) for b in bytes.fromhex(text)) + ")"


def record(**fields):
    return "record { " + "; ".join("%s = %s" % pair for pair in fields.items()) + " }"


def tag(words):
    if words[0] == "untagged":
        return "tags.Untagged", words[1:]
    name = {"simple": "Simple", "ordered": "Ordered", "head": "Head"}[words[0]]
    return "tags.%s %s" % (name, words[1]), words[2:]


def policy(words):
    if words[0] in ("never", "command"):
        return "policies.%s" % words[0].capitalize(), words[1:]
    return "policies.%s %s" % ({"burst": "Burst", "nosave": "NoSave"}[words[0]], words[1]), words[2:]


def what(words):
    return {"all": "aborts.All", "queue": "aborts.WholeQueue", "device": "aborts.Device"}.get(
        words[0], "(aborts.Tag %s)" % words[-1]
    )


def scenario(path):
    s = {k: [] for k in ("hosts", "targets", "units", "fills", "tapes", "loads", "commands", "aborts", "resets", "faults")}
    version = 0
    for line in open(path):
        w = line.split()
        if not w or w[0].startswith("#") or w[0] == "end":
            continue
        if w[0] == "scsi":
            version = int(w[1])
        elif w[0] == "initiator":
            offers = "false" if w[-2:] == ["offers", "no"] else "true"
            s["hosts"].append(record(dev=w[1], latency=w[3], most=w[5], retries=w[7], period=w[9], offset=w[10], lag=w[12], offers=offers))
        elif w[0] == "target":
            disc, rest = policy(w[7:])
            begins = "true" if w[-2:] == ["begins", "yes"] else "false"
            s["targets"].append(record(dev=w[1], latency=w[3], retries=w[5], disc=disc, pick="picks." + rest[1].capitalize(), seek=rest[3], period=rest[5], offset=rest[6], begins=begins))
        elif w[0] == "unit":
            s["units"].append(record(target=w[1], unit=w[2], blocks=w[4], size=w[6], depth=w[8]))
        elif w[0] == "fill":
            s["fills"].append(record(target=w[1], unit=w[2], lba=w[3], bytes=octets(w[4])))
        elif w[0] == "tape":
            s["tapes"].append(record(target=w[1], unit=w[2], objects=w[4], size=w[6], depth=w[8]))
        elif w[0] == "load":
            held = "loads.Mark" if w[3] == "mark" else "loads.Block " + octets(w[3])
            s["loads"].append(record(target=w[1], unit=w[2], what=held))
        elif w[0] == "cmd":
            t, rest = tag(w[6:])
            payload = "payloads.Nothing"
            if rest[2] == "out":
                payload = "payloads.Hex " + octets(rest[4]) if rest[3] == "hex" else "payloads.From %d" % int(rest[4], 16)
            s["commands"].append(record(host=w[1], target=w[2], unit=w[3], at=w[5], tag=t, cdb=octets(rest[1]), payload=payload))
        elif w[0] == "abort":
            s["aborts"].append(record(host=w[1], target=w[2], unit=w[3], at=w[5], what=what(w[6:])))
        elif w[0] == "reset":
            s["resets"].append(record(dev=w[1], at=w[3]))
        elif w[0] == "fault":
            s["faults"].append(record(at=w[2], bit=w[4]))
    return version, s


def process(word):
    return "(sense %s)" % word[:-1] if word.endswith("S") else "(command %s)" % word


def event(w):
    name = w[0]
    if name in ("accept", "run", "refuse", "lost"):
        return "events.%s %s" % (name.capitalize(), process(w[1]))
    if name in ("end", "fail"):
        return "events.%s %s %d" % (name.capitalize(), process(w[1]), int(w[2], 16))
    if name == "abort":
        return "events.Aborted %s %s %s %s" % (w[1], w[2], w[3], what(w[4:]))
    return "events.Reset %s" % w[1]


def report(path):
    part, parts = "", {"history": [], "replies": [], "blocks": []}
    for line in open(path):
        w = line.split()
        if w and w[0] in parts and len(w) == 1:
            part = w[0]
        elif part and w != ["done"]:
            parts[part].append(w)
    return parts


def sense(words):
    """The sense that a line of the replies shows, by its words after CHECK: key and codes, and of a tape marks and residue."""
    key, asc, ascq = bytes.fromhex(words[0])
    if len(words) == 1:
        return "sense_of %d %d %d" % (key, asc, ascq)
    return record(key=key, asc=asc, ascq=ascq, marks=int(words[1], 16), residue="Some %s" % words[2])


def sense_data(words):
    """The sense data of the same, in hexadecimal."""
    key, asc, ascq = bytes.fromhex(words[0])
    if len(words) == 1:
        return "7000%02x000000000a00000000%02x%02x00000000" % (key, asc, ascq)
    return "f000%02x%08x0a00000000%02x%02x00000000" % (int(words[1], 16) | key, int(words[2]), asc, ascq)


def at_tapes(s_lines):
    """The commands of a scenario that are at a tape."""
    tapes, commands, n = set(), set(), 0
    for line in open(s_lines):
        w = line.split()
        if w and w[0] == "tape":
            tapes.add((w[1], w[2]))
        elif w and w[0] == "cmd":
            n += 1
            if (w[2], w[3]) in tapes:
                commands.add(str(n))
    return commands


def tapes(scn, parts):
    """What the report says that its tapes hold, in their order."""
    out = []
    for line in open(scn):
        w = line.split()
        if w and w[0] == "tape":
            position = [x[3] for x in parts["blocks"] if x[:3] == ["tape", w[1], w[2]]][0]
            objects = ["filemark" if x[4] == "mark" else "block %s" % octets(x[4]) for x in parts["blocks"] if x[:3] == ["object", w[1], w[2]]]
            reel = record(objects="(%s)" % items(objects), position=position)
            out.append(record(count=w[4], size=w[6], touched="[]", reel="Some (%s)" % reel))
    return out


def replies(parts):
    """The replies that the report shows, by process."""
    out = []
    ended = {w[1]: int(w[2], 16) for w in parts["history"] if w[0] == "end"}
    for w in parts["replies"]:
        n = w[1]
        if w[2] == "GOOD" and ended.get(n) == 0:
            out.append(("command %s" % n, "good %s" % octets(w[3] if len(w) > 3 else "")))
        elif w[2] == "QFULL":
            out.append(("command %s" % n, "queue_full"))
        elif w[2] == "CHECK" and w[3] != "none":
            out.append(("command %s" % n, "check_condition (%s)" % sense(w[3:])))
            out.append(("sense %s" % n, "good %s" % octets(sense_data(w[3:]))))
    return out


def row(w):
    """A row of a trace, by its words."""
    if w[2].startswith("f") and len(w[2]) == 2:
        return "strike %s %s %s" % (w[0], w[1], w[2][1:])
    return "drive %s %s 0x%s" % (w[0], w[1], w[2])


def rows(path):
    """The rows of a report."""
    out = []
    for line in open(path):
        w = line.split()
        if w[0] == "end":
            break
        if w[0].isdigit():
            out.append(row(w))
    return out


def name_of(scn, suffix):
    name = pathlib.Path(scn).stem
    return (name if name[0].isalpha() else "case_" + name) + suffix


def print_scenario(name, scn, is_public=False):
    """Prints the scenario under this name, and returns its parts."""
    version, s = scenario(scn)
    print("-- ---- %s\n" % name)
    print("abbrev %s%s : ScenarioValue\n%s = record {\n  version = %d;" % ("pub " if is_public else "", name, name, version))
    for key, values in s.items():
        print("  %s = %s;" % (key, items(values)))
    print("}\n")
    return s


def print_rows(name, out):
    print("abbrev pub %s_rows : List Row\n%s_rows = %s\n" % (name, name, items(rows(out))))


def print_events(name, parts):
    print("abbrev %s_events : List Event\n%s_events = %s\n" % (name, name, items(event(w) for w in parts["history"])))


def case(name, scn, out):
    print_scenario(name, scn)
    parts = report(out)
    print_events(name, parts)
    fills = [record(target=w[1], unit=w[2], lba=w[3], bytes=octets(w[4])) for w in parts["blocks"] if w[0] == "block"]
    at_tape = at_tapes(scn)
    unfolding = "unfolding need_of sent_of ones"
    print("%s_blocks : printed (disks_of (array_after %s (reverse %s_events))) ≡ printed (started %s.units (%s))" % (name, name, name, name, items(fills)))
    print("%s\n%s_blocks = refl\n" % (unfolding, name))
    held = tapes(scn, parts)
    if held:
        print("%s_tapes : tapes_of (array_after %s (reverse %s_events)) ≡ %s" % (name, name, name, items(held)))
        print("%s\n%s_tapes = refl\n" % (unfolding, name))
    for k, (who, wanted) in enumerate(replies(parts), 1):
        if wanted.startswith("check_condition") and who.split()[1] in at_tape:
            print("%s_reply_%d : check_in (reply_of (array_after %s (reverse %s_events)) (%s)) ≡ Some %s" % (name, k, name, name, who, wanted[len("check_condition "):]))
            print("%s\n%s_reply_%d = refl\n" % (unfolding, name, k))
            continue
        print("%s_reply_%d : reply_of (array_after %s (reverse %s_events)) (%s) ≡ Some (%s)" % (name, k, name, name, who, wanted))
        print("%s\n%s_reply_%d = refl\n" % (unfolding, name, k))


    for k, w in enumerate(parts["history"]):
        if w[0] == "refuse":
            front = items([event(x) for x in parts["history"][:k]] + ["events.Accept %s" % process(w[1])])
            print("-- the queue is full, so it may not enter\n%s_full_%d : array_after %s (reverse (%s)) ≡ None" % (name, k, name, front))
            print("%s\n%s_full_%d = refl\n" % (unfolding, name, k))


def main():
    has_tapes = any(at_tapes(scn) for scn in sys.argv[1:])
    if has_tapes:
        print(HEAD.replace("{Option, Some, None}", "{Option, Some, None, ◌==◌, if◌then◌else◌}").replace("use lib.", TAPES_HEAD + "use lib.", 1))
        print(TAPES)
    else:
        print(HEAD)
    print(DISKS)
    for scn in sys.argv[1:]:
        name = pathlib.Path(scn).stem
        case(name if name[0].isalpha() else "case_" + name, scn, scn[: -len("scn")] + "out")


if __name__ == "__main__":
    main()
