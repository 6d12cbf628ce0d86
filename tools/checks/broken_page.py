#!/usr/bin/env python3
"""Writes docs/broken.md and the traces of examples/broken: for each rule a small trace that breaks it, out of tools/rule_cases.txt.

    tools/checks/broken_page.py [--check [PROGRAM]]

With --check nothing is written: page and traces are compared with what would be, and where a PROGRAM is named, as ./scsibus, it has to give the
verdicts of tools/rule_cases.txt on them, and `lawful` on what is said to be right. Ends with status 1 where something differs.
"""
import pathlib
import re
import subprocess
import sys

sys.dont_write_bytecode = True
ROOT = pathlib.Path(__file__).resolve().parent.parent.parent
sys.path.insert(0, str(ROOT / "tools"))
from annotate import table

CASES = ROOT / "tools" / "rule_cases.txt"
RULES = ROOT / "docs" / "rules.md"
# Of each rule the case that breaks it and the one that is right, what it is about, what is wrong, and what would be right.
CHOSEN = {
    1: ("earlier_row", "same_time", "Time goes on", "A row of 1199 stands after one of 1200.", "At 1200 too it is right: rows of one time stand in the order in which they happen."),
    2: ("nothing_new", "enters_in_time", "A row says something new", "Device 7 drives at 1300 what it drove already.", "Without the second row it is right: a row stands where what a device drives changes."),
    3: ("releases_late", "releases_in_time", "The free bus", "BSY and SEL are false from 1400 on, and device 3 drives DB(3) until 2601, 1 ns longer than a bus clear delay and a bus settle delay.", "At 2600 device 3 is in time."),
    4: ("enters_early", "enters_in_time", "An entry", "Device 7 enters the arbitration at 1199. The bus is free since 0, and a bus settle delay and a bus free delay are 1200 ns.", "At 1200 it may."),
    5: ("wins_early", "wins_in_time", "The arbitration delay", "Device 7 raises SEL 2399 ns after its entry; the arbitration delay is 2400 ns.", "At 3600 it may."),
    6: ("loses", "wins", "The highest ID", "Devices 7 and 6 contend, and device 6 raises SEL, though DB(7) is true.", "Device 7 wins: the row is of it, at the same time."),
    7: ("loser_late", "loser_in_time", "A loser releases", "Device 6 has lost as SEL rose at 3600, and drives its ID until 4401, 1 ns longer than a bus clear delay.", "At 4400 it is in time."),
    8: ("calls_early", "calls_in_time", "The winner waits", "Device 7 has raised SEL at 3600 and drives the IDs 1199 ns later. It has to wait a bus clear delay and a bus settle delay, 1200 ns.", "At 4800 it may."),
    9: ("calls_without_parity", "calls_in_time", "The calling", "Device 7 calls device 0 with ATN and both IDs, and without DB(P): two bits are true, an even number.", "With DB(P), `10781`, it is a calling. A host that selects without ATN, `00781`, breaks this rule, too."),
    10: ("answers_early", "answers_in_time", "The answer", "Device 0 answers 399 ns after the caller released BSY. It looks at its ID no sooner than a bus settle delay, 400 ns, after that.", "At 5290 it may."),
    11: ("releases_sel_early", "releases_sel_in_time", "The caller releases SEL", "The answer comes at 5290, and the caller releases SEL 89 ns later. Two deskew delays are 90 ns.", "At 5380 it may, and the connection begins."),
    12: ("gives_up_early", "gives_up_in_time", "A selection without an answer", "The caller released BSY at 4890 and gives up 249,999,999 ns later, 1 ns before the selection time-out delay of 250 ms is over.", "At 250004890 it may release the IDs."),
    13: ("hands_over_without_io", "reselects_in_time", "A reselection is handed over", "Target 0 has reselected initiator 7, and releases I/O with SEL, so that the direction turns in the row that begins the connection.", "It keeps BSY and I/O: `01200`."),
    14: ("third_raises", "releases_sel_in_time", "The two ends alone", "Initiator 7 and target 0 are connected, and device 3 drives DB(3).", "Without that row it is right: a third device drives nothing while a connection stands."),
    15: ("initiator_releases_late", "initiator_releases_in_time", "The initiator leaves the data lines", "I/O becomes true at 5400, and the initiator drives the data lines until 5801, 1 ns longer than a data release delay.", "At 5800 it is in time."),
    16: ("target_drives_early", "target_drives_in_time", "The target takes the data lines", "I/O becomes true at 5400, and the target drives data 799 ns later. A data release delay and a bus settle delay are 800 ns.", "At 6200 it may."),
    17: ("even_parity", "odd_parity", "Parity", "The byte c0, four bits of eight and no DB(P), has even parity as it crosses.", "With DB(P), `001c0` and then `081c0`, the nine lines are odd."),
    18: ("takes_the_question_back", "asks_in_time", "REQ waits for ACK", "REQ rises at 5780 and falls 10 ns later, and no ACK has come.", "Without the last row it is right: REQ stays true until ACK is."),
    19: ("set_up_short", "set_up_in_time", "Data stand before they cross", "The initiator drives 08 at 6270 and raises ACK 54 ns later. A deskew delay and a cable skew delay are 55 ns.", "At 6325 it may."),
    20: ("data_out_changes", "set_up_in_time", "Data stand while they cross", "REQ and ACK are true, and the initiator changes the data lines from 08 to 09.", "Without the last row it is right: the byte stands until the target has released REQ."),
    21: ("two_ahead_of_one", "one_answered", "The REQ/ACK offset", "Both ends have agreed on an offset of 1. The target has one REQ pulse unanswered, and sends another.", "After an ACK pulse, from 8900 to 8990, it may."),
    22: ("pulse_short", "pulse_kept", "The length of a pulse", "REQ is true for 89 ns. With a transfer period of 200 ns it has to be true for 90.", "At 8895 it may fall."),
    23: ("out_leaves_unanswered", "out_leaves_answered", "All pulses are answered", "The target leaves DATA OUT after one REQ pulse, and no ACK pulse has come: a byte is missing.", "After the ACK pulse, from 8405 to 8495, it may leave."),
    24: ("negates_atn_in_the_row", "odd_parity", "ATN before the last byte", "The initiator negates ATN in the row in which it raises ACK. The target cannot tell whether this is the last byte.", "It negates ATN with the byte, at 5780, two deskew delays before ACK."),
    25: ("opens_with_no_operation", "opens_with_identify", "The first message", "The first byte after a selection is 08, NO OPERATION, where the target has to be told the logical unit.", "An IDENTIFY, c0, opens it; ABORT and BUS DEVICE RESET may, too."),
    26: ("group_2", "set_up_in_time", "The command block", "The first byte of COMMAND is 40, an operation code of group 2, whose blocks have no length here.", "08, READ(6), is of group 0, and five more bytes follow."),
    27: ("frees_and_raises", "frees", "The bus is freed", "The target releases BSY and raises I/O in the same row.", "It releases all its lines: `00000`."),
    28: ("holds_reset_short", "holds_reset", "The reset hold time", "Device 3 drives RST for 24,999 ns; the reset hold time is 25,000.", "At 27000 it may release it."),
}
# How many rows of a trace the page shows, the last of them the broken one.
SHOWN = 4

HEAD = """# 28 broken traces

For each rule of [rules.md](rules.md) a small trace that breaks it and nothing before, with what is wrong and what would be right. The traces stand in
`examples/broken`; the tables show the rows up to the broken one, as `tools/annotate.py` prints them. Written by `tools/checks/broken_page.py` from
`tools/rule_cases.txt`, whose verdicts come from an independent judge.
"""


def cases():
    """Of each name its rows, its end and the verdict that is wanted."""
    found = {}
    for line in CASES.read_text().splitlines():
        if line.strip() and not line.startswith("#"):
            name, rest = line.split(":", 1)
            rows, end, wanted = (part.strip() for part in rest.split("|"))
            found[name] = [row.strip() for row in rows.split(";")], end, wanted
    return found


def text(rows, end):
    return "".join(line + "\n" for line in ["trace 1", *rows, "end " + end])


def made():
    """Page and traces by their paths, and of each rule the trace that is right."""
    known, clauses = cases(), dict(re.findall(r"(?m)^\| (\d+) \| .* \| ([\d., ]+) \|$", RULES.read_text()))
    page, files, right = [HEAD], {}, {}
    for rule, (broken, lawful, about, wrong, better) in CHOSEN.items():
        rows, end, wanted = known[broken]
        word, at, number = wanted.split()
        if (word, int(number), known[lawful][2]) != ("broken", rule, "lawful"):
            sys.exit("rule %d: %s or %s has another verdict" % (rule, broken, lawful))
        name = "examples/broken/rule_%02d.trace" % rule
        files[name], right[rule] = text(rows, end), text(*known[lawful][:2])
        lines = table(rows[: int(at)])
        shown = lines[:2] + lines[2:][-SHOWN:]
        clause = clauses[str(rule)]
        page.append("## Rule %d: %s (%s)\n" % (rule, about[0].lower() + about[1:] if about.split()[0] not in ("REQ", "ATN") else about, clause))
        page.append("```console\n$ ./scsibus judge < %s\n%s\n```\n" % (name, wanted))
        page.append("\n".join(shown) + "\n")
        page.append("%s %s\n" % (wrong, better))
    files["docs/broken.md"] = "\n".join(page)
    return files, right


def judged(program, trace):
    return subprocess.run([program, "judge"], input=trace, capture_output=True, text=True).stdout.strip()


def main():
    words = sys.argv[1:]
    if words and (words[0] != "--check" or len(words) > 2):
        sys.exit(__doc__)
    files, right = made()
    if not words:
        (ROOT / "examples" / "broken").mkdir(exist_ok=True)
        for name, content in files.items():
            (ROOT / name).write_text(content)
        return
    wrong = [name for name, content in files.items() if not (ROOT / name).exists() or (ROOT / name).read_text() != content]
    said = ["%s is not what tools/checks/broken_page.py writes" % name for name in wrong]
    if len(words) == 2:
        known = cases()
        for rule, chosen in CHOSEN.items():
            if judged(words[1], files["examples/broken/rule_%02d.trace" % rule]) != known[chosen[0]][2]:
                said.append("rule %d: the broken trace is judged otherwise" % rule)
            if judged(words[1], right[rule]) != "lawful":
                said.append("rule %d: what is said to be right is not lawful" % rule)
    print("\n".join(said) if said else "the 28 broken traces are fresh" + (" and judged as they say" if len(words) == 2 else ""))
    sys.exit(1 if said else 0)


main()
