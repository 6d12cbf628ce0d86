#!/usr/bin/env python3
"""The tests of scsiscope; `scope/test` runs them.

    scope/tests/run.py [--write] [NAME ..]

Each case of CASES is a command line, run in scope/tests; its output and status are those of golden/NAME.txt. Each command of docs/scope.md
(a line that begins with `$ `) prints, at the top of the repository, what stands under it there; a line `..` stands for any lines. The cases
of tools/rule_cases.txt break the sentences of letters.txt. Then claims.py and captures.py. With --write the golden outputs are written anew: look at them.
"""
import difflib
import os
import re
import shlex
import subprocess
import sys
from pathlib import Path

HERE = Path(__file__).resolve().parent
ROOT = HERE.parents[1]
sys.path.insert(0, str(HERE.parent))
from scsiscope.rules import SENTENCES, Bus, lowest  # noqa: E402

E = "../../examples/"
CASES = {
    "explain_phase_settle": "explain broken/r14_1.trace",
    "explain_last_byte": "explain broken/r24_1.trace",
    "explain_not_interlocked": "explain broken/r18_1.trace",
    "explain_loser": "explain broken/r07_1.trace",
    "explain_synchronous": "explain broken/r22_1.trace",
    "explain_time_out": "explain broken/r12_1.trace",
    "explain_json": "explain --json broken/r19_1.trace",
    "explain_all": "explain --all broken/r24_2.trace",
    "explain_all_json": "explain --all --json broken/r04_1.trace",
    "explain_lawful": "explain " + E + "read6.out",
    "margins": "margins " + E + "synchronous.out",
    "margins_rule": "margins --rule 14 --json " + E + "read6.out",
    "margins_broken": "margins broken/r14_1.trace",
    "show": "show " + E + "target_negotiates.out",
    "show_parity": "show " + E + "parity.out",
    "show_tags": "show " + E + "tags.out",
    "show_sense": "show ../../tools/cases/checks.out",
    "show_broken": "show broken/r16_1.trace",
    "show_json": "show --json " + E + "read6.out",
    "picture": "picture --rows 1-12 " + E + "read6.out",
    "picture_broken": "picture broken/r24_1.trace --rows 14-25",
    "waves": "waves broken/r24_1.trace",
    "waves_devices": "waves --devices --low " + E + "reset.out",
    "diff": "diff broken/r24_1.trace " + E + "tags.out",
    "diff_untimed": "diff --untimed --json " + E + "read6.out " + E + "read6.out",
    "stats": "stats " + E + "disconnection.out",
    "stats_json": "stats --json " + E + "synchronous.out",
    "new_boot": "new --disk 0:4096x512 --disk 1.2:100x256 --boot --sync 50,8",
    "new_wrong": "new --disk 0:4096x500",
    "capture_vcd": "capture --verdict " + E + "captures/read6_1ps.vcd",
    "capture_vcd_10ns": "capture --verdict " + E + "captures/synchronous_10ns.vcd",
    "capture_saleae": "capture --verdict " + E + "captures/disconnection_saleae.csv",
    "capture_sigrok": "capture --verdict --json " + E + "captures/arbitration_sigrok.sr",
    "capture_trace": "capture " + E + "captures/read6_1ps.vcd",
    "capture_none": "capture " + E + "read6.vcd",
    "explain_wires": "explain " + E + "captures/synchronous_10ns.vcd",
    "check": "check broken/r14_1.trace " + E + "read6.out inputs/cut.trace inputs/blanks.scsi " + E + "read6.vcd -j 2",
    "check_json": "check --json --quiet broken/r14_1.trace " + E + "read6.out inputs/names.vcd nothing.trace",
}
WHY = sorted(path.name for path in (HERE / "inputs").iterdir())


def run(words, folder):
    environment = dict(os.environ, PYTHONPATH=str(HERE.parent), PYTHONDONTWRITEBYTECODE="1", NO_COLOR="1", COLUMNS="120")
    done = subprocess.run([sys.executable, "-m", "scsiscope", *words], cwd=folder, env=environment, stdin=subprocess.DEVNULL,
                          stdout=subprocess.PIPE, stderr=subprocess.PIPE)
    return done.returncode, done.stdout.decode(), done.stderr.decode()


def told(line):
    """A command line with its output and status, as a golden file has it."""
    status, out, error = run(shlex.split(line), HERE)
    return "$ scsiscope %s\n%s%sstatus %d\n" % (line, out, "".join("! %s\n" % it for it in error.splitlines()), status)


def differences(name, got, wanted):
    lines = difflib.unified_diff(wanted.splitlines(), got.splitlines(), "wanted " + name, "got", lineterm="", n=1)
    return list(lines)


def golden(write, names):
    wrong = 0
    cases = dict(CASES, **{"why_" + name: "why inputs/" + name for name in WHY})
    for name, line in cases.items():
        if names and name not in names:
            continue
        path = HERE / "golden" / (name + ".txt")
        got = told(line)
        if write:
            path.write_text(got)
            continue
        wanted = path.read_text() if path.exists() else ""
        if got != wanted:
            wrong += 1
            print("\n".join(differences(name, got, wanted)[:40]))
    print("%d golden outputs%s" % (len(cases) if not names else len(names), " written" if write else ", %d differ" % wrong))
    return wrong


def matches(got, wanted):
    """Whether lines are those that are wanted, where `..` stands for any lines."""
    parts = re.split(r"(?m)^\.\.\n", wanted)
    place = 0
    for number, part in enumerate(parts):
        if number == 0:
            if not got.startswith(part):
                return False
            place = len(part)
            continue
        found = got.find(part, place) if part else place
        if found < 0:
            return False
        place = found + len(part)
    return parts[-1] == "" and len(parts) > 1 or place == len(got)


def pages():
    """The commands of the pages and what they print."""
    wrong = many = 0
    for page in ("docs/scope.md", "docs/recordings.md"):
        path = ROOT / page
        if not path.exists():
            continue
        for block in re.findall(r"(?ms)^```\n(\$ .*?)^```$", path.read_text()):
            for part in re.split(r"(?m)^(?=\$ )", block):
                if not part:
                    continue
                command, _, wanted = part.partition("\n")
                words = command[2:].split("#")[0].strip()
                if "scsiscope" not in words and "./scsibus" not in words or "pip" in words or "scsiscope decode" in words:
                    continue
                many += 1
                line = words.replace("./scsiscope", "%s -m scsiscope" % shlex.quote(sys.executable))
                line = line.replace("./scsibus", '"$SCSIBUS"')
                environment = dict(os.environ, PYTHONPATH=str(HERE.parent), PYTHONDONTWRITEBYTECODE="1", NO_COLOR="1", COLUMNS="120")
                done = subprocess.run(["bash", "-c", line], cwd=ROOT, env=environment, stdin=subprocess.DEVNULL, stdout=subprocess.PIPE,
                                      stderr=subprocess.STDOUT)
                got = done.stdout.decode()
                if not matches(got, wanted):
                    wrong += 1
                    print("%s: $ %s" % (page, words))
                    print("\n".join(differences(page, got, wanted)[:40]))
    print("%d commands of pages, %d print another thing" % (many, wrong))
    return wrong


def letters():
    """The cases of the rules, by the second reading."""
    wanted = dict(line.split(" ", 1) for line in (HERE / "letters.txt").read_text().splitlines() if not line.startswith("#"))
    wrong = many = 0
    reached = set()
    for line in (ROOT / "tools" / "rule_cases.txt").read_text().splitlines():
        if not line.strip() or line.startswith("#"):
            continue
        name, rest = line.split(":", 1)
        rows, end, verdict = (part.strip() for part in rest.split("|"))
        bus, got, found, count = Bus(), "lawful", [], 0
        for count, row in enumerate((it.split() for it in rows.split(";") if it.strip()), 1):
            time, device, value = int(row[0]), int(row[1]), row[2]
            fault = int(value[1:]) if value[0] == "f" and len(value) == 2 else None
            lines = 0 if fault is not None else int(value, 16)
            found = bus.findings(time, device, lines, fault)[0]
            if found:
                got = "broken %d %d" % (count, lowest(found))
                break
            bus.step(time, device, lines, fault)
        else:
            found = bus.findings_at_end(int(end))[0]
            if found:
                got = "broken %d %d" % (count + 1, lowest(found))
        names = " ".join(it.sentence for it in found if it.rule == lowest(found))
        reached.update(names.split())
        many += 1
        if got != verdict or names != wanted.get(name, ""):
            wrong += 1
            print("%s: %s %s, wanted %s %s" % (name, got, names, verdict, wanted.get(name, "")))
    rules = (ROOT / "docs" / "rules.md").read_text()
    for name, sentence in SENTENCES.items():
        row = re.search(r"(?m)^\| %s \| (.*?) \| (.*?) \|$" % name, rules)
        if not row or (row[1], row[2]) != (sentence.text, sentence.clause):
            wrong += 1
            print("%s: docs/rules.md has another text or clause" % name)
    print("%d cases of the rules, %d sentences of %d broken; %d wrong" % (many, len(reached), len(SENTENCES), wrong))
    return wrong


def main():
    words = [word for word in sys.argv[1:] if word != "--write"]
    wrong = golden("--write" in sys.argv, words)
    if not words and "--write" not in sys.argv:
        wrong += letters() + pages()
        sys.stdout.flush()
        wrong += subprocess.run([sys.executable, str(HERE / "claims.py"), "60", "7"]).returncode
        sys.stdout.flush()
        wrong += subprocess.run([sys.executable, str(HERE / "captures.py"), "5"]).returncode
    sys.exit(1 if wrong else 0)


main()
