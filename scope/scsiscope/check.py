"""The verdict on many files."""
import os
import subprocess
from concurrent.futures import ThreadPoolExecutor

from .trace import kind_of, read_file
from .trouble import Trouble
from .why import refusal_of


def names_of(files):
    """The files; a name after @ is a file of names."""
    for name in files:
        if not name.startswith("@"):
            yield name
            continue
        for line in read_file(name[1:] or "-").split(b"\n"):
            if line.strip():
                yield os.fsdecode(line.strip())


def verdict_of(judge, name):
    """What the judge says of a file: (`lawful`, `broken`, `refused` or `trouble`, row, rule, words)."""
    try:
        if name != "-":
            # The file itself is the program's input where it is a trace: nothing of it stands in memory here.
            with open(name, "rb") as source:
                head = source.read(4096)
                if kind_of(head) == "trace":
                    source.seek(0)
                    done = subprocess.run([judge.program, "judge"], stdin=source, stdout=subprocess.PIPE)
                    return told(judge, name, done.returncode, done.stdout.decode(errors="replace").strip(), None)
        data = read_file(name)
        if kind_of(data) == "dump":
            status, said = judge.words(["unvcd"], data)
            if status or said.count(b"\n") == 2:
                return "refused", None, None, refusal_of(judge, name, data).words
            data = said
        elif kind_of(data) != "trace":
            return "refused", None, None, refusal_of(judge, name, data, "trace").words
        status, said = judge.words(["judge"], data)
        return told(judge, name, status, said.decode(errors="replace").strip(), data)
    except (Trouble, OSError) as error:
        return "trouble", None, None, getattr(error, "strerror", None) or str(error)


def told(judge, name, status, said, data):
    if status == 0:
        return "lawful", None, None, "lawful"
    if status == 6:
        row, rule = (int(word) for word in said.split()[1:])
        return "broken", row, rule, said
    if status == 7:
        found = refusal_of(judge, name, read_file(name) if data is None else data, "trace")
        return "refused", None, None, "%s: %s" % (said, found.words) if found else said
    return "trouble", None, None, "%s (status %d)" % (said, status)


def verdicts(judge, files, jobs):
    """The verdicts on the files, in their order: (name, verdict)."""
    if judge.program is None:
        from .judge import program_path

        judge.program = program_path()
    jobs = jobs or os.cpu_count() or 1
    if jobs == 1:
        for name in names_of(files):
            yield name, verdict_of(judge, name)
        return
    with ThreadPoolExecutor(jobs) as pool:
        pending = []
        for name in names_of(files):
            pending.append((name, pool.submit(verdict_of, judge, name)))
            # Not all at once: a farm's million names stay few.
            while len(pending) > 4 * jobs:
                first, answer = pending.pop(0)
                yield first, answer.result()
        for first, answer in pending:
            yield first, answer.result()
