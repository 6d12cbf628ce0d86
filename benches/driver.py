"""What the benches share: a driver, built in a temporary copy of the crates that it stands on. It stands nowhere else."""
import pathlib
import resource
import shutil
import subprocess
import sys

ROOT = pathlib.Path(__file__).resolve().parent.parent


def stands_on(crates, known):
    """These crates of the repository and all that they stand on."""
    found, left = set(), list(crates)
    while left:
        crate = left.pop()
        if crate in known and crate not in found:
            found.add(crate)
            left.extend(known[crate].split())
    return found


def build(folder, name, deps, files):
    """The program of a driver of this name, made in this folder; what earlier checks proved of the crates is taken along."""
    lines = [line.split(":") for line in (ROOT / "crates.txt").read_text().splitlines() if ":" in line]
    known = {crate: below for crate, below in lines}
    crates = stands_on(deps.split(), known)
    for crate in crates:
        shutil.copytree(ROOT / "crates" / crate, folder / "crates" / crate, symlinks=True)
    for path, text in files.items():
        file = folder / "crates" / name / path
        file.parent.mkdir(parents=True, exist_ok=True)
        file.write_text(text)
    listed = ["%s:%s" % (crate, known[crate]) for crate in known if crate in crates]
    (folder / "crates.txt").write_text("\n".join(listed + ["%s: %s" % (name, deps)]) + "\n")
    if (ROOT / "HANDLES").exists():
        shutil.copy(ROOT / "HANDLES", folder / "HANDLES")
    crate = folder / "crates" / name
    made = subprocess.run(["rt", "run"], cwd=crate, stdin=subprocess.DEVNULL, capture_output=True, check=False)
    program = crate / "out" / name
    if not program.exists():
        sys.exit("the driver was not built:\n" + (made.stdout + made.stderr).decode())
    return program


def least_time(rounds, words):
    """The least processor time of some runs, in seconds, and what the last of them printed."""
    times = []
    for _ in range(rounds):
        before = resource.getrusage(resource.RUSAGE_CHILDREN)
        said = subprocess.run(words, stdin=subprocess.DEVNULL, capture_output=True, check=True).stdout
        after = resource.getrusage(resource.RUSAGE_CHILDREN)
        times.append(after.ru_utime - before.ru_utime + after.ru_stime - before.ru_stime)
    return min(times), said.decode().strip()
