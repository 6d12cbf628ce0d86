"""Where the programs of this repository's sources are kept, and how they are made: what `./scsibus`, `./prove` and the tools share.

A program is kept in .build/ under a name that ends in the hash of its sources: crates.txt, and src, specs and proofs of each crate that
the program stands on. So a program of other sources is never taken, whatever the times of the files are. A file gets its name there
when it is whole, so nothing half made is taken either.
"""
import contextlib
import fcntl
import glob
import hashlib
import os
import shutil
import signal
import subprocess
import sys
import tempfile
import time

ROOT = os.path.dirname(os.path.dirname(os.path.realpath(__file__)))
BUILD = f"{ROOT}/.build"
PROGRAM = "scsibus"
PARTS = ("src", "specs", "proofs")
# The least trace, on which a program that was just made is tried.
TRIAL = (b"trace 1\nend 1\n", b"lawful\n")
NO_KIT = "the Rattle kit is not here: its command `rt`, by which the sources are proved and compiled, is not in PATH"


def crates():
    """The crates that the program stands on, the lowest first and the program last, each with those that its line lists."""
    lines = {}
    with open(f"{ROOT}/crates.txt", encoding="utf-8") as file:
        for line in file:
            head, found, rest = line.partition("#")[0].partition(":")
            if found:
                lines[head.split()[0]] = rest.split()
    order = {}

    def stand_on(name):
        if name in lines and name not in order:
            for low in lines[name]:
                stand_on(low)
            order[name] = [low for low in lines[name] if low in lines]

    stand_on(PROGRAM)
    return order


def files_of(folder):
    """The files of a folder and of those in it, in one order everywhere."""
    found = []
    with contextlib.suppress(FileNotFoundError):
        for entry in sorted(os.scandir(folder), key=lambda entry: entry.name):
            found += files_of(entry.path) if entry.is_dir(follow_symlinks=False) else [entry.path]
    return found


def sources_of(crate):
    return [file for part in PARTS for file in files_of(f"{ROOT}/crates/{crate}/{part}")]


def key():
    """The hash of the sources of the program."""
    total = hashlib.sha256()
    for file in [f"{ROOT}/crates.txt", *(file for crate in sorted(crates()) for file in sources_of(crate))]:
        with open(file, "rb") as it:
            text = it.read()
        total.update(b"%s %d\n" % (os.fsencode(file[len(ROOT) :]), len(text)) + text)
    return total.hexdigest()[:32]


def kept(kind, of):
    """Where the proved or the unproved program of the sources with this hash is, if it is there."""
    return f"{BUILD}/{kind}-{of}"


def keep(program, kind, of):
    """Puts a program that was made in its place, at one stroke, and drops those of other sources."""
    os.makedirs(BUILD, exist_ok=True)
    to = kept(kind, of)
    with tempfile.NamedTemporaryFile(dir=BUILD, prefix="new-", delete=False) as new:
        with open(program, "rb") as made:
            shutil.copyfileobj(made, new)
        os.fchmod(new.fileno(), 0o755)
    for old in glob.glob(f"{BUILD}/{kind}-*"):
        os.remove(old)
    os.replace(new.name, to)
    return to


@contextlib.contextmanager
def lock(name, waits):
    """Holds a lock of this folder, and says what it waits for where another process holds it."""
    os.makedirs(BUILD, exist_ok=True)
    with open(f"{BUILD}/{name}.lock", "w") as file:
        try:
            fcntl.flock(file, fcntl.LOCK_EX | fcntl.LOCK_NB)
        except BlockingIOError:
            print(waits, file=sys.stderr, flush=True)
            fcntl.flock(file, fcntl.LOCK_EX)
        yield


def has_kit():
    return shutil.which("rt") is not None


def end_by_signals():
    """Has this process end in order, so that it ends what it started, also where it is told to by a signal."""
    for number in (signal.SIGTERM, signal.SIGHUP, signal.SIGINT):
        signal.signal(number, lambda number, _: sys.exit(128 + number))


def end(process):
    """Ends a process that we started, and waits for it."""
    if process is not None and process.poll() is None:
        process.terminate()
        process.wait()


def works(program):
    """Whether a program that was just made judges the least trace."""
    try:
        ran = subprocess.run([program, "judge"], input=TRIAL[0], capture_output=True, timeout=60)
    except (OSError, subprocess.TimeoutExpired):
        return False
    return ran.returncode == 0 and ran.stdout == TRIAL[1]


def compile_unproved(of):
    """Compiles the sources unproved, keeps the program, and returns where it is, or None, with the reason in .build/compile.log.

    `rt try` runs a program before any proof, for a minute at most, and compiles it anew each time. So it is run once, on the least trace, and
    what it makes on its way is kept: the module, in which an index out of range, a sum that wraps or a cast that loses bits ends the
    program, and which the kit's clang compiles beside it; and, where that fails, the program that `rt try` itself ran, which
    watches each access of memory, too, and is a hundred times slower.
    """
    kit = os.path.dirname(subprocess.run(["rt", "doc"], capture_output=True, text=True).stdout.strip())
    trial = clang = None
    for old in glob.glob(f"{BUILD}/compiling-*"):
        shutil.rmtree(old, ignore_errors=True)
    with tempfile.TemporaryDirectory(dir=BUILD, prefix="compiling-") as room, open(f"{BUILD}/compile.log", "wb") as log:
        temporary = f"{room}/rt"
        os.mkdir(temporary)
        with open(f"{room}/trace", "wb") as file:
            file.write(TRIAL[0])
        how = {"cwd": f"{ROOT}/crates/{PROGRAM}", "stderr": log, "env": {**os.environ, "TMPDIR": temporary}}
        try:
            with open(f"{room}/trace", "rb") as given, open(f"{room}/said", "wb") as said:
                trial = subprocess.Popen(["rt", "try", "--", "judge"], stdin=given, stdout=said, **how)
            while trial.poll() is None:
                # A link holds the whole file, once it is whole, also where the name that it was made under is gone.
                for made in glob.glob(f"{temporary}/*/*/module.bc") + glob.glob(f"{temporary}/*/*/program"):
                    with contextlib.suppress(OSError):
                        is_module = made.endswith(".bc")
                        # The module of the program is the large one, and whole when its compilation has begun.
                        if is_module and (os.path.getsize(made) < 1 << 17 or not glob.glob(f"{os.path.dirname(made)}/*.o*")):
                            continue
                        os.link(made, f"{room}/{'module.bc' if is_module else 'tried'}")
                if clang is None and os.path.exists(f"{room}/module.bc"):
                    words = ["--target=x86_64-unknown-linux-gnu", "--no-default-config", "-x", "ir", f"{room}/module.bc"]
                    words += ["-c", "-o", f"{room}/module.o", "-O1", "-fPIE", "-ffunction-sections", "-fdata-sections"]
                    with contextlib.suppress(OSError):
                        clang = subprocess.Popen([f"{kit}/toolchain/bin/clang", *words], stdout=log, stderr=log)
                time.sleep(0.01)
            with open(f"{room}/said", "rb") as said:
                if trial.returncode != 0 or said.read() != TRIAL[1]:
                    return None
            if clang is not None and clang.wait() == 0:
                words = ["--target", "x86_64-unknown-linux-gnu", "--toolchain", f"{kit}/toolchain", "-o", f"{room}/fast"]
                words += [f"{room}/module.o", f"{kit}/c/libos_c.a", f"{kit}/c/liblibc_c.a"]
                with contextlib.suppress(OSError):
                    subprocess.run([f"{kit}/bin/rattle-link", *words], stdout=log, stderr=log)
            for made in (f"{room}/fast", f"{room}/tried"):
                # The sources may have changed since their hash was taken.
                if works(made) and key() == of:
                    return keep(made, "unproved", of)
        finally:
            end(trial)
            end(clang)
    return None
