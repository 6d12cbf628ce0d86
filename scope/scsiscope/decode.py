"""The protocol decoder `scsi` for sigrok: shown over a capture by sigrok-cli, or put where PulseView finds it."""
import os
import shutil
import subprocess
import tempfile
from pathlib import Path

from .recording import LINE_NAMES
from .trouble import Trouble

HERE = Path(__file__).resolve().parent
HOME = Path(os.environ.get("XDG_DATA_HOME") or Path.home() / ".local" / "share") / "libsigrokdecode" / "decoders"


def put(folder):
    """Puts the decoder into a folder of decoders."""
    target = Path(folder) / "scsi"
    target.mkdir(parents=True, exist_ok=True)
    for source in (HERE / "decoder" / "__init__.py", HERE / "decoder" / "pd.py", HERE / "names.py"):
        shutil.copyfile(source, target / source.name)
    return target


def run(name, names, options):
    """The annotations of a capture, as sigrok-cli prints them."""
    program = shutil.which("sigrok-cli")
    if not program:
        raise Trouble("no program sigrok-cli: apt-get install sigrok-cli, or `scsiscope decode --install` for PulseView")
    with tempfile.TemporaryDirectory(prefix="scsiscope-") as room:
        put(room)
        wires = [(line.lower(), wire) for wire, line in names.items() if line in LINE_NAMES]
        decoder = "scsi:" + ":".join(["polarity=%s" % ("high" if options.high else "low")] + ["%s=%s" % it for it in wires])
        words = [program, "-i", name, "-P", decoder]
        if options.input:
            words[3:3] = ["-I", options.input]
        if options.annotations:
            words += ["-A", "scsi=" + options.annotations]
        if options.samples:
            words.append("--protocol-decoder-samplenum")
        done = subprocess.run(words, stdout=subprocess.PIPE, stderr=subprocess.PIPE, env=dict(os.environ, SIGROKDECODE_DIR=room))
    if done.returncode or done.stderr:
        raise Trouble("sigrok-cli: " + done.stderr.decode(errors="replace").strip()[:800])
    return done.stdout
