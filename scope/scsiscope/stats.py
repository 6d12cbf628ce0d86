"""Time in each phase, bytes, rates, commands, waiting times."""
from .names import COMMANDS, STATUS
from .show import items_of
from .style import big, count, ns

ORDER = ["BUS FREE", "ARBITRATION", "SELECTION", "RESELECTION", "MESSAGE OUT", "MESSAGE IN", "COMMAND", "DATA OUT", "DATA IN", "STATUS", "RESET",
         "reserved phase"]


class Stages:
    """How long each phase stood."""

    def __init__(self):
        self.times = dict.fromkeys(ORDER, 0)
        self.stage, self.since = "BUS FREE", 0

    def after(self, bus, time):
        stage = bus.stage()
        if stage.startswith("ARB"):
            stage = "ARBITRATION"
        if stage != self.stage:
            self.times[self.stage] += time - self.since
            self.stage, self.since = stage, time

    def ended(self, time):
        self.times[self.stage] += max(0, time - self.since)


class Spread:
    """The least, the mean and the most of some times."""

    def __init__(self):
        self.least, self.most, self.sum, self.count = None, 0, 0, 0

    def take(self, value):
        self.least = value if self.least is None else min(self.least, value)
        self.most = max(self.most, value)
        self.sum += value
        self.count += 1

    def json(self):
        return {"count": self.count, "least": self.least, "mean": round(self.sum / self.count) if self.count else None, "most": self.most}


def stats_of(judge, trace, rows):
    """The numbers of the first rows, which are lawful."""
    stages = Stages()
    found = {"rows": rows, "end": trace.end if rows == len(trace) else trace.times[rows - 1] if rows else 0, "bytes_in": 0, "bytes_out": 0,
             "selections": 0, "reselections": 0, "unanswered": 0, "resets": 0, "lost": 0, "commands": {}, "status": {}}
    waits = {"arbitration to connection": Spread(), "command to status": Spread(), "disconnected": Spread(), "bus free": Spread()}
    commanded, parted, freed, name = {}, {}, 0, ""
    for item in items_of(judge, trace, rows, stages):
        if item.kind == "connect":
            name = item.name
            again = item.words.startswith("RESEL")
            found["reselections" if again else "selections"] += 1
            if again and name in parted:
                waits["disconnected"].take(item.time - parted.pop(name))
            if freed:
                waits["bus free"].take(item.time - freed)
        elif item.kind == "free":
            freed = item.time
            if name in commanded:
                parted[name] = item.time
        elif item.kind in ("unanswered", "reset", "lost"):
            found[{"reset": "resets"}.get(item.kind, item.kind)] += 1
        elif item.kind == "command":
            words = COMMANDS.get(item.data[0], "operation code %02x" % item.data[0])
            if not item.is_void:
                found["commands"][words] = found["commands"].get(words, 0) + 1
                if item.last is not None:
                    commanded[name] = item.last
        elif item.kind == "status" and not item.is_void:
            words = STATUS.get(item.data[0], "%02x" % item.data[0])
            found["status"][words] = found["status"].get(words, 0) + 1
            if name in commanded and item.time is not None:
                waits["command to status"].take(item.time - commanded.pop(name))
        elif item.kind in ("datain", "dataout"):
            found["bytes_in" if item.kind == "datain" else "bytes_out"] += len(item.data)
    del waits["arbitration to connection"]
    stages.ended(found["end"])
    found["phases"] = {stage: time for stage, time in stages.times.items() if time}
    found["waits"] = {wait: spread.json() for wait, spread in waits.items() if spread.count}
    return found


def rate(size, time):
    return "%.3g MB/s" % (size * 1000 / time) if time else "-"


def text(found):
    end = found["end"]
    out = ["%s in %s rows" % (count(end, "ns", "ns"), big(found["rows"])), "", "%-15s %15s %8s" % ("phase", "ns", "part")]
    for stage, time in found["phases"].items():
        out.append("%-15s %15s %6.1f %%" % (stage, big(time), 100 * time / max(1, end)))
    out.append("")
    out.append("data in      %s, %s over all, %s within DATA IN" % (
        count(found["bytes_in"], "byte"), rate(found["bytes_in"], end), rate(found["bytes_in"], found["phases"].get("DATA IN"))))
    out.append("data out     %s, %s over all, %s within DATA OUT" % (
        count(found["bytes_out"], "byte"), rate(found["bytes_out"], end), rate(found["bytes_out"], found["phases"].get("DATA OUT"))))
    out.append("connections  %s, %s, %s without an answer" % (
        count(found["selections"], "selection"), count(found["reselections"], "reselection"), big(found["unanswered"])))
    if found["resets"] or found["lost"]:
        out.append("             %s, %s lost" % (count(found["resets"], "reset"), count(found["lost"], "process", "processes")))
    for kind in ("commands", "status"):
        words = ["%s %s" % (name, big(number)) for name, number in sorted(found[kind].items(), key=lambda it: (-it[1], it[0]))]
        out.append("%-12s %s" % (kind, ", ".join(words) or "none"))
    if found["waits"]:
        out += ["", "%-22s %8s %14s %14s %14s" % ("waiting, ns", "times", "least", "mean", "most")]
        out += ["%-22s %8s %14s %14s %14s" % (name, big(it["count"]), big(it["least"]), big(it["mean"]), big(it["most"]))
                for name, it in found["waits"].items()]
    return "\n".join(out) + "\n"
