"""How near a lawful trace comes to breaking each sentence of a time."""
from .gauge import FAR, NAMES, Gauge, Progress, walk
from .rules import SENTENCES, Bus, rule_of
from .style import ns, paint


class Margin:
    """The least slack of a sentence in a trace."""

    def __init__(self, gauge, number):
        self.sentence = NAMES[number]
        self.slack, self.place, self.since = gauge.slack[number], gauge.row[number], gauge.since[number]
        self.delay, self.is_latest, self.count = gauge.delay[number], gauge.is_latest[number], gauge.count[number]
        # What the judge said of the row at its last right time and one ns beyond: True, or why it was not asked.
        self.asked = "not asked"

    @property
    def bound(self):
        return self.since + self.delay

    def measured(self, trace):
        return trace.times[self.place] - self.since


def margins_of(judge, trace, count=None, ask=True, progress=True):
    """The margins of the first `count` rows, by sentence, each asked of the judge where the order of the rows lets it."""
    count = len(trace) if count is None else count
    gauge = Gauge()
    walk(Bus(), trace, 0, count, gauge, Progress("margins", count) if progress else None)
    found = [Margin(gauge, number) for number in range(len(NAMES)) if gauge.slack[number] < FAR]
    if ask:
        for margin in found:
            margin.asked = asked(judge, trace, margin)
    return found


def asked(judge, trace, margin):
    """Whether the judge lets the row be at its bound and names the rule one ns beyond; or in words why that cannot be asked."""
    time, device, value = trace.row(margin.place)
    before = trace.times[margin.place - 1] if margin.place else 0
    beyond = margin.bound + (1 if margin.is_latest else -1)
    if not margin.is_latest and beyond < before:
        return "the row before it is at %s" % ns(before)
    right = judge.breaks(trace, margin.place, [(margin.bound, device, value)])
    wrong = judge.breaks(trace, margin.place, [(beyond, device, value)])
    if wrong == rule_of(margin.sentence) and right != wrong:
        return True
    return "rule %s binds first" % (wrong or "none") if wrong != rule_of(margin.sentence) else "rule %d still binds" % wrong


def text(trace, found, every=True):
    """The table of margins."""
    if not found:
        return "No sentence of a time applies to these rows.\n"
    out = ["%-5s %12s %13s %13s %10s %14s   %s" % ("rule", "least slack", "measured", "wanted", "row", "at", "the judge")]
    for margin in found:
        if margin.asked is True:
            edge = "right %s %s, not at %s" % (
                "up to" if margin.is_latest else "from", ns(margin.bound), ns(margin.bound + (1 if margin.is_latest else -1)))
        else:
            edge = margin.asked
        slack = "%12s" % (ns(margin.slack) + " ns")
        slack = paint(slack, "yellow") if margin.slack < 10 else slack
        out.append("%-5s %s %13s %13s %10s %14s   %s" % (
            margin.sentence, slack, ns(margin.measured(trace)), "%s %s" % ("<=" if margin.is_latest else ">=", ns(margin.delay)),
            ns(margin.place + 1), ns(trace.times[margin.place]), edge))
    if every:
        out.append("")
        for margin in found:
            sentence = SENTENCES[margin.sentence]
            out.append("%-5s %s" % (margin.sentence, sentence.text))
    return "\n".join(out) + "\n"


def json(trace, found):
    return [{"sentence": m.sentence, "rule": rule_of(m.sentence), "clause": SENTENCES[m.sentence].clause, "slack": m.slack,
             "measured": m.measured(trace), "at_most" if m.is_latest else "at_least": m.delay, "row": m.place + 1,
             "time": trace.times[m.place], "since": m.since, "right_to" if m.is_latest else "right_from": m.bound,
             "rows": m.count, "asked": m.asked is True} for m in found]
