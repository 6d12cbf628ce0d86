"""What can be told of a bus that was sampled.

An edge seen at T came in (T - P, T]. The sentences of a time are differences of the times of two rows: at least so much, or at most. So the
soonest times that keep them all are found by raising each time as far as the rows before it want, and no further. Where a time would have to come
after the sample that saw it, no bus within the samples is lawful, and the chain of sentences that raised it is the reason. Else these times are a
trace within the samples, and the judge is asked of it.
"""
from itertools import permutations
from typing import List, NamedTuple, Optional

from .judge import row_text
from .lines import DATA
from .rules import SENTENCES, Bus, is_odd
from .style import ns
from .trace import findings, step

# An index of rows as times that are further apart than any delay.
APART = 1 << 40
FREE = 1 << 62


class Link(NamedTuple):
    """Why a row comes no sooner: its sample, the row before it in the same sample, or a sentence with the row that it measures from."""

    row: int
    soonest: int
    latest: int
    sentence: Optional[str]
    other: Optional[int]


class Answer(NamedTuple):
    verdict: str  # lawful, broken, unknown
    row: Optional[int]  # from 0
    rule: Optional[int]
    sentence: Optional[str]
    chain: List[Link]
    witness: list  # rows of a lawful trace within the samples
    words: str


def constraints_of(rows):
    """For each row the sentences of a time that it falls under: (sentence, the row measured from or -1, delay, is latest); and at the end."""
    bus, found = Bus(), []
    for place, (_, device, value) in enumerate(rows):
        time = (place + 1) * APART
        broken, kept = bus.findings(time, device, value)
        found.append([(it.sentence, it.since // APART - 1, it.delay, it.is_latest) for it in broken + kept
                      if it.since is not None and it.sentence != "1a"])
        bus.step(time, device, value)
    end = [(it.sentence, it.since // APART - 1, it.delay, it.is_latest)
           for part in bus.findings_at_end((len(rows) + 1) * APART) for it in part]
    return found, end


def soonest(rows, hidden, period, end=None, constraints=None):
    """The soonest times within the samples that keep the sentences of a time: (times, None), or (None, the links of the chain that cannot be)."""
    wanted, at_end = constraints or constraints_of(rows)
    size = len(rows)
    low, high, why = [0] * size, [0] * size, [None] * size
    for place, (time, _, _) in enumerate(rows):
        low[place] = max(0, time - period + 1)
        high[place] = FREE if place in hidden else time
    if end is not None:
        for sentence, other, delay, is_latest in at_end:
            if is_latest and other >= 0 and low[other] < end - delay:
                low[other], why[other] = end - delay, (sentence, size)
                if low[other] > high[other]:
                    return None, chain_of(other, low, high, why, end)
    for _ in range(200):
        changed = False
        for place in range(size):
            time, reason = low[place], why[place]
            if place and low[place - 1] > time:
                time, reason = low[place - 1], (None, place - 1)
            for sentence, other, delay, is_latest in wanted[place]:
                if not is_latest:
                    least = (low[other] if other >= 0 else 0) + delay
                    if least > time:
                        time, reason = least, (sentence, other)
            low[place], why[place] = time, reason
            if time > high[place]:
                # Of several sentences that cannot be kept, that of the lowest rule, as the judge names it.
                late = [(int(it[0][:-1]), (low[it[1]] if it[1] >= 0 else 0) + it[2], it) for it in wanted[place]
                        if not it[3] and (low[it[1]] if it[1] >= 0 else 0) + it[2] > high[place]]
                if late:
                    _, low[place], it = min(late, key=lambda at: at[0])
                    why[place] = it[:2]
                return None, chain_of(place, low, high, why, end)
            for sentence, other, delay, is_latest in wanted[place]:
                if is_latest and time - delay > (low[other] if other >= 0 else 0):
                    if other < 0:
                        return None, chain_of(place, low, high, why, end) + [Link(-1, 0, 0, sentence, place)]
                    low[other], why[other] = time - delay, (sentence, place)
                    changed = True
                    if low[other] > high[other]:
                        return None, chain_of(other, low, high, why, end)
        if not changed:
            return low, None
    return low, None


def chain_of(place, low, high, why, end):
    """The rows from one whose time cannot be met back to one that its sample alone holds."""
    links, seen = [], set()
    while place is not None and 0 <= place < len(low) and place not in seen:
        seen.add(place)
        reason = why[place]
        links.append(Link(place, low[place], high[place], reason[0] if reason else None, reason[1] if reason else None))
        place = reason[1] if reason else None
    if place == len(low):
        links.append(Link(place, end, end, None, None))
    return links


def is_forced(rows, place):
    """Whether a row and the one before it, in one sample, cannot be the other way round: the other order breaks a sentence of no time."""
    bus = Bus()
    for row in rows[: place - 1]:
        step(bus, row)
    time = rows[place][0]
    for _, device, value in (rows[place], rows[place - 1]):
        broken = findings(bus, (time, device, value))[0]
        if any(it.since is None for it in broken):
            return True
        step(bus, (time, device, value))
    return False


def text_of(rows, end):
    return b"trace 1\n" + b"".join(row_text(*row) for row in rows) + b"end %d\n" % end


def verdict_within(judge, rows, hidden, period, end, tries=60):
    """What can be told of these rows, each seen by a sample: an Answer."""
    said = judge.verdict(text_of(rows, max([end] + [rows[-1][0]] if rows else [end])))
    if said is None:
        return Answer("lawful", None, None, None, [], list(rows), "as it was recorded")
    rows, hidden = list(rows), set(hidden)
    best = None
    for _ in range(tries):
        constraints = constraints_of(rows)
        size, chain = len(rows), None
        while True:
            whole = size == len(rows)
            times, links = soonest(rows[:size], hidden, period, end if whole else None, (constraints[0][:size], constraints[1] if whole else []))
            if links is None:
                break
            # The least front of the rows that cannot be.
            chain, size = links, max(link.row for link in links)
            if size <= 0:
                break
        front = [(times[place], *rows[place][1:]) for place in range(size)] if times else []
        last = front[-1][0] if front else 0
        said = judge.verdict(text_of(front, max(last, end if size == len(rows) else last)))
        if said is None and chain is None:
            moved = sum(1 for one, two in zip(front, rows) if one[0] != two[0])
            return Answer("lawful", None, None, None, [], front, "%d of %d rows within their samples" % (moved, len(rows)))
        if said is None:
            loose = next((link.row for link in chain if link.sentence is None and link.other is not None and link.row not in hidden
                          and link.other not in hidden and not is_forced(rows, link.row)), None)
            named = next((link for link in chain if link.sentence), None)
            if loose is None and named:
                row = max(link.row for link in chain)
                return Answer("broken", row, int(named.sentence[:-1]), named.sentence, chain, [], "")
            reason = "rows %d and %d came in one sample, and either order may be" % (loose, loose + 1) if loose else "no sentence of a time"
            return Answer("unknown", max(link.row for link in chain), int(named.sentence[:-1]) if named else None,
                          named.sentence if named else None, chain, [], reason)
        # A sentence of no time is broken: another order of what came in one sample may keep it.
        place, rule = said[0] - 1, said[1]
        if place >= size:
            return Answer("unknown", place, rule, None, [], [], "at the end")
        better = reordered(judge, rows, hidden, place)
        if better is None or best is not None and place <= best:
            return untimed(rows, front, place, rule, period)
        best, rows = place, better
    return Answer("unknown", place, rule, None, [], [], "no order of the rows of one sample was found")


def reordered(judge, rows, hidden, place):
    """The rows with another order within the sample of this one, in which it and those before it break no sentence without a time."""
    time = rows[place][0]
    first = place
    while first and rows[first - 1][0] == time:
        first -= 1
    stop = place + 1
    while stop < len(rows) and rows[stop][0] == time:
        stop += 1
    if stop - first < 2 or stop - first > 5 or any(it in hidden for it in range(first, stop)):
        return None
    start = Bus()
    for row in rows[:first]:
        step(start, row)
    for order in permutations(range(first, stop)):
        if list(order) == list(range(first, stop)):
            continue
        # Each device keeps the order of its own rows.
        if any(rows[one][1] == rows[two][1] and one > two for at, one in enumerate(order) for two in order[at + 1:]):
            continue
        bus, good = start.copy(), True
        for it in order:
            if any(found.since is None for found in findings(bus, rows[it])[0]):
                good = False
                break
            step(bus, rows[it])
        if good:
            return rows[:first] + [rows[it] for it in order] + rows[stop:]
    return None


def untimed(rows, front, place, rule, period):
    """What is told where a sentence of no time is broken."""
    bus = Bus()
    for row in front[:place]:
        step(bus, row)
    found = [it.sentence for it in findings(bus, front[place])[0] if it.rule == rule]
    sentence = found[0] if found else None
    time = rows[place][0]
    alone = all(other[0] != time for other in rows[max(0, place - 1): place] + rows[place + 1: place + 2])
    before = max((row[0] for row in rows[:place] if row[0] < time), default=0)
    # A byte stands for 55 ns before it crosses, so a slower change of its lines would have been seen.
    if sentence == "17a" and alone and time - before >= period and period <= 25:
        return Answer("broken", place, rule, sentence, [], [], "")
    return Answer("unknown", place, rule, sentence, [], [],
                  "as recorded it breaks rule %s, but changes shorter than a sample may be missing" % (sentence or rule))


def chain_words(rows, chain, period):
    """The chain of a broken answer in sentences."""
    told = []
    for link in reversed(chain):
        if link.row < 0 or link.row >= len(rows):
            continue
        row, time = "row %d" % (link.row + 1), rows[link.row][0]
        if link.sentence is None and link.other is None:
            text = "%s was seen at %s, so it came at %s at the soonest" % (row, ns(time), ns(link.soonest))
        elif link.sentence is None:
            text = "%s comes after row %d, so at %s at the soonest" % (row, link.other + 1, ns(link.soonest))
        else:
            text = "by rule %s %s comes at %s at the soonest" % (link.sentence, row, ns(link.soonest))
        if link.soonest > link.latest:
            text += ", but it was seen at %s" % ns(link.latest)
        told.append(text)
    return told
