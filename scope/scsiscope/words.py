"""The words of scsiscope, each over the modules that do its work."""
from . import explain, margins
from .cli import FOUND, NOTHING_FOUND, TROUBLE
from .gauge import Progress
from .style import count, fold, ns, paint
from .trace import read_trace
from .trouble import Trouble


def status_of(verdict):
    return NOTHING_FOUND if verdict is None else FOUND


def lawful_line(trace):
    name = "" if trace.name == "-" else trace.name + ": "
    return "%s%s, %s, end at %s ns\n" % (name, paint("lawful", "bold", "green"), count(len(trace), "row"), ns(trace.end))


def word_explain(judge, options, out):
    trace, verdict = read_trace(judge, options.file)
    if options.all:
        return explain_all(judge, trace, options, out)
    if verdict is None:
        found = margins.margins_of(judge, trace)
        if options.json:
            out.write_json({"file": trace.name, "verdict": "lawful", "rows": len(trace), "end": trace.end,
                            "margins": margins.json(trace, found)})
        else:
            out.write(lawful_line(trace) + "\n" + margins.text(trace, found, every=False))
        return NOTHING_FOUND
    told = explain.Explanation(judge, trace, verdict)
    if options.json:
        out.write_json(told.json())
    else:
        out.write(told.text())
    return FOUND


def explain_all(judge, trace, options, out):
    stretches, _ = explain.all_broken(judge, trace, Progress("explain --all", len(trace)))
    bad = [(number, it) for number, it in enumerate(stretches, 1) if it.broken]
    by_rule = {}
    for _, it in bad:
        by_rule[it.broken[1]] = by_rule.get(it.broken[1], 0) + 1
    if options.json:
        out.write_json({
            "file": trace.name, "verdict": "broken" if bad else "lawful", "stretches": len(stretches), "broken": [
                {"stretch": number, "first_row": it.first + 1, "last_row": it.stop, "row": it.broken[0] + 1, "rule": it.broken[1],
                 "sentences": it.broken[2], "time": trace.times[it.broken[0]] if it.broken[0] < len(trace) else trace.end,
                 "device": trace.devices[it.broken[0]] if it.broken[0] < len(trace) else None, "phase": it.broken[3],
                 "asked": it.broken[5]} for number, it in bad],
            "by_rule": {str(rule): by_rule[rule] for rule in sorted(by_rule)}})
        return FOUND if bad else NOTHING_FOUND
    if not bad:
        out.write(lawful_line(trace))
        return NOTHING_FOUND
    lines = []
    for number, it in bad:
        row, rule, sentences, phase, role, was_asked = it.broken
        at_end = row >= len(trace)
        where = "the end" if at_end else "row %s" % ns(row + 1)
        time = trace.end if at_end else trace.times[row]
        who = "" if at_end else ", device %d%s" % (trace.devices[row], " (%s)" % role if role else "")
        lines.append("stretch %s, rows %s to %s: %s breaks %s at %s ns, %s%s%s" % (
            ns(number), ns(it.first + 1), ns(it.stop), where, paint(", ".join(sentences) or "rule %d" % rule, "red"), ns(time), phase, who,
            "" if was_asked else " (not asked of the judge)"))
    rules = "; ".join("rule %d: %s" % (rule, ns(by_rule[rule])) for rule in sorted(by_rule))
    lines.append("%s of %s between BUS FREE %s broken: %s" % (
        ns(len(bad)), count(len(stretches), "stretch", "stretches"), "is" if len(bad) == 1 else "are", rules))
    out.write("\n".join(lines) + "\n")
    return FOUND


def word_margins(judge, options, out):
    trace, verdict = read_trace(judge, options.file)
    rows = len(trace) if verdict is None else verdict[0] - 1
    found = margins.margins_of(judge, trace, min(rows, len(trace)), ask=options.rule is None)
    if options.rule is not None:
        if not 1 <= options.rule <= 28:
            raise Trouble("--rule %d: the rules are 1 to 28" % options.rule)
        found = [it for it in found if margins.rule_of(it.sentence) == options.rule]
        for it in found:
            it.asked = margins.asked(judge, trace, it)
    if options.json:
        out.write_json({"file": trace.name, "verdict": "lawful" if verdict is None else "broken", "rows": rows,
                        "margins": margins.json(trace, found)})
        return status_of(verdict)
    text = lawful_line(trace)
    if verdict:
        text = "broken at row %s by rule %d; the margins of the %s before it:\n" % (ns(verdict[0]), verdict[1], count(rows, "row"))
    out.write(text + "\n" + margins.text(trace, found))
    return status_of(verdict)


def word_why(judge, options, out):
    from .trace import KINDS, kind_of, read_file
    from .why import refusal_of

    data = read_file(options.file)
    found = refusal_of(judge, options.file, data, options.kind)
    if found is None:
        kind = options.kind or kind_of(data)
        if options.json:
            out.write_json({"file": options.file, "read": True, "kind": kind})
        else:
            out.write("%s: %s that is read\n" % (options.file, KINDS[kind]))
        return NOTHING_FOUND
    if options.json:
        out.write_json(dict(found.json(), read=False))
    else:
        out.write(found.text() + "\n")
    return FOUND


def word_show(judge, options, out):
    from . import show

    trace, verdict = read_trace(judge, options.file)
    rows = len(trace) if verdict is None else min(verdict[0] - 1, len(trace))
    items, within = [], True
    for item in show.items_of(judge, trace, rows):
        if item.kind in ("connect", "unanswered"):
            within = (options.start is None or item.time >= options.start) and (options.stop is None or item.time <= options.stop)
        if within:
            items.append(item)
    told = explain.Explanation(judge, trace, verdict) if verdict else None
    if options.json:
        found = {"file": trace.name, "verdict": "lawful" if verdict is None else "broken", "items": [item.json() for item in items]}
        if told:
            found["broken"] = told.json()
        out.write_json(found)
        return status_of(verdict)
    lines = [line for item in items for line in show.lines_of(item, options.bytes)]
    while lines and not lines[0]:
        del lines[0]
    if told:
        where = "the end" if told.at_end else "row %s" % ns(verdict[0])
        lines += ["", "%12s  %s: %s" % (ns(told.time), paint("BROKEN, %s, rule %s" % (
            where, ", ".join(f.sentence for f in told.broken) or verdict[1]), "bold", "red"),
            told.words if told.at_end else "%s, device %d%s, %s" % (told.phase, told.device, " (%s)" % told.role if told.role else "", told.words))]
        lines += [fold(explain.SENTENCES[finding.sentence].text, " " * 14) for finding in told.broken]
        lines.append(" " * 14 + "scsiscope explain says more.")
    out.write("\n".join(lines) + "\n")
    return status_of(verdict)


def word_picture(judge, options, out):
    from . import picture
    from .style import warn

    trace, verdict = read_trace(judge, options.file)
    if options.rows and not all(part.isdigit() for part in options.rows.split("-", 1) if part):
        raise Trouble("--rows %s: two numbers of rows, as 100-200" % options.rows)
    first, stop, chosen = picture.window(trace, verdict, options)
    if stop <= first:
        raise Trouble("no row stands there: the trace has %s, from %s to %s ns" % (
            count(len(trace), "row"), ns(trace.times[0]) if len(trace) else 0, ns(trace.end)))
    if stop - first > 20_000:
        raise Trouble("%s are too many for a picture: give --from and --to, or --rows A-B" % count(stop - first, "row"))
    if chosen:
        warn("rows %d to %d of %d are drawn; --from and --to, or --rows A-B, choose others" % (first + 1, stop, len(trace)))
    sentences = ()
    if verdict is not None:
        from .trace import bus_after, findings

        bus = bus_after(trace, min(verdict[0] - 1, len(trace)))
        found = findings(bus, trace.row(verdict[0] - 1))[0] if verdict[0] <= len(trace) else bus.findings_at_end(trace.end)[0]
        sentences = [finding.sentence for finding in found if finding.rule == verdict[1]]
    out.write(picture.picture(trace, verdict, first, stop, options, sentences))
    return status_of(verdict)


def word_waves(judge, options, out):
    import os

    from . import waves

    trace, verdict = read_trace(judge, options.file)
    if out.to:
        try:
            with open(out.to, "wb") as target:
                waves.dump(trace, verdict, options.low, options.devices, target.write)
            save = os.path.splitext(out.to)[0] + ".gtkw"
            with open(save, "w") as target:
                target.write(waves.save_file(os.path.basename(out.to), trace, verdict, options.low))
        except OSError as error:
            raise Trouble("%s: %s" % (error.filename or out.to, error.strerror)) from None
    else:
        waves.dump(trace, verdict, options.low, options.devices, out.write)
    return status_of(verdict)


def word_diff(judge, options, out):
    from . import diff

    mine, mine_verdict = read_trace(judge, options.mine)
    other, other_verdict = read_trace(judge, options.lawful)
    row = diff.first_difference(mine, other, options.untimed)
    verdicts = [None if it is None else {"row": it[0], "rule": it[1]} for it in (mine_verdict, other_verdict)]
    if options.json:
        out.write_json(dict(diff.json(mine, other, row, options.untimed), broken=verdicts))
        return NOTHING_FOUND if row is None else FOUND
    text = diff.text(mine, other, row, options.untimed)
    for trace, verdict in ((mine, mine_verdict), (other, other_verdict)):
        if verdict:
            text += "%s is broken at row %d by rule %d\n" % (trace.name, *verdict)
    out.write(text)
    return NOTHING_FOUND if row is None else FOUND


def word_stats(judge, options, out):
    from . import stats

    trace, verdict = read_trace(judge, options.file)
    rows = len(trace) if verdict is None else min(verdict[0] - 1, len(trace))
    found = stats.stats_of(judge, trace, rows)
    if options.json:
        out.write_json(dict(found, file=trace.name, verdict="lawful" if verdict is None else "broken"))
        return status_of(verdict)
    head = "lawful, " if verdict is None else "broken at row %d by rule %d; before it: " % verdict
    out.write(("" if trace.name == "-" else trace.name + ": ") + head + stats.text(found))
    return status_of(verdict)


def word_new(judge, options, out):
    from .new import scenario
    from .why import refusal_of

    text = scenario(options).encode()
    refused = refusal_of(judge, "the scenario", text, "scenario")
    if refused:
        raise Trouble("these words make no scenario:\n" + refused.text())
    out.write(text)
    return NOTHING_FOUND


def word_check(judge, options, out):
    import json
    import sys

    from . import check

    counts = {"lawful": 0, "broken": 0, "refused": 0, "trouble": 0}
    lines = []
    colours = {"lawful": "green", "broken": "red", "refused": "yellow", "trouble": "yellow"}
    for name, (verdict, row, rule, words) in check.verdicts(judge, options.files, options.jobs):
        counts[verdict] += 1
        if options.quiet and verdict == "lawful":
            continue
        if options.json:
            found = {"file": name, "verdict": verdict}
            if verdict == "broken":
                found.update(row=row, rule=rule)
            elif verdict != "lawful":
                found["words"] = words
            line = json.dumps(found, ensure_ascii=False)
        else:
            line = "%s: %s" % (name, paint(words, colours[verdict]))
        if out.to:
            lines.append(line)
        else:
            out.write(line + "\n")
    if out.to:
        out.write("".join(line + "\n" for line in lines))
    total = sum(counts.values())
    if total > 1 and sys.stderr.isatty():
        sys.stderr.write("scsiscope: %d of %d lawful, %d broken, %d no traces\n" % (
            counts["lawful"], total, counts["broken"], counts["refused"] + counts["trouble"]))
    return TROUBLE if counts["refused"] or counts["trouble"] else FOUND if counts["broken"] else NOTHING_FOUND


def word_capture(judge, options, out):
    from . import drivers, recording, tolerance
    from .rules import SENTENCES
    from .style import warn
    from .trace import read_file

    if options.rst is not None and not 0 <= options.rst <= 7:
        raise Trouble("--rst %d: a device is 0 to 7" % options.rst)
    found = recording.read(options.file, read_file(options.file), options)
    made, end, origin = drivers.rows_of(found, options.rst)
    rows, hidden = made.rows, made.hidden
    if "DBP" in found.missing():
        rows, hidden = drivers.with_parity_lines(rows, hidden)
    period = options.sample or found.period or 1
    notes = list(found.notes)
    notes.append("%s, a sample each %d ns, %s, %s" % (
        ns(found.end) + " ns", period, count(len(found.samples), "change"), count(len(rows), "row")))
    told = [{"time": time, "row": row, "words": words} for time, row, words in made.notes]
    if not rows:
        raise Trouble("%s: no line of the bus ever changes in this file" % options.file)
    text = tolerance.text_of(rows, max(end, rows[-1][0]))
    if options.sample is None and not options.verdict:
        for note in notes:
            warn("capture: " + note)
        for it in told:
            warn("capture: row %d, %d ns: %s" % (it["row"], it["time"], it["words"]))
        out.write(text)
        return NOTHING_FOUND
    answer = tolerance.verdict_within(judge, rows, hidden, period, max(end, rows[-1][0]))
    status = {"lawful": NOTHING_FOUND, "broken": FOUND, "unknown": FOUND}[answer.verdict]
    if answer.verdict != "lawful" and not options.deglitch:
        levels = recording.glitches(found)[0]
        if levels:
            notes.append("%s for one sample alone; --deglitch drops them, if they are glitches" % count(levels, "level stands", "levels stand"))
    if options.witness and answer.verdict == "lawful":
        try:
            with open(options.witness, "wb") as target:
                target.write(tolerance.text_of(answer.witness, max(end, answer.witness[-1][0])))
        except OSError as error:
            raise Trouble("%s: %s" % (options.witness, error.strerror)) from None
    if options.json:
        out.write_json({
            "file": options.file, "verdict": {"lawful": "lawful", "broken": "broken for sure", "unknown": "cannot be told"}[answer.verdict],
            "sample": period, "rows": len(rows), "row": None if answer.row is None else answer.row + 1, "rule": answer.rule,
            "sentence": answer.sentence, "time": None if answer.row is None or answer.row >= len(rows) else rows[answer.row][0],
            "chain": tolerance.chain_words(rows, answer.chain, period), "words": answer.words, "notes": notes, "guesses": told})
        return status
    lines = ["capture: " + note for note in notes]
    lines += ["capture: row %d, %d ns: %s" % (it["row"], it["time"], it["words"]) for it in told]
    name = "" if options.file == "-" else options.file + ": "
    if answer.verdict == "lawful":
        lines.append("%s%s within samples of %d ns: a lawful bus gives this capture (%s)" % (
            name, paint("lawful", "bold", "green"), period, answer.words))
    else:
        row = answer.row
        at = "row %d, seen at %d ns" % (row + 1, rows[row][0]) if row < len(rows) else "the end"
        if answer.verdict == "broken":
            lines.append("%s%s: %s, rule %s" % (name, paint("broken for sure", "bold", "red"), at, answer.sentence))
            lines.append(fold(SENTENCES[answer.sentence].text, "  "))
            lines += ["  - " + it for it in tolerance.chain_words(rows, answer.chain, period)]
        else:
            lines.append("%s%s: %s%s" % (name, paint("cannot be told", "bold", "yellow"), at, ", rule %s" % (answer.sentence or answer.rule) if answer.rule else ""))
            lines.append(fold(answer.words, "  "))
    out.write("\n".join(lines) + "\n")
    return status


def word_decode(judge, options, out):
    from . import decode, recording
    from .trace import read_file

    if options.install:
        try:
            out.write("%s\n" % decode.put(decode.HOME))
        except OSError as error:
            raise Trouble("%s: %s" % (error.filename, error.strerror)) from None
        return NOTHING_FOUND
    if not options.file:
        raise Trouble("a file to decode, or --install")
    options.deglitch = options.low = False
    found = recording.read(options.file, read_file(options.file), options)
    out.write(decode.run(options.file, found.names, options))
    return NOTHING_FOUND
