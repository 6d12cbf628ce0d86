"""scsiscope: what a user wants to see of a trace of a SCSI bus."""
import argparse
import contextlib
import json
import os
import sys

from . import __version__, style
from .judge import Judge
from .trouble import Trouble

NOTHING_FOUND, FOUND, TROUBLE = 0, 1, 2
STATUSES = "statuses: 0 nothing found, 1 found, 2 trouble"


def add_common(parser, has_json=True):
    parser.add_argument("-o", "--output", metavar="FILE", help="write there instead of to standard output")
    if has_json:
        parser.add_argument("--json", action="store_true", help="for scripts: one JSON object")
    parser.add_argument("--program", metavar="PATH", default=argparse.SUPPRESS,
                        help="the program scsibus (else SCSIBUS, this checkout, PATH)")


def parser():
    top = argparse.ArgumentParser(
        prog="scsiscope", description="Shows what a trace of a SCSI-2 bus holds, and what breaks a rule in it. FILE is a trace, a report or a "
        "dump of the devices (d0 to d7), also as .gz; - is standard input. What is said of rules is asked of the judge (scsibus judge).",
        epilog=STATUSES + ". Each word has --help. The rules: docs/rules.md; this tool: docs/scope.md.")
    top.add_argument("--version", action="store_true", help="the versions of scsiscope and of the program, and leave")
    top.add_argument("--program", metavar="PATH", help=argparse.SUPPRESS)
    words = top.add_subparsers(dest="word", metavar="WORD")

    def word(name, help_text, description, status):
        made = words.add_parser(name, help=help_text, description=description, epilog="statuses: " + status)
        return made

    one = word("explain", "why a trace is broken, in words", "Explains the first broken row: the rule's sentence and clause, times measured and "
               "wanted, the rows around, and which time or change would be right. Of a lawful trace: the margins.",
               "0 lawful, 1 broken, 2 trouble")
    one.add_argument("file", metavar="FILE")
    one.add_argument("--all", action="store_true", help="go on after a broken row at the next BUS FREE: one line a broken stretch, counts by rule")
    add_common(one)
    one = word("margins", "the least slack of each rule", "How near the trace comes to breaking each sentence of a time, and where. Of a broken "
               "trace: of the rows before the broken one.", "0 lawful, 1 broken, 2 trouble")
    one.add_argument("file", metavar="FILE")
    one.add_argument("--rule", type=int, metavar="N", help="of this rule alone")
    add_common(one)
    one = word("show", "the transcript in words, with times", "Messages, commands with their fields, data, sense data, status, agreements. Of a "
               "broken trace: up to the broken row, and that row.", "0 lawful, 1 broken, 2 trouble")
    one.add_argument("file", metavar="FILE")
    one.add_argument("--from", dest="start", type=int, metavar="T", help="connections from this time on (ns)")
    one.add_argument("--to", dest="stop", type=int, metavar="T", help="connections that begin up to this time (ns)")
    one.add_argument("--bytes", type=int, default=256, metavar="N", help="bytes shown of one run of data (256; 0: all)")
    add_common(one)
    one = word("picture", "a picture (SVG) of the lines", "Draws what stands on the bus: lines, phases in colour, bytes, a mark at the broken row.",
               "0 lawful, 1 broken (the picture is written in both), 2 trouble")
    one.add_argument("file", metavar="FILE")
    one.add_argument("--from", dest="start", type=int, metavar="T", help="from this time on (ns)")
    one.add_argument("--to", dest="stop", type=int, metavar="T", help="up to this time (ns)")
    one.add_argument("--rows", metavar="A-B", help="from row A to row B, in place of times")
    one.add_argument("--width", type=int, default=1200, metavar="N", help="width in pixels (1200)")
    one.add_argument("--time", choices=("auto", "even", "rows"), default="auto",
                     help="even: to scale; rows: each row as wide; auto: rows where few rows lie far apart (the default)")
    add_common(one, has_json=False)
    one = word("waves", "a dump of the bus for a wave viewer", "Writes what stands on the bus as 18 named wires and the phase as text (VCD), and "
               "with -o FILE.vcd a save file FILE.gtkw beside it. A broken trace is written, too.", "0 lawful, 1 broken, 2 trouble")
    one.add_argument("file", metavar="FILE")
    one.add_argument("--devices", action="store_true", help="also what each device drives, as d0 to d7")
    one.add_argument("--low", action="store_true", help="lines active low, as on the cable (nBSY ..)")
    add_common(one, has_json=False)
    one = word("why", "why a text is refused, in words", "Says of a scenario, trace or dump that the program refuses the line and column, what "
               "is wrong, and what to write instead.", "0 the text is read, 1 it is refused, 2 trouble")
    one.add_argument("file", metavar="FILE")
    one.add_argument("--as", dest="kind", choices=("scenario", "trace", "dump"), help="take the file for this kind")
    add_common(one)
    one = word("diff", "where two traces first differ", "The first row in which two traces differ, with what stood on the bus there.",
               "0 the same, 1 they differ, 2 trouble")
    one.add_argument("mine", metavar="MINE")
    one.add_argument("lawful", metavar="LAWFUL")
    one.add_argument("--untimed", action="store_true", help="compare devices and lines, not times")
    add_common(one)
    one = word("stats", "time in each phase, bytes, rates", "Time in each phase, bytes and MB/s, commands, waiting times.",
               "0 lawful, 1 broken, 2 trouble")
    one.add_argument("file", metavar="FILE")
    add_common(one)
    one = word("new", "a scenario from words", "Writes a scenario: one initiator, disks, commands. It is checked by the program.",
               "0 written, 2 trouble")
    one.add_argument("--initiator", type=int, default=7, metavar="D", help="the initiator's ID (7)")
    one.add_argument("--disk", action="append", default=[], metavar="T[.U]:NxSIZE", help="a disk: target, unit, blocks x bytes (0:4096x512)")
    one.add_argument("--boot", action="store_true", help="what a host does first: TEST UNIT READY, INQUIRY, READ CAPACITY, READ of block 0")
    one.add_argument("--read", action="append", default=[], metavar="[T[.U]:]LBA[+N]", help="a READ of N blocks (1)")
    one.add_argument("--write", action="append", default=[], metavar="[T[.U]:]LBA[+N]", help="a WRITE of N blocks (1)")
    one.add_argument("--latency", type=int, default=0, metavar="NS", help="what each device adds to each least delay (0)")
    one.add_argument("--sync", metavar="P,O", help="transfer period factor and offset of both ends, as 50,8 (asynchronous)")
    one.add_argument("--disconnect", action="store_true", help="the targets disconnect after the command")
    one.add_argument("--seek", type=int, default=0, metavar="NS", help="how long a command takes to be ready (0)")
    one.add_argument("--tags", action="store_true", help="commands with SIMPLE QUEUE TAGs")
    one.add_argument("--fault", action="append", default=[], metavar="T:B", help="a fault at T ns on bit B (8: parity)")
    add_common(one, has_json=False)
    one = word("capture", "a trace of a logic analyser's file", "Reads the 18 lines of a bus from a dump (VCD of wires), a table (CSV of Saleae or "
               "sigrok) or a session of sigrok (.sr), works out which device drives what, and writes the trace. With --sample or --verdict: what can "
               "be told of it within the samples, in place of the trace.",
               "0 the trace is written, or lawful within the samples; 1 broken for sure, or cannot be told; 2 trouble")
    one.add_argument("file", metavar="FILE")
    one.add_argument("--sample", type=int, metavar="P", help="a verdict; P ns between two samples")
    one.add_argument("--verdict", action="store_true", help="a verdict; the time between two samples is taken from the file")
    one.add_argument("--witness", metavar="FILE", help="where lawful: write the lawful trace within the samples there")
    one.add_argument("--map", metavar="LINE=WIRE,..", help="names of wires, as BSY=D9,SEL=D10")
    one.add_argument("--low", action="store_true", help="lines are active low, as on the cable (found by itself)")
    one.add_argument("--high", action="store_true", help="lines are active high")
    one.add_argument("--rst", type=int, metavar="D", help="the device that drives RST")
    one.add_argument("--deglitch", action="store_true", help="drop levels that stand for one sample alone")
    add_common(one)
    one = word("decode", "messages and commands of a capture, by sigrok", "Shows phases, messages, commands and status of a file of a logic "
               "analyser by sigrok-cli with the protocol decoder scsi, or installs the decoder for PulseView and live work.",
               "0 done, 2 trouble")
    one.add_argument("file", metavar="FILE", nargs="?")
    one.add_argument("--install", action="store_true", help="put the decoder where sigrok of this user looks")
    one.add_argument("--map", metavar="LINE=WIRE,..", help="names of wires, as BSY=D9,SEL=D10")
    one.add_argument("--high", action="store_true", help="lines are active high")
    one.add_argument("--input", metavar="FORMAT", help="the file's format for sigrok-cli, as csv or vcd")
    one.add_argument("--annotations", metavar="KINDS", help="phase, message, command, status, data, byte, warning (all)")
    one.add_argument("--samples", action="store_true", help="with the numbers of the samples")
    add_common(one, has_json=False)
    one = word("check", "the verdict on many files", "Judges each file: one line a file. A name after @ is a file of names, one a line.",
               "0 all lawful, 1 a file is broken, 2 a file is no trace (and none or some are broken)")
    one.add_argument("files", metavar="FILE", nargs="+")
    one.add_argument("-j", "--jobs", type=int, default=1, metavar="N", help="processes at once (1; 0: one a processor)")
    one.add_argument("--quiet", action="store_true", help="lines of files that are not lawful alone")
    add_common(one)
    return top


def version(judge):
    said = "no program found"
    with contextlib.suppress(Trouble):
        from .judge import program_path

        said = judge.program or program_path()
    return "scsiscope %s over %s\n" % (__version__, said)


class Output:
    """Where the words go: a text as it is, or JSON."""

    def __init__(self, options):
        self.to = options.output
        if self.to is None or self.to == "-":
            self.to = None
            style.set_colours(sys.stdout)

    def write(self, text):
        data = text if isinstance(text, bytes) else text.encode()
        try:
            if self.to:
                with open(self.to, "wb") as out:
                    out.write(data)
            else:
                sys.stdout.buffer.write(data)
                sys.stdout.buffer.flush()
        except BrokenPipeError:
            raise
        except OSError as error:
            raise Trouble("%s: %s" % (self.to or "standard output", error.strerror)) from None

    def write_json(self, value):
        self.write(json.dumps(value, ensure_ascii=False) + "\n")


def main(arguments=None):
    options = parser().parse_args(arguments)
    judge = Judge()
    try:
        if options.program:
            from .judge import program_path

            judge.program = program_path(options.program)
        if options.version:
            sys.stdout.write(version(judge))
            return NOTHING_FOUND
        if options.word is None:
            parser().print_help(sys.stderr)
            return TROUBLE
        from . import words

        return getattr(words, "word_" + options.word)(judge, options, Output(options))
    except Trouble as trouble:
        sys.stderr.write("scsiscope: %s\n" % trouble)
        return TROUBLE
    except BrokenPipeError:
        # Who reads has gone; nothing more is written.
        os.dup2(os.open(os.devnull, os.O_WRONLY), sys.stdout.fileno())
        return TROUBLE
    except KeyboardInterrupt:
        sys.stderr.write("\n")
        return 130
    except MemoryError:
        sys.stderr.write("scsiscope: memory ran out\n")
        return TROUBLE


def command():
    """The command `scsiscope`."""
    sys.exit(main())
