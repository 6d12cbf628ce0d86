#!/usr/bin/env python3
"""Times the calls of an initiator: what it costs to see a row, and to say what is due, with many commands that are done.

    benches/initiator_calls.py [--instructions]

The driver is built in a temporary copy of the crates that it stands on, and stands nowhere else. It makes an initiator of 16, 256 or
4,096 commands, of which all but the last eight have ended, and then goes over and over through an arbitration and a selection of other
devices. Prints, for each number of commands, the best processor time of some runs in ns for each row seen, each row seen that shows the
end of a command, and each answer of what is due, without that of a run in which the initiator is called not at all. With `--instructions`
it counts the instructions of one run in place of its time (valgrind), which other work on the machine does not change.
"""
import pathlib
import re
import subprocess
import sys
import tempfile

from driver import build, least_time

ROUNDS = 7
NAME = "initiator_bench"
DEPS = (
    "bus_base bus_trace bus_lines msg_grammar bus_phases bus_rules cdb_codec scenario array_model story_model io_pointers reaction_model "
    "connect handshake dialogue_model sync_nego due_model scsi_device initiator text_words arrayvec bitflags"
)
COMMANDS = [16, 256, 4096]
KINDS = ["none", "a row", "a row with an end", "an answer"]
CALLS = 480_000

DRIVER = {
    "src/main.rt": r'''//! A bench of an initiator's calls. The words are one for each doubling of 16 commands, then a dash, then one for each kind.
#![tactic(auto)]

ghost use Rattle.std.specs.Prelude.{◌≡◌, ◌==◌, ◌<◌, ◌-◌, ◌^◌, is_some};
ghost use Rattle.std.specs.List.{find};
ghost use Rattle.scenario.specs.declared.value.HostDef.{HostDef};
ghost use Rattle.bus_lines.specs.Timely.{IsTimely};

use bitflags::Flags;
use bus_base::{Dev, Event, ProcId};
use dialogue_model::Observer;
use bus_lines::views_are_timely;
use bus_trace::{Kind, Lines, Row};
use initiator::Host;
use scenario::{HostDef, read};
use std::alloc::{AllocError, Global};
use std::{env, io};

/// The rows of a round: time, device and lines. Two devices contend, 6 wins, selects 5, and lets it go.
const ROWS: [(u32, u8, u32); 12] = [
    (1200, 6, 0x00240),
    (1200, 4, 0x00210),
    (3600, 6, 0x00640),
    (3600, 4, 0x00000),
    (4800, 6, 0x10760),
    (4890, 6, 0x10560),
    (5290, 5, 0x00200),
    (5380, 6, 0x10000),
    (5400, 6, 0x00000),
    (5500, 5, 0x03a00),
    (5600, 5, 0x02a00),
    (6000, 5, 0x00000),
];

/// The length of a round, in ns.
const ROUND: u64 = 10_000;

/// How many rows there are.
const COUNT: u32 = 480_000;

/// The commands that are left.
const LEFT: u32 = 8;

fn text_of(alloc: Global, commands: u32) -> Result<String, AllocError> {
    let mut text = String::from_str(
        alloc,
        "scsi 1\ninitiator 7 latency 0 open 32 retries 1 sync 0 0 lag 0\n\
        target 0 latency 0 retries 2 disc never pick first seek 0 sync 0 0\n",
    )?;
    for _ in 0..commands {
        text.push_str("cmd 7 0 0 at 1000000000000 untagged cdb 000000000000 none\n")?;
    }
    text.push_str("end\n")?;
    Ok(text)
}

fn has_host(hosts: &[HostDef], dev: Dev) -> bool
    ensures { result ≡ is_some (find (λ (h : HostDef). h.dev == dev) hosts.now) }
{
    for def in hosts {
        if def.dev == dev {
            return true;
        }
    }
    false
}

fn host_in(alloc: Global, text: &[u8]) -> Option<Host> {
    let Ok(scenario) = read(alloc, text) else {
        return None;
    };
    if !has_host(scenario.hosts.as_slice(), 7) {
        return None;
    }
    Host::new(alloc, &scenario, 7).ok()
}

// The row of this number, the first being 0.
fn row_at(k: u32) -> Row
    ensures dev { result.dev < 8 }
    ensures time { result.time < 2 ^ 63 }
{
    let (time, dev, bits) = ROWS[(k % 12) as usize];
    Row {
        time: (k / 12) as u64 * ROUND + time as u64,
        dev: dev % 8,
        kind: Kind::Drives(Lines::from_bits_retain(bits)),
    }
}

// The command after so many others ends GOOD.
fn end_of(others: u32) -> Event
    requires { others < 2 ^ 32 - 1 }
{
    let id = ProcId {
        command: ((others + 1) % 0xffff) as u16,
        sense: false,
    };
    Event::End(id, 0)
}

// All but the last end.
fn end_all(host: &mut Host, observer: &Observer, row: &Row, commands: u32)
    requires timely { IsTimely (2 ^ 63) observer.now.view }
    requires dev { row.now.dev < 8 }
{
    for number in LEFT..commands {
        host.see(observer, row, [end_of(number - LEFT)].as_slice());
    }
}

// One call of this kind: whether something is due.
fn call(host: &mut Host, observer: &Observer, row: &Row, kind: usize) -> bool
    requires timely { IsTimely (2 ^ 63) observer.now.view }
    requires dev { row.now.dev < 8 }
{
    if kind == 1 {
        host.see(observer, row, [].as_slice());
    }
    if kind == 2 {
        host.see(observer, row, [end_of(0)].as_slice());
    }
    kind == 3 && host.due(observer, None).is_some()
}

fn turn(host: &mut Host, observer: &Observer, row: &Row, commands: u32, kind: usize, first: bool) -> bool
    requires timely { IsTimely (2 ^ 63) observer.now.view }
    requires dev { row.now.dev < 8 }
{
    if first {
        end_all(host, observer, row, commands);
    }
    call(host, observer, row, kind)
}

// How often something was due.
fn dues(host: &mut Host, commands: u32, kind: usize) -> u32 {
    views_are_timely();
    let mut observer = Observer::new();
    let mut dues = 0u32;
    for k in 0..COUNT {
        let row = row_at(k);
        observer.step(&row);
        if turn(host, &observer, &row, commands, kind, k == 0) {
            dues = dues.saturating_add(1);
        }
    }
    dues
}

fn main(rt: HostRuntime) -> io::Result<()> {
    let Ok(words) = env::args(&rt) else {
        return Ok(());
    };
    let count = words.skip(1).count();
    let commands = match count / 4 {
        0 => 16,
        1 => 256,
        _ => 4096,
    };
    let Ok(text) = text_of(rt.alloc(), commands) else {
        return Ok(());
    };
    let Some(mut host) = host_in(rt.alloc(), text.as_bytes()) else {
        return Ok(());
    };
    let due = dues(&mut host, commands, count % 4);
    println!(rt; "{due}")
}
''',
    "proofs/has_host/Invariants.antt": r'''use Rattle.std.specs.Prelude.{◌≡◌, ◌==◌, drop}
use Rattle.std.specs.List.{find}
use Rattle.scenario.specs.declared.value.HostDef.{HostDef}
use Rattle.initiator_bench.proofs.has_host.Given as goal

abbrev pub invariant-loop-def : goal.invariant-loop-def
invariant-loop-def l =
    find (λ (h : HostDef). h.dev == l.dev) (drop l.def-index l.hosts) ≡ find (λ (h : HostDef). h.dev == l.dev) l.hosts
''',
    "proofs/dues/Invariants.antt": r'''use Rattle.std.proofs.Common.{◌<◌, ◌^◌, List}
use Rattle.std.specs.List.{AllByRecursion}
use Rattle.bus_trace.specs.declared.Row.{Row}
use Rattle.dialogue_model.specs.Observer.{IsObserverOf}
use Rattle.initiator_bench.proofs.dues.Given as goal

-- The observer is that of some rows, all before the limit.
abbrev pub invariant-loop-k : goal.invariant-loop-k
invariant-loop-k l = (past : List Row) × IsObserverOf past l.observer × AllByRecursion (λ (row : Row). row.time < 2 ^ 63) past
''',
    "proofs/dues/Answers.antt": r'''use Rattle.std.proofs.Common.{◌^◌, ◌<◌, ◌∷◌, arith}
use Rattle.initiator_bench.proofs.dues.Goals as goal

pub turn-requires-clause-timely : goal.turn-requires-clause-timely
turn-requires-clause-timely c =
    let past = c.loop-k.invariant in
    let some : 0 < 2 ^ 63 = omega arith in
    let told = c.step.ensures past.0 past.1 in
    c.views_are_timely.ensures (2 ^ 63) some (c.row_at-row.result ∷ past.0) c.step.new.self.view told.view_is (c.row_at-row.ensures.time, past.2)
''',
}


def words_of(program, place, kind):
    return [program] + ["x"] * (4 * place + kind)


def time_of(program, place, kind):
    """The least processor time of some runs, in ns."""
    time, said = least_time(ROUNDS, words_of(program, place, kind))
    if not said:
        sys.exit("no initiator was made")
    return time * 1e9


def instructions_of(program, place, kind):
    """The instructions of one run."""
    words = ["valgrind", "--tool=callgrind", "--callgrind-out-file=/dev/null"] + words_of(program, place, kind)
    run = subprocess.run(words, stdin=subprocess.DEVNULL, capture_output=True, check=True, text=True)
    if not run.stdout.strip():
        sys.exit("no initiator was made")
    return int(re.search(r"Collected : (\d+)", run.stderr).group(1))


def main():
    measure, unit = (instructions_of, "instructions") if sys.argv[1:] == ["--instructions"] else (time_of, "ns")
    with tempfile.TemporaryDirectory() as folder:
        program = build(pathlib.Path(folder), NAME, DEPS, DRIVER)
        for place, commands in enumerate(COMMANDS):
            start = measure(program, place, 0)
            costs = ["%s %.1f %s" % (name, (measure(program, place, kind) - start) / CALLS, unit) for kind, name in enumerate(KINDS) if kind]
            print("%d commands: %s" % (commands, ", ".join(costs)), flush=True)


main()
