#!/usr/bin/env python3
"""Times a million answers of `link_due`: what a device is due to do on its way to a connection.

    benches/link_dues.py

The driver is built in a temporary copy of the crates that it stands on, and stands nowhere else. After each row of an arbitration and a
selection, over and over, it asks that of all eight devices. Prints the best processor time of some runs in seconds, and that for each
answer and each row in ns; the time of a row has the step of the view and eight answers.
"""
import pathlib
import tempfile

from driver import build, least_time

ROUNDS = 9
DEVICES = 8
NAME = "link_bench"
DEPS = "bus_base bus_trace bus_lines reaction_model connect arrayvec bitflags"

DRIVER = {
    "src/main.rt": r'''//! A bench: over and over through one arbitration and selection, after each row, what each of the eight devices is due to do
//! on its way to a connection. It prints how often it asked, and how often something was due. `benches/link_dues.py` times it.
#![tactic(auto)]

ghost use Rattle.std.specs.Prelude.{◌<◌, ◌≤◌};
ghost use Rattle.bus_lines.specs.Timely.{IsTimely, IsBefore};
ghost use Rattle.connect.specs.Ready.{time_limit};

use bitflags::Flags;
use bus_lines::{BusView, views_are_timely};
use bus_trace::{Kind, Lines, Row};
use reaction_model::{Myself, Want};
use connect::link_due;
use std::io;

/// The rows of a round: time, device and lines. Three devices contend, 7 wins and selects 5.
const ROWS: [(u32, u8, u32); 12] = [
    (1200, 7, 0x00280),
    (1200, 6, 0x00240),
    (1200, 5, 0x00220),
    (3600, 7, 0x00680),
    (3600, 6, 0x00000),
    (3600, 5, 0x00000),
    (4800, 7, 0x107a0),
    (4890, 7, 0x105a0),
    (5290, 5, 0x00200),
    (5380, 7, 0x10000),
    (5400, 7, 0x00000),
    (6000, 5, 0x00000),
];

/// The length of a round, in ns.
const ROUND: u64 = 6000;

fn want_of(dev: u8) -> Want
    ensures { IsBefore time_limit result.since }
{
    let wants = dev >= 5;
    Want {
        since: if wants { Some(0) } else { None },
        callee: Some(if dev == 5 { 7 } else { 5 }),
        reselects: dev == 5,
        first: 0x80,
    }
}

// How many of the eight devices are due to do something; `time` is that of the last row of each.
fn count_due(view: &BusView, time: u64) -> u32
    requires timely { IsTimely time_limit view.now }
    requires time { time < time_limit }
    ensures { result ≤ 8 }
{
    let mut count = 0;
    for dev in 0..8u8 {
        let me = Myself {
            dev,
            latency: 0,
            own: view.drives(dev),
            since: time,
        };
        let want = want_of(dev);
        if link_due(view, &me, &want, None).is_some() {
            count += 1;
        }
    }
    count
}

// The row of this number, the first being 0.
fn row_at(k: u32) -> Row
    ensures dev { result.dev < 8 }
    ensures time { result.time < time_limit }
{
    let (time, dev, bits) = ROWS[(k % 12) as usize];
    Row {
        time: (k / 12) as u64 * ROUND + time as u64,
        dev: dev % 8,
        kind: Kind::Drives(Lines::from_bits_retain(bits)),
    }
}

fn main(rt: HostRuntime) -> io::Result<()> {
    let mut view = BusView::new();
    let mut due = 0u32;
    for k in 0..125_004u32 {
        let row = row_at(k);
        view.step(&row);
        views_are_timely();
        due += count_due(&view, row.time);
    }
    println!(rt; "{} asked, {due} due", 8 * 125_004)?;
    Ok(())
}
''',
    "proofs/count_due/Invariants.antt": r'''use Rattle.std.proofs.Common.{◌≤◌}
use Rattle.link_bench.proofs.count_due.Given as goal

-- At most one row is due of each device.
abbrev pub invariant-loop-dev : goal.invariant-loop-dev
invariant-loop-dev l = l.count ≤ l.dev
''',
    "proofs/main/Answers.antt": r'''use Rattle.std.proofs.Common.{◌<◌, ◌∷◌, arith}
use Rattle.connect.specs.Ready.{time_limit}
use Rattle.link_bench.proofs.main.Goals as goal

pub count_due-requires-clause-timely : goal.count_due-requires-clause-timely
count_due-requires-clause-timely c =
    let past = c.loop-k.invariant.view in
    let some : 0 < time_limit = omega arith in
    c.views_are_timely.ensures time_limit some (c.row_at-row.result ∷ past.0) c.step.new.self (c.step.ensures.trace past.0 past.1) (c.row_at-row.ensures.time, past.2)

pub loop-k-preserved : goal.loop-k-preserved
loop-k-preserved c =
    let past = c.loop-k.invariant.view in
    record {
      view = (c.row_at-row.result ∷ past.0, c.step.ensures.trace past.0 past.1, (c.row_at-row.ensures.time, past.2));
      due = omega (arith, c.loop-k.invariant.due, c.count_due.ensures);
    }
''',
    "proofs/main/Invariants.antt": r'''use Rattle.std.proofs.Common.{◌<◌, ◌≤◌, ◌*◌, List}
use Rattle.std.specs.List.{AllByRecursion}
use Rattle.bus_trace.specs.declared.Row.{Row}
use Rattle.bus_lines.specs.BusView.{IsBusViewOf}
use Rattle.connect.specs.Ready.{time_limit}
use Rattle.link_bench.proofs.main.Given as goal

-- The view is that of some rows, all before the limit; at most eight rows are due of each.
abbrev pub invariant-loop-k : goal.invariant-loop-k
invariant-loop-k l = record {
  view : (past : List Row) × IsBusViewOf past l.view × AllByRecursion (λ (row : Row). row.time < time_limit) past;
  due : l.due ≤ 8 * l.k;
}
''',
}


def main():
    with tempfile.TemporaryDirectory() as folder:
        best, answer = least_time(ROUNDS, [build(pathlib.Path(folder), NAME, DEPS, DRIVER)])
    asked = int(answer.split(" ")[0])
    print("%s: %.3f s, %.1f ns an answer, %.0f ns a row" % (answer, best, best / asked * 1e9, best / asked * DEVICES * 1e9))


main()
