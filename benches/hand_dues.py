#!/usr/bin/env python3
"""Times the reactions of the two ends of a data phase: what a million of them cost, the view of the bus after each row with them.

    benches/hand_dues.py

The driver is built in a temporary copy of the crates that it stands on, and stands nowhere else. It selects a target, and then asks
both ends after each row what they do next, and makes the row that comes first, until they have been asked a million times. Prints, for
each kind of phase, the best processor time of some runs in ns for each reaction, without that of a run that asks for none, and how many
bytes crossed.
"""
import pathlib
import tempfile

from driver import build, least_time

ROUNDS = 9
NAME = "hand_bench"
DEPS = "bus_base bus_trace bus_lines reaction_model handshake arrayvec bitflags"
KINDS = ["none", "DATA IN", "DATA OUT", "DATA IN by pulses", "DATA OUT by pulses", "DATA IN by pulses, 254 unanswered"]
DUES = 1_000_000

DRIVER = {
    "src/main.rt": r'''//! Bytes between the two ends of a phase, to time what their reactions cost. As many words as the kind of phase says.
#![tactic(auto)]

ghost use Rattle.std.specs.Prelude.{◌≡◌, ◌<◌, ◌^◌, true};
ghost use Rattle.handshake.specs.Early.{IsEarly};
ghost use Rattle.handshake.specs.Bounds.{IsSteady, IsHandBefore};
ghost use Rattle.hand_bench.specs.Scene.{IsEnd, IsScene};

use bitflags::Flags;
use bus_base::{Dev, Ns};
use bus_lines::{
    BusView, Kind, Lines, Row, TransferTimes, transfer_times, views_are_timely,
};
use reaction_model::{Answering, Due, Hand, Myself, Offering, Pace};
use handshake::hand_due;
use std::{env, io};

const LIMIT: Ns = 0x4000_0000_0000_0000;

const SELECTION: [(Ns, Dev, u32); 6] = [
    (1200, 7, 0x00280),
    (3600, 7, 0x00680),
    (4800, 7, 0x10781),
    (4890, 7, 0x10581),
    (5290, 0, 0x00200),
    (5380, 7, 0x00000),
];

#[derive(Clone, Copy)]
struct Plan {
    pace: Pace,
    into: bool,
}

#[derive(Drop)]
struct Scene {
    view: BusView,
    target: Myself,
    host: Myself,
    raised: Ns,
}

fn see(view: &mut BusView, time: Ns, dev: Dev, lines: Lines)
    requires early { IsEarly view.old }
    requires time { time < 2 ^ 63 }
    requires dev { dev < 8 }
    ensures { IsEarly view.new }
{
    view.step(&Row {
        time,
        dev,
        kind: Kind::Drives(lines),
    });
}

fn due_of(view: &BusView, me: &Myself, plan: &Plan, hand: &Hand) -> Option<Due>
    requires early { IsEarly view.now }
    requires me { IsEnd me.now }
    requires steady { IsSteady plan.now.pace }
    requires hand { IsHandBefore hand.now }
{
    views_are_timely();
    hand_due(true, view, me, &plan.pace, hand, None)
}

fn lines_of(kind: Kind) -> Lines {
    match kind {
        Kind::Drives(lines) => lines,
        Kind::Fault(_) => Lines::none(),
    }
}

fn is_sooner(a: &Option<Due>, b: &Option<Due>) -> bool {
    let Some(a) = a else {
        return false;
    };
    let Some(b) = b else {
        return true;
    };
    a.time < b.time
}

fn end_after(me: &Myself, time: Ns, own: Lines) -> Myself
    requires me { IsEnd me.now }
    requires time { time < 2 ^ 63 }
    ensures { IsEnd result }
{
    Myself {
        dev: me.dev,
        latency: me.latency,
        own,
        since: time,
    }
}

fn act(view: &mut BusView, me: &mut Myself, due: Option<Due>)
    requires early { IsEarly view.old }
    requires me { IsEnd me.old }
    ensures early { IsEarly view.new }
    ensures me { IsEnd me.new }
{
    let Some(due) = due else {
        return;
    };
    if due.time >= LIMIT {
        return;
    }
    let lines = lines_of(due.kind);
    see(view, due.time, me.dev, lines);
    *me = end_after(me, due.time, lines);
}

fn raised_after(host: &Myself, view: &BusView, raised: Ns) -> Ns
    requires host { IsEnd host.now }
    requires raised { raised < 2 ^ 63 }
    ensures { result < 2 ^ 63 }
{
    if host.own.ack() && host.since == view.last_time() {
        host.since
    } else {
        raised
    }
}

// Both ends are asked, and the first that is due makes its row.
fn turn(scene: &mut Scene, plan: &Plan)
    requires scene { IsScene scene.old }
    requires steady { IsSteady plan.now.pace }
    ensures { IsScene scene.new }
{
    let account = scene.view.handshakes();
    let offering = Offering {
        byte: (account.requests() % 251) as u8,
        follows: true,
        to: Lines::none(),
        wait: 0,
    };
    let answering = Answering {
        byte: (account.answers() % 251) as u8,
        attends: false,
        speaks: false,
        raised: scene.raised,
    };
    let target = due_of(&scene.view, &scene.target, plan, &Hand::Target(offering));
    let host = due_of(&scene.view, &scene.host, plan, &Hand::Initiator(answering));
    if is_sooner(&target, &host) {
        act(&mut scene.view, &mut scene.target, target);
    } else {
        act(&mut scene.view, &mut scene.host, host);
    }
    scene.raised = raised_after(&scene.host, &scene.view, scene.raised);
}

fn turns(scene: &mut Scene, plan: &Plan, dues: u64)
    requires scene { IsScene scene.old }
    requires steady { IsSteady plan.now.pace }
    ensures { IsScene scene.new }
{
    for _ in 0..dues / 2 {
        turn(scene, plan);
    }
}

fn selected() -> BusView
    ensures { IsEarly result }
{
    let mut view = BusView::new();
    for (time, dev, bits) in SELECTION {
        if time < LIMIT && dev < 8 {
            see(&mut view, time, dev, Lines::from_bits_retain(bits));
        }
    }
    view
}

fn end_of(dev: Dev, latency: Ns, own: Lines) -> Myself
    requires dev { dev < 8 }
    requires latency { latency < 100 }
    ensures { IsEnd result }
{
    Myself {
        dev,
        latency,
        own,
        since: 9000,
    }
}

fn plan_of(kind: usize, times: TransferTimes) -> Plan {
    Plan {
        pace: Pace {
            pulsed: kind > 2,
            offset: if kind == 5 { 254 } else { 8 },
            times,
            lag: if kind == 5 { 60_000 } else { 0 },
        },
        into: kind != 2 && kind != 4,
    }
}

fn is_steady(pace: &Pace) -> bool
    ensures { result ≡ true → IsSteady pace.now }
{
    pace.times.period < 0x1_0000_0000
        && pace.times.assertion < 0x1_0000_0000
        && pace.times.negation < 0x1_0000_0000
        && pace.times.set_up < 0x1_0000_0000
        && pace.times.hold < 0x1_0000_0000
        && pace.lag < 0x1_0000_0000
}

fn bytes_crossed(kind: usize, times: TransferTimes) -> u64 {
    let plan = plan_of(kind, times);
    if !is_steady(&plan.pace) {
        return 0;
    }
    let phase = if plan.into {
        Lines::BSY.with(Lines::IO)
    } else {
        Lines::BSY
    };
    let mut view = selected();
    see(&mut view, 9000, 0, phase);
    let mut scene = Scene {
        view,
        target: end_of(0, 3, phase),
        host: end_of(7, 5, Lines::none()),
        raised: 0,
    };
    let dues = if kind == 0 { 0 } else { 1_000_000 };
    turns(&mut scene, &plan, dues);
    scene.view.handshakes().answers()
}

fn main(rt: HostRuntime) -> io::Result<()> {
    let Ok(words) = env::args(&rt) else {
        return Ok(());
    };
    let kind = words.skip(1).count();
    let Some(times) = transfer_times(50) else {
        return Ok(());
    };
    let bytes = bytes_crossed(kind, times);
    println!(rt; "{bytes}")
}
''',
    "specs/Lib.antt": "pub mod Scene\n",
    "specs/Scene.antt": r'''-- The two ends of the phase, and the view that they have.
use Rattle.std.specs.Prelude.{◌<◌, ◌^◌}
use Rattle.reaction_model.specs.declared.due.Myself.{Myself}
use Rattle.handshake.specs.Bounds.{IsReady}
use Rattle.handshake.specs.Early.{IsEarly}
use Rattle.hand_bench.specs.declared.Scene.{Scene}

pub record IsEnd (me : Myself) : Type 0 where
  pub dev : me.dev < 8
  pub ready : IsReady me

pub record IsScene (s : Scene) : Type 0 where
  pub early : IsEarly s.view
  pub target : IsEnd s.target
  pub host : IsEnd s.host
  pub raised : s.raised < 2 ^ 63
''',
    "proofs/due_of/Answers.antt": r'''use Rattle.std.proofs.Common.{◌^◌, ◌<◌, arith}
use Rattle.hand_bench.proofs.due_of.Goals as goal

pub hand_due-requires-clause-timely : goal.hand_due-requires-clause-timely
hand_due-requires-clause-timely c =
    let early = c.requires.early in
    c.views_are_timely.ensures (2 ^ 63) (omega arith) early.rows c.args.view.now early.view early.before
''',
    "proofs/turns/Invariants.antt": r'''use Rattle.hand_bench.specs.Scene.{IsScene}
use Rattle.hand_bench.proofs.turns.Given as goal

abbrev pub invariant-loop : goal.invariant-loop
invariant-loop l = IsScene l.scene
''',
    "proofs/selected/Invariants.antt": r'''use Rattle.handshake.specs.Early.{IsEarly}
use Rattle.hand_bench.proofs.selected.Given as goal

abbrev pub invariant-loop-time : goal.invariant-loop-time
invariant-loop-time l = IsEarly l.view
''',
}


def run(program, kind):
    """The least processor time of some runs of this kind, in seconds, and how many bytes crossed."""
    time, said = least_time(ROUNDS, [program] + ["x"] * kind)
    return time, int(said)


def main():
    with tempfile.TemporaryDirectory() as folder:
        program = build(pathlib.Path(folder), NAME, DEPS, DRIVER)
        start, _ = run(program, 0)
        for kind, name in enumerate(KINDS[1:], 1):
            time, count = run(program, kind)
            print("%s: %.1f ns a reaction, %d bytes" % (name, (time - start) / DUES * 1e9, count))


main()
