#!/usr/bin/env python3
"""Times look-ups of what happens to the nodes of a slot, in scripts of many `error` events.

It builds a program over ttp_world in a temporary repository, which proves what `rt` has not proved before. In one kind
of script each event covers all slots, in the other one slot. For 4 and for 24 nodes, runs of 2,000 and of 20,000 slots
and 5,000 and 50,000 events it prints the time to make the index and that of a slot, which is one look-up for each node,
by the least time of some runs, and how a slot's time grows from the shorter to the longer run and from the fewer to
the more events; and for the most events that a script may have the time to make the index. The errors that are found
must add up to those that were written. It prints figures alone; nothing passes or fails here.
"""

import sys
import tempfile

from programs import lines_of, rattle_program

RUNS = 5
NODES = (4, 24)
SLOTS = (2_000, 20_000)
EVENTS = (5_000, 50_000)
MOST_EVENTS = 131_072
KINDS = {0: "events of one slot", 1: "events of all slots"}
ROWS = [(nodes, slots, events, whole) for whole in KINDS for nodes in NODES for slots in SLOTS for events in EVENTS]
ROWS += [(24, 20_000, MOST_EVENTS, whole) for whole in KINDS]

INVARIANTS = {"events_of": "(length l.events ≡ l.i) × All IsBounded l.events"}
IMPORTS = """use Rattle.std.proofs.Common.{length}
use Rattle.std.specs.List.{All}
use Rattle.ttp_world.specs.Events.{IsBounded}
"""

RATTLE = """//! Prints for each row and run: nodes, slots, events, kind, nanoseconds of the index and of all look-ups, sum of errors.
#![tactic(auto)]
ghost use Rattle.std.specs.Prelude.{◌≡◌, ◌<◌, ◌≤◌, length, All, IfOk};
ghost use Rattle.ttp_world.specs.Events.{IsBounded};

use std::alloc::Global;
use std::io;
use std::time::{Clock, Instant};
use ttp_base::{List, Memory};
use ttp_world::{Event, Events, LastLookUp, Script};

fn event_of(i: u32, nodes: u8, slots: u32, whole: bool) -> Event
    requires { (0 < nodes) × (0 < slots) }
    ensures { IsBounded result }
{
    let node = (i % u32::from(nodes)) as u8;
    let slot = i % slots;
    Event::Error {
        node,
        value: 1,
        from: if whole { 0 } else { slot },
        to: if whole { slots - 1 } else { slot },
    }
}

fn events_of(alloc: Global, nodes: u8, slots: u32, count: u32, whole: bool) -> Result<List<Event>, Memory>
    requires { (0 < nodes) × (0 < slots) × (count ≤ 131072) }
    ensures count { IfOk result (λ events. length events ≤ 131072) }
    ensures values { IfOk result (All IsBounded) }
{
    let mut events = List::new(alloc);
    for i in 0..count {
        events.push(event_of(i, nodes, slots, whole))?;
    }
    Ok(events)
}

#[inline(never)]
fn sum_of(script: &Script, nodes: u8, slots: u32) -> i64 {
    let mut sum = 0i64;
    let mut last = [LastLookUp::none(); 256];
    for slot in 0..slots {
        for node in 0..nodes {
            let incidents = script.incidents_after(node, slot, &mut last[node as usize]);
            sum = sum.wrapping_add(incidents.error);
        }
    }
    sum
}

fn time_of(
    rt: &(impl Print + Clock + Alloc + AllocGlobal),
    nodes: u8,
    slots: u32,
    count: u32,
    whole: bool,
) -> io::Result<()>
    requires { (0 < nodes) × (0 < slots) × (count ≤ 131072) }
{
    let Ok(events) = events_of(rt.alloc(), nodes, slots, count, whole) else {
        return Ok(());
    };
    let start = Instant::now(rt)?;
    let Ok(events) = Events::index(rt.alloc(), events) else {
        return Ok(());
    };
    let made = start.elapsed(rt)?.as_nanos();
    let script = Script {
        slots,
        on: List::new(rt.alloc()),
        drift: List::new(rt.alloc()),
        events,
    };
    let start = Instant::now(rt)?;
    let sum = sum_of(&script, nodes, slots);
    let asked = start.elapsed(rt)?.as_nanos();
    println!(rt; "{} {} {} {} {} {} {}", nodes, slots, count, whole as u8, made, asked, sum)
}

fn main(rt: HostRuntime) -> io::Result<()> {
    for _ in 0..RUNS {
        LINES
    }
    Ok(())
}
"""


def source():
    """The program's text, with a call for each row."""
    call = "time_of(&rt, {}, {}, {}, {})?;"
    words = {0: "false", 1: "true"}
    calls = "\n        ".join(call.format(*row, words[whole]) for *row, whole in ROWS)
    return RATTLE.replace("LINES", calls).replace("RUNS", str(RUNS))


def figures_of(program):
    """For each row: the least seconds to make the index, and the least nanoseconds of a slot."""
    best = {}
    for line in lines_of(program):
        nodes, slots, events, whole, made, asked, total = (int(part) for part in line)
        if total != (events * slots if whole else events):
            sys.exit(f"the errors of {line} don't add up")
        taken = made / 1e9, asked / slots
        row = nodes, slots, events, whole
        best[row] = tuple(map(min, taken, best.get(row, taken)))
    return best


def main():
    with tempfile.TemporaryDirectory() as folder:
        program = rattle_program(folder, "index_speed", "ttp_base ttp_world", source(), INVARIANTS, "loop-i", IMPORTS)
        best = figures_of(program)
    for (nodes, slots, events, whole), (made, slot) in best.items():
        script = f"{nodes:2d} nodes, {slots:6d} slots, {events:6d} {KINDS[whole]:19s}"
        print(f"{script}  index {made * 1e3:6.1f} ms  {slot:7.1f} ns a slot")
    for whole, kind in KINDS.items():
        for nodes in NODES:
            (short, long), (few, many) = SLOTS, EVENTS
            slot = {row[1:3]: taken for row, (_, taken) in best.items() if row[0] == nodes and row[3] == whole}
            by_slots = max(slot[long, events] / slot[short, events] for events in EVENTS)
            by_events = max(slot[slots, many] / slot[slots, few] for slots in SLOTS)
            growth = f"{by_slots:.2f} times from {short} to {long} slots, {by_events:.2f} times from {few} to {many} events"
            print(f"{nodes:2d} nodes, {kind}: a slot's time grows at most {growth}")


if __name__ == "__main__":
    main()
