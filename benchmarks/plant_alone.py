#!/usr/bin/env python3
"""Times `run` beside the plant alone: what rings, ports and reports cost where no host does anything.

It builds a program that takes a plant, which is the controllers with the medium and no rings, through the same
script, counts by itself what each node delivers, and writes the same lines but for the first one. For the two clusters
of `run_by_slots.py`, over 20,000 slots and with the trace to /dev/null and to a file in memory, it prints how long a
processor was at work for each node and slot, less what a run of one slot takes, by the least of some runs of the two
programs in turn, and the ratio. It needs the program that `./ttpbench` builds, and prints figures alone; nothing passes
or fails here, but that both write the same.
"""

import os
import subprocess
import tempfile

from programs import rattle_program
from run_by_slots import CLUSTERS, SHARED
from runs import processor_seconds_of, program, script_text, written

SLOTS = 20_000
SHORT = 500
RUNS = 15

PLANT = """//! Takes a plant through a script in which no host does anything, and writes the trace but for its first
//! line: the words are the files of list and script.
#![tactic(auto)]

ghost use Rattle.std.specs.Prelude.{◌≡◌, ◌<◌, [], ℕ, true, IsTrue, length};
ghost use Rattle.ttp_world.specs.Medl.{IsValid, plan_at};
ghost use Rattle.ttp_world.specs.Script.{IsValidScript};
ghost use Rattle.ttp_world.specs.World.{chosen_of};
ghost use Rattle.controller.specs.PlantStands.{PlantStandsFor};
ghost use Rattle.line_text.specs.LineParts.{HasDigits};

use controller::Plant;
use hypothesis::keeps;
use medl_text::read_medl;
use script_text::read_script;
use std::alloc::Global;
use std::io::BufWriter;
use std::process::ExitCode;
use std::{env, fs, io};
use line_text::{NodeLines, put_keep, put_node_line};
use ttp_base::{Failed, List, Memory, Sink, StreamSink};
use ttp_world::{Chosen, Entry, Medl, NodeState, PAYLOAD_LIMIT, Payload, Script};

// Zeros for each node, as many as its frames have payload.
fn zeros(alloc: Global, list: &Medl) -> Result<Vec<Chosen>, Memory> {
    let none = [0; PAYLOAD_LIMIT];
    let mut all = List::new(alloc);
    for k in 0..list.slots.len() {
        let len = usize::from(list.slots.get(k).payload).min(PAYLOAD_LIMIT);
        let payload = Payload::of(&none[..len]);
        all.push(Chosen { number: 0, payload })?;
    }
    Ok(all.into_vec())
}

// Whether they are as many.
fn fit(list: &Medl, chosen: &[Chosen]) -> bool
    ensures count { result ≡ true → length chosen.now ≡ length list.now.slots }
    ensures sizes { result ≡ true → (k : ℕ) → k < length list.now.slots
        → length (chosen_of chosen.now k).payload ≡ (plan_at list.now k).payload }
{
    if chosen.len() != list.slots.len() {
        return false;
    }
    for k in 0..chosen.len() {
        if chosen[k].payload.bytes().len() != usize::from(list.slots.get(k).payload) {
            return false;
        }
    }
    true
}

// Whether the members fit the digits of the list's traces.
fn has_digits(list: &Medl, state: &NodeState) -> bool
    ensures { IsTrue result → HasDigits list.now state.now }
{
    let limit = if list.is_wide() { 16_777_216 } else { 65_536 };
    state.members.bits() < limit
}

// Counts what a node delivered, and answers how many messages of that sender it has.
fn delivered(plant: &Plant, node: u8, counts: &mut [u64]) -> Option<u64>
    requires { node < length plant.now.list.slots }
{
    let got = plant.delivered(node)?;
    let sender = got.sender;
    let count = counts.get_mut(node as usize * 256 + sender as usize)?;
    *count = count.wrapping_add(1);
    Some(*count)
}

// The message that a line names.
fn message_named(entry: &Entry, delivered: Option<u64>) -> Option<u64> {
    match entry {
        Entry::Sent { message } => *message,
        Entry::Judged { .. } => delivered,
        _ => None,
    }
}

// The lines of a slot.
fn put_slot<K: Sink>(
    list: &Medl,
    slot: u32,
    plant: &Plant,
    counts: &mut [u64],
    lines: &mut NodeLines,
    out: &mut K,
) -> Result<(), Failed>
    requires valid { IsValid list.now }
    requires same { plant.now.list ≡ list.now }
{
    lines.begin(slot);
    for node in 0..list.nodes() {
        let state = plant.node(node);
        let message = message_named(&state.entry, delivered(plant, node, counts));
        if !has_digits(list, &state) {
            return Err(Failed);
        }
        put_node_line(list, node, &state, message, lines, out)?;
    }
    Ok(())
}

// All slots.
fn put_slots<K: Sink>(
    list: &Medl,
    script: &Script,
    plant: &mut Plant,
    chosen: &[Chosen],
    counts: &mut [u64],
    out: &mut K,
) -> Result<(), Failed>
    requires list { IsValid list.now }
    requires script { IsValidScript list.now script.now }
    requires same { plant.old.list ≡ list.now }
    requires stands { PlantStandsFor plant.old script.now [] }
    requires count { length chosen.now ≡ length list.now.slots }
    requires sizes { (k : ℕ) → k < length list.now.slots
        → length (chosen_of chosen.now k).payload ≡ (plan_at list.now k).payload }
{
    let mut lines = NodeLines::new();
    for slot in 0..script.slots {
        plant.slot(list, script, chosen);
        put_slot(list, slot, plant, counts, &mut lines, out)?;
    }
    Ok(())
}

// The lines of all slots, and that of the hypothesis test.
fn put_all<K: Sink>(
    alloc: Global,
    list: &Medl,
    script: &Script,
    out: &mut K,
) -> Result<bool, Memory>
    requires list { IsValid list.now }
    requires script { IsValidScript list.now script.now }
{
    let chosen = zeros(alloc, list)?;
    let messages = chosen.as_slice();
    let mut counts = vec![in alloc; 0u64; 65_536]?;
    let mut plant = Plant::new(alloc, list)?;
    if fit(list, messages) {
        let written = put_slots(list, script, &mut plant, messages, &mut counts, out).is_ok();
        return Ok(written && put_keep(&keeps(list, script), out).is_ok());
    }
    Ok(false)
}

// Whether the words name a list and a script, and all was written.
fn work(rt: &HostRuntime) -> io::Result<bool> {
    let words: Vec<String> = env::args(rt)?.skip(1).collect(rt.alloc())?;
    if words.len() != 2 {
        return Ok(false);
    }
    let bytes = fs::read(rt, words[0].as_str())?;
    let text = fs::read(rt, words[1].as_str())?;
    let Ok(list) = read_medl(rt.alloc(), &bytes) else {
        return Ok(false);
    };
    if text.len() > 1_048_576 {
        return Ok(false);
    }
    let Ok(script) = read_script(rt.alloc(), &list, &text) else {
        return Ok(false);
    };
    let mut out = StreamSink::new(BufWriter::with_capacity(rt.alloc(), 65_536, io::writer(rt))?);
    let written = matches!(put_all(rt.alloc(), &list, &script, &mut out), Ok(true));
    Ok(out.end().is_ok() && written)
}

fn main(rt: HostRuntime) -> ExitCode {
    match work(&rt) {
        Ok(true) => ExitCode::from(0),
        _ => ExitCode::from(1),
    }
}
"""

PROOFS = {
    "fit/Invariants.antt": """use Rattle.std.specs.Prelude.{◌≡◌, ◌<◌, ℕ, length}
use Rattle.ttp_world.specs.Medl.{plan_at}
use Rattle.ttp_world.specs.World.{chosen_of}
use Rattle.plant_alone.proofs.fit.Given as goal

abbrev pub invariant-loop-k : goal.invariant-loop-k
invariant-loop-k l = (j : ℕ) → j < l.k → length (chosen_of l.chosen j).payload ≡ (plan_at l.list j).payload
""",
    "put_slot/Invariants.antt": """use Rattle.std.specs.Prelude.{◌≤◌, length}
use Rattle.plant_alone.proofs.put_slot.Given as goal

abbrev pub invariant-loop-node : goal.invariant-loop-node
invariant-loop-node g l = l.node ≤ length l.list.slots
""",
    "put_slots/Invariants.antt": """use Rattle.std.specs.Prelude.{◌≡◌}
use Rattle.ttp_world.specs.Diary.{History}
use Rattle.controller.specs.PlantStands.{PlantStandsFor}
use Rattle.plant_alone.proofs.put_slots.Given as goal

abbrev pub invariant-loop-slot : goal.invariant-loop-slot
invariant-loop-slot g l =
    (l.plant.list ≡ l.list) × (l.plant.slot ≡ l.slot) × ((history : History) × PlantStandsFor l.plant l.script history)
""",
    "put_slots/Answers.antt": """use Rattle.std.proofs.Common.{◌≡◌, ℕ, ◌<◌, length, subst, sym}
use Rattle.ttp_world.specs.declared.medl.Medl.{Medl}
use Rattle.ttp_world.specs.Medl.{plan_at}
use Rattle.ttp_world.specs.World.{chosen_of}
use Rattle.controller.proofs.Payloads.{sized-step}
use Rattle.plant_alone.proofs.put_slots.Goals as goal

pub slot-requires-clause-chosen : goal.slot-requires-clause-chosen
slot-requires-clause-chosen g c =
    sized-step c.args.chosen.now c.loop-slot.invariant.2.1
    (subst (λ (l : Medl). (k : ℕ) → k < length l.slots
    → length (chosen_of c.args.chosen.now k).payload ≡ (plan_at l k).payload) (sym c.loop-slot.invariant.0)
    c.requires.sizes)
""",
    "put_all/Answers.antt": """use Rattle.plant_alone.proofs.put_all.Goals as goal

pub put_slots-requires-clause-stands : goal.put_slots-requires-clause-stands
put_slots-requires-clause-stands g c = c.in_ok-plant.ensures.stands c.args.script.now

pub put_slots-requires-clause-count : goal.put_slots-requires-clause-count
put_slots-requires-clause-count g c = c.fit.ensures.count c.if-fit.true

pub put_slots-requires-clause-sizes : goal.put_slots-requires-clause-sizes
put_slots-requires-clause-sizes g c = c.fit.ensures.sizes c.if-fit.true
""",
}

USES = "ttp_base ttp_world medl_text script_text hypothesis controller line_text"


def lines_of_run(command):
    return subprocess.run(command, check=True, capture_output=True, text=True).stdout.splitlines()


def places():
    """What the traces are written to: nothing, and a file in memory where there is one."""
    yield "to /dev/null", os.devnull
    if os.path.isdir(SHARED):
        with tempfile.NamedTemporaryFile(dir=SHARED) as file:
            yield "to a file in memory", file.name


def main():
    with tempfile.TemporaryDirectory() as folder:
        alone = rattle_program(folder, "plant_alone", USES, PLANT, proofs=PROOFS)
        for name, (nodes, listed, lines) in CLUSTERS.items():
            medl = written(folder, "cluster.toml", listed)
            scripts = {
                slots: written(folder, f"{slots}.script", script_text(nodes, slots, lines(slots) if slots > 1 else []))
                for slots in (1, SHORT, SLOTS)
            }
            ways = {"through the plant alone": [alone], "run": [program(), "run"]}
            short = [lines_of_run([*way, medl, scripts[SHORT]]) for way in ways.values()]
            if short[0] != short[1][1:]:
                raise SystemExit(f"{name}: the traces differ")
            for where, path in places():
                least = {}
                for _ in range(RUNS):
                    for way, words in ways.items():
                        for slots in (1, SLOTS):
                            taken = processor_seconds_of([*words, medl, scripts[slots]], path)
                            least[way, slots] = min(taken, least.get((way, slots), taken))
                figures = {way: (least[way, SLOTS] - least[way, 1]) * 1e9 / (nodes * (SLOTS - 1)) for way in ways}
                told = "".join(f"   {way} {figure:6.1f} ns" for way, figure in figures.items())
                ratio = figures["run"] / figures["through the plant alone"]
                print(f"{name}, {where}:{told}   ratio {ratio:.2f}")


if __name__ == "__main__":
    main()
