"""Clusters and scripts for the benchmarks of `run`, the program, and one that does its parts without writing."""

import os
import subprocess
import sys

from programs import TOP, rattle_program

PROGRAM = os.path.join(TOP, "crates", "ttpbench", "out", "ttpbench")

# It reads a list and a script, the script so many times more, then tests the hypothesis so many times, and then runs
# them so many times from memory, which reads and tests them each time, into a sink that takes the bytes away with no call
# of the system.
TIMED = """//! Reads, tests and runs a script without the writing: the words are the files of list and script, readings, tests, runs.
#![tactic(auto)]
ghost use Rattle.std.specs.Prelude.{◌≤◌, length};
ghost use Rattle.ttp_world.specs.Medl.{IsValid};

use bench_call::bench;
use hypothesis::keeps;
use medl_text::read_medl;
use script_text::read_script;
use std::alloc::Global;
use std::env::Env;
use std::io::Write;
use std::process::ExitCode;
use std::rt::Files;
use std::sync::Wait;
use std::thread::Threads;
use std::{env, fs, io};
use ttp_base::{List, MemoryLibrary, OpenGate, StreamSink};
use ttp_world::{Keep, Medl};

// How many times the script is read, and tested.
#[derive(Clone, Copy)]
struct Times {
    readings: u32,
    tests: u32,
}

fn main(rt: HostRuntime) -> ExitCode {
    match work(&rt) {
        Ok(true) => ExitCode::from(0),
        _ => ExitCode::from(1),
    }
}

// Whether the words name a list and a script that are read, and three numbers of times.
fn work<R: Env + Files + Threads + Wait + Sync + AllocGlobal>(rt: &R) -> io::Result<bool> {
    let words: Vec<String> = env::args(rt)?.skip(1).collect(rt.alloc())?;
    if words.len() != 5 {
        return Ok(false);
    }
    let Ok(readings) = words[2].as_str().parse::<u32>() else {
        return Ok(false);
    };
    let Ok(tests) = words[3].as_str().parse::<u32>() else {
        return Ok(false);
    };
    let Ok(runs) = words[4].as_str().parse::<u32>() else {
        return Ok(false);
    };
    let times = Times { readings, tests };
    let bytes = fs::read(rt, words[0].as_str())?;
    let text = fs::read(rt, words[1].as_str())?;
    let Ok(list) = read_medl(rt.alloc(), &bytes) else {
        return Ok(false);
    };
    if text.len() > 1_048_576 || !is_done(rt.alloc(), &list, &text, times) {
        return Ok(false);
    }
    for _ in 0..runs {
        if !is_run(rt, &bytes, &text)? {
            return Ok(false);
        }
    }
    Ok(true)
}

// Reads the script once and so many times more, and tests it so many times; whether all was done, and the
// script keeps the hypothesis if it was tested.
fn is_done(alloc: Global, list: &Medl, text: &[u8], times: Times) -> bool
    requires valid { IsValid list.now }
    requires size { length text.now ≤ 1048576 }
{
    for _ in 0..times.readings {
        if read_script(alloc, list, text).is_err() {
            return false;
        }
    }
    let Ok(script) = read_script(alloc, list, text) else {
        return false;
    };
    for _ in 0..times.tests {
        if let Keep::No { .. } = keeps(list, &script) {
            return false;
        }
    }
    true
}

// Whether list and script are run to the end. Behind the writer's type no compiler sees that the bytes are
// not used, and so spares their making.
fn is_run<R: Threads + Wait + Sync + AllocGlobal>(rt: &R, list: &[u8], text: &[u8]) -> io::Result<bool> {
    let mut library = MemoryLibrary::new(rt.alloc(), List::new(rt.alloc()));
    if library.add("list", list).is_err() || library.add("script", text).is_err() {
        return Ok(false);
    }
    let mut words = Vec::new(rt.alloc());
    for word in ["run", "list", "script"] {
        words.push(String::from_str(rt.alloc(), word)?)?;
    }
    let mut nowhere = io::sink();
    let writer: &mut dyn Write = &mut nowhere;
    let mut out = StreamSink::new(writer);
    let gate = OpenGate::new();
    Ok(bench(rt, rt.alloc(), &words, &mut library, &mut out, &gate, &mut None) == 0)
}
"""


def timing_program(folder):
    """The program above, built over a copy of the crates below it."""
    return rattle_program(folder, "run_speed", "ttp_base ttp_world medl_text script_text hypothesis bench_call", TIMED)


def list_text(kinds, data, *, drift=0, error=0, window=1, schedule=0, buffers=4, starters=(0,)):
    """A list with these letters of kinds and bytes of payload for each slot, one of them for each node."""
    version = 1 if len(kinds) <= 16 else 2
    head = f"version = {version}\nrounds = {len(kinds[0])}\nschedule = {schedule}\nbuffers = {buffers}\n"
    clocks = f"drift = {drift}\nerror = {error}\nwindow = {window}\n"
    slots = (
        f'[[slot]]\nkinds = "{letters}"\ndata = {size}\nsync = true\nstart = {"true" if k in starters else "false"}\n'
        for k, (letters, size) in enumerate(zip(kinds, data))
    )
    return head + clocks + "".join(slots)


def script_text(nodes, slots, lines=()):
    """A script that switches all nodes on in slot 0, and has these lines."""
    return f"slots {slots}\n" + "".join(f"on {k} 0\n" for k in range(nodes)) + "".join(f"{line}\n" for line in lines)


def written(folder, name, text):
    """The path of a file of this name in the folder, with this text."""
    path = os.path.join(folder, name)
    with open(path, "w", encoding="ascii") as file:
        file.write(text)
    return path


def program():
    """The program that `./ttpbench` builds."""
    if not os.path.exists(PROGRAM):
        sys.exit("run ./ttpbench once first, which builds the program")
    return PROGRAM


def processor_seconds_of(command, path=os.devnull):
    """How long a command kept a processor, in the program and in the system, whose output goes to this file."""
    with open(path, "wb") as out:
        running = subprocess.Popen(command, stdout=out)
        _, status, used = os.wait4(running.pid, 0)
    running.returncode = os.waitstatus_to_exitcode(status)
    if running.returncode != 0:
        sys.exit(f"status {running.returncode} from {command}")
    return used.ru_utime + used.ru_stime


def unwritten(timing, medl, script, *, readings=0, tests=0, runs=0):
    """The command that reads a script once, and so many times more; then tests it and runs it without writing."""
    return [timing, medl, script, str(readings), str(tests), str(runs)]
