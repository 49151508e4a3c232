#!/usr/bin/env python3
"""Times `read_script` on scripts at half and at the whole of the size limit of 1,048,576 bytes.

The list has 16 nodes. The scripts switch each of them on, and reach their size by comments, by
blank lines, by lines of blanks alone, or by blanks within the 16 `on` lines. So that the reader
alone is timed, its crates are copied into a temporary folder, beside a program that reads one script
again and again and prints how long each time took, which the toolchain's `rt run` proves and builds
there; that takes some minutes.

It prints the least and the median of many readings, and how much longer the whole size takes than
the half. It ends with status 1 where that is 2.5 times or more, which would not be linear.
"""

import os
import shutil
import statistics
import subprocess
import sys
import tempfile

from programs import TOP
from runs import list_text

LIMIT = 1_048_576
NODES = 16
READINGS = 101
MOST_RATIO = 2.5
CRATES = ("ttp_base", "ttp_world", "medl_text", "script_text")

PROGRAM = """\
//! Reads a script several times and prints the nanoseconds that each reading took.
#![tactic(auto)]

use medl_text::read_medl;
use script_text::read_script;
use std::process::ExitCode;
use std::time::Instant;
use std::{env, fs, io};

fn main(rt: HostRuntime) -> ExitCode {
    match timed(&rt) {
        Ok(true) => ExitCode::from(0),
        _ => ExitCode::from(1),
    }
}

// Whether the words name a list and a script that are read, and a number of times.
fn timed(rt: &HostRuntime) -> io::Result<bool> {
    let words: Vec<String> = env::args(rt)?.skip(1).collect(rt.alloc())?;
    if words.len() != 3 {
        return Ok(false);
    }
    let Ok(times) = words[2].as_str().parse::<u32>() else {
        return Ok(false);
    };
    let list = fs::read(rt, words[0].as_str())?;
    let text = fs::read(rt, words[1].as_str())?;
    let Ok(list) = read_medl(rt.alloc(), &list) else {
        return Ok(false);
    };
    if text.len() > 1_048_576 {
        return Ok(false);
    }
    // Between two readings it goes over other bytes, so that each begins with the script in the
    // same, far cache; else the half would stay in a nearer one than the whole.
    let other = vec![in rt.alloc(); 0u8; 8_388_608]?;
    for _ in 0..times {
        let far = other.iter().all(|byte| *byte == 0);
        let start = Instant::now(rt)?;
        let read = read_script(rt.alloc(), &list, &text).is_ok();
        let taken = start.elapsed(rt)?.as_nanos();
        if !far || !read {
            return Ok(false);
        }
        println!(rt; "{taken}")?;
    }
    Ok(true)
}
"""


def on_lines(blanks=1):
    return "slots 20000\n" + "".join(f"on{' ' * blanks}{k} {k}\n" for k in range(NODES))


def filled(size, line):
    """A script with whole lines like this one as far as they fit, and then `on` lines."""
    rest = size - len(on_lines())
    return line * (rest // len(line)) + on_lines() + "#" * (rest % len(line))


def blank_words(size):
    """A script of nothing but `slots` and `on` lines, with the blanks that make the size in them."""
    blanks = (size - len(on_lines(0))) // NODES
    text = on_lines(blanks)
    return text + " " * (size - len(text))


KINDS = (
    ("comments of 64 bytes", lambda size: filled(size, "#" + " comment" * 7 + " of 64\n")),
    ("blank lines", lambda size: filled(size, "\n")),
    ("lines of one tab", lambda size: filled(size, "\t\n")),
    ("blanks within `on` lines", blank_words),
)


def build(folder):
    """The program, built over a copy of the reader's crates."""
    crates = os.path.join(folder, "crates")
    leave = shutil.ignore_patterns("out", "must-fail")
    for name in CRATES:
        shutil.copytree(os.path.join(TOP, "crates", name), os.path.join(crates, name), ignore=leave)
    source = os.path.join(crates, "script_bench", "src")
    os.makedirs(source)
    with open(os.path.join(source, "main.rt"), "w", encoding="ascii") as file:
        file.write(PROGRAM)
    with open(os.path.join(TOP, "crates.txt"), encoding="ascii") as file:
        lines = [line for line in file if line.split(":")[0] in CRATES]
    with open(os.path.join(folder, "crates.txt"), "w", encoding="ascii") as file:
        file.writelines(lines + ["script_bench: " + " ".join(CRATES) + "\n"])
    program = os.path.join(crates, "script_bench", "out", "script_bench")
    done = subprocess.run(
        ["rt", "run"],
        cwd=os.path.join(crates, "script_bench"),
        stdin=subprocess.DEVNULL,
        stdout=subprocess.PIPE,
        stderr=subprocess.STDOUT,
    )
    if not os.path.exists(program):
        sys.exit(done.stdout.decode("utf-8", "replace")[-4000:] + "\nthe program could not be built")
    return program


def times_of(program, listed, script):
    done = subprocess.run([program, listed, script, str(READINGS)], stdout=subprocess.PIPE)
    taken = [int(line) for line in done.stdout.split()]
    if done.returncode != 0 or len(taken) != READINGS:
        sys.exit(f"status {done.returncode}, and {len(taken)} readings of {script}")
    return min(taken) / 1e6, statistics.median(taken) / 1e6


def main():
    with tempfile.TemporaryDirectory() as folder:
        program = build(folder)
        listed = os.path.join(folder, "cluster.toml")
        script = os.path.join(folder, "run.txt")
        with open(listed, "w", encoding="ascii") as file:
            file.write(list_text(["I"] * NODES, [0] * NODES, buffers=2))
        linear = True
        for name, text_of in KINDS:
            least = {}
            for size in (LIMIT // 2, LIMIT):
                text = text_of(size)
                assert len(text) == size, (name, len(text))
                with open(script, "w", encoding="ascii", newline="") as file:
                    file.write(text)
                least[size], median = times_of(program, listed, script)
                lines = text.count("\n")
                print(f"{name:26} {size:8} bytes {lines:8} lines   least {least[size]:7.3f} ms   median {median:7.3f} ms")
            ratio = least[LIMIT] / least[LIMIT // 2]
            linear = linear and ratio < MOST_RATIO
            print(f"{name:26} twice the size takes {ratio:.2f} times as long")
        print(f"each ratio is below {MOST_RATIO}: {'yes' if linear else 'no'}")
        sys.exit(0 if linear else 1)


if __name__ == "__main__":
    main()
