#!/usr/bin/env python3
"""Times `run` where hosts write and read: 20,000 slots of 8 nodes whose frames carry 16 bytes.

A host writes in every third slot, and in each slot one reads its status and one reads another node's messages. It is timed
on all processors, on two and on one, and beside twice as many busy programs as there are processors. Beside it stand the
same list and slots without host lines, and a program that it builds, which starts and joins as many threads as a run would
that started them in each slot, one after another, and has them do nothing. Printed are nanoseconds a slot, by the clock and
by how long processors were at work, each the least of some runs with the trace to /dev/null.

It prints the most memory that the process held, for 2,000 and for 20,000 slots: with the same number of host lines, which
shows what slots cost, and with as many in each slot, which shows what lines do. Last come scripts at the limit: as many
host lines as a file of 1,048,576 bytes can have, and the same with one more byte.

It needs the program that `./ttpbench` builds, and prints figures alone; nothing passes or fails here.
"""

import contextlib
import os
import subprocess
import sys
import tempfile
import time

from peak import memory_of
from programs import rattle_program
from runs import list_text, program, script_text, written

NODES = 8
SLOTS = 20_000
RUNS = 7
LIMIT = 1_048_576
BARE = """//! Starts and joins threads that do nothing, as many as its word says.
#![tactic(auto)]

use std::env;
use std::process::ExitCode;
use std::thread::join;

fn main(rt: HostRuntime) -> ExitCode {
    let Ok(words) = env::args(&rt) else {
        return ExitCode::from(1);
    };
    for word in words.skip(1) {
        let Ok(count) = word.as_str().parse::<u32>() else {
            return ExitCode::from(1);
        };
        for _ in 0..count {
            join(&rt, || {}, || {});
        }
    }
    ExitCode::from(0)
}
"""


def host_lines(slots, step=1):
    """A write in every third slot, and two reads in each; of the slots that are so many apart."""
    lines = []
    for t in range(0, slots, step):
        node = t % NODES
        if t // step % 3 == 0:
            lines.append(f"write {node} {t} {t:032x}")
        lines.append(f"read {(node + 1) % NODES} {t} status")
        lines.append(f"read {(node + 2) % NODES} {t} {node}")
    return lines


def joins_in(slots):
    """How many threads a run with these lines would start: one for a write beside a fetch, and two where hosts read."""
    return 2 * slots + (slots + 2) // 3


def seconds_of(command):
    """The seconds of a command by the clock, and those that processors were at work for it."""
    with open(os.devnull, "wb") as out:
        begin = time.monotonic()
        running = subprocess.Popen(command, stdout=out)
        _, status, used = os.wait4(running.pid, 0)
        taken = time.monotonic() - begin
    running.returncode = os.waitstatus_to_exitcode(status)
    if running.returncode != 0:
        raise SystemExit(f"status {running.returncode} from {command}")
    return taken, used.ru_utime + used.ru_stime


def least(command):
    taken = [seconds_of(command) for _ in range(RUNS)]
    return min(clock for clock, _ in taken), min(work for _, work in taken)


@contextlib.contextmanager
def busy_programs(count):
    """So many programs that do nothing else than keep a processor at work."""
    running = [subprocess.Popen([sys.executable, "-c", "while True: pass"]) for _ in range(count)]
    try:
        time.sleep(1)
        yield
    finally:
        for one in running:
            one.kill()
        for one in running:
            one.wait()


@contextlib.contextmanager
def processors(count):
    """What is started meanwhile has so many processors."""
    all_of_them = os.sched_getaffinity(0)
    os.sched_setaffinity(0, sorted(all_of_them)[:count])
    try:
        yield
    finally:
        os.sched_setaffinity(0, all_of_them)


def told(name, seconds):
    clock, work = (value * 1e9 / SLOTS for value in seconds)
    return f"{name:32s} {clock:9.0f} ns a slot by the clock   {work:9.0f} ns of processors"


def longest_script():
    """As many host lines as a file at the limit can have, all of them reads of one slot, and how many these are."""
    head, line = "slots 1\n", "read 0 0 1\n"
    count = (LIMIT - len(head) + 1) // len(line)
    text = head + line * count
    return text[:LIMIT] + "\n" * (LIMIT - len(text)), count


def answer(medl, script):
    ran = subprocess.run([program(), "run", medl, script], capture_output=True, text=True, check=False)
    reads = sum(" read " in line for line in ran.stdout.splitlines())
    return f"status {ran.returncode}, {reads} lines of reads, ends with: {ran.stdout[-40:].splitlines()[-1:]}"


def main():
    medl_text = list_text(["NXNX"] * NODES, [16] * NODES, drift=1, error=2, window=64, schedule=4660)
    with tempfile.TemporaryDirectory() as folder:
        medl = written(folder, "cluster.toml", medl_text)

        def script(name, slots, lines):
            return written(folder, name, script_text(NODES, slots, lines))

        hosts = script("hosts.script", SLOTS, host_lines(SLOTS))
        quiet = script("quiet.script", SLOTS, [])
        print(f"{NODES} nodes, {SLOTS} slots, {len(host_lines(SLOTS))} host lines")
        print(told("with hosts", least([program(), "run", medl, hosts])))
        for count in (2, 1):
            with processors(count):
                print(told(f"with hosts, {count} processors", least([program(), "run", medl, hosts])))
        busy = 2 * len(os.sched_getaffinity(0))
        with busy_programs(busy):
            print(told(f"with hosts, {busy} busy programs", least([program(), "run", medl, hosts])))
        print(told("without", least([program(), "run", medl, quiet])))
        bare = rattle_program(folder, "bare_joins", "", BARE)
        print(told(f"{joins_in(SLOTS)} bare joins", least([bare, str(joins_in(SLOTS))])))
        short = SLOTS // 10
        same = script("spread.script", SLOTS, host_lines(SLOTS, 10))
        for name, slots, path in (
            ("short, lines in each slot", short, script("short.script", short, host_lines(short))),
            ("long, as many lines", SLOTS, same),
            ("long, lines in each slot", SLOTS, hosts),
            ("long, no host lines", SLOTS, quiet),
        ):
            print(f"{name:28s} {slots:6d} slots   memory {memory_of([program(), 'run', medl, path])} KiB")
        text, count = longest_script()
        pair = written(folder, "pair.toml", list_text(["N"] * 4, [1] * 4))
        print(f"{len(text)} bytes, {count} host lines: {answer(pair, written(folder, 'limit.script', text))}")
        print(f"{len(text) + 1} bytes: {answer(pair, written(folder, 'past.script', text + ' '))}")


if __name__ == "__main__":
    main()
