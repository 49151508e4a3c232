#!/usr/bin/env python3
"""Times `verify` beside `run`: 20,000 slots of 8 nodes whose hosts write and read in each slot.

The lists and scripts are those of `hosts.py`. `run` writes its trace to a file in the machine's memory, where it has one,
and `verify` reads it there. Printed are nanoseconds a slot, by the clock and by how long processors were at work, each the
least of some calls, with the part of `run` that `verify` takes; then the most memory that `verify` held, less the text, for
2,000 and for 20,000 slots without host lines; and what the dearest texts cost: one whose last line is wrong, and one that is no trace at all.

It needs the program that `./ttpbench` builds, and prints figures alone; nothing passes or fails here.
"""

import os
import subprocess
import sys
import tempfile

from hosts import NODES, RUNS, SLOTS, host_lines, seconds_of
from peak import memory_of
from runs import list_text, program, script_text, written


def work_of(command, status):
    """The seconds of a command that ends with this status, by the clock and of processors, each the least of some."""
    taken = []
    for _ in range(RUNS):
        try:
            taken.append(seconds_of(command))
        except SystemExit:
            begin = os.times()
            ended = subprocess.run(command, stdout=subprocess.DEVNULL, check=False).returncode
            if ended != status:
                sys.exit(f"status {ended} from {command}")
            end = os.times()
            used = end.children_user + end.children_system - begin.children_user - begin.children_system
            taken.append((end.elapsed - begin.elapsed, used))
    return min(clock for clock, _ in taken), min(work for _, work in taken)


def told(name, seconds, slots=SLOTS):
    clock, work = (value * 1e9 / slots for value in seconds)
    print(f"{name:32s} {clock:9.0f} ns a slot by the clock   {work:9.0f} ns of processors")


def main():
    medl_text = list_text(["NXNX"] * NODES, [16] * NODES, drift=1, error=2, window=64, schedule=4660)
    place = "/dev/shm" if os.path.isdir("/dev/shm") else None
    with tempfile.TemporaryDirectory(dir=place) as folder:
        medl = written(folder, "cluster.toml", medl_text)

        def traced(name, slots, lines):
            """A script, and its trace."""
            script = written(folder, f"{name}.script", script_text(NODES, slots, lines))
            trace = os.path.join(folder, f"{name}.trace")
            with open(trace, "wb") as out:
                subprocess.run([program(), "run", medl, script], stdout=out, check=True)
            return script, trace

        hosts, trace = traced("hosts", SLOTS, host_lines(SLOTS))
        quiet, quiet_trace = traced("quiet", SLOTS, [])
        print(f"{NODES} nodes, {SLOTS} slots, {len(host_lines(SLOTS))} host lines; {os.path.getsize(trace)} bytes of trace")
        for name, script, text in (("hosts", hosts, trace), ("no hosts", quiet, quiet_trace)):
            run = work_of([program(), "run", medl, script], 0)
            verify = work_of([program(), "verify", medl, script, text], 0)
            told(f"run, {name}", run)
            told(f"verify, {name}", verify)
            print(f"{'verify as a part of run':32s} {verify[0] / run[0]:9.2f}    by the clock   {verify[1] / run[1]:9.2f}    of processors")

        # A command is asked for its memory while it waits to write, and "same" is too short for that: each last line is wrong.
        few, few_trace = traced("few", SLOTS // 10, [])
        for script, text in ((few, few_trace), (quiet, quiet_trace)):
            with open(text, "r+b") as file:
                file.seek(-2, os.SEEK_END)
                file.write(b"?\n")
            size = os.path.getsize(text) // 1024
            held = memory_of([program(), "verify", medl, script, text])
            print(f"memory: {held} KiB, of which {size} KiB are the text, {held - size} KiB the rest")

        with open(trace, "rb") as file:
            whole = file.read()
        wrong = os.path.join(folder, "wrong.trace")
        with open(wrong, "wb") as file:
            file.write(whole[:-2] + b"?\n")
        told("the last line is wrong", work_of([program(), "verify", medl, hosts, wrong], 1))
        with open(wrong, "wb") as file:
            file.write(b"slot 0 node 0 wait peer - msg - mem 0000 acc 0 rej 0 ack none clock 0\n" * (134_217_728 // 70))
        told("134 MB of other lines", work_of([program(), "verify", medl, hosts, wrong], 1))


if __name__ == "__main__":
    main()
