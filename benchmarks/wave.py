#!/usr/bin/env python3
"""Times `ttplab wave` and `ttplab picture` beside `ttpbench verify`, over traces of 24 nodes.

Printed are, for each of the three, the instructions of a node and slot by valgrind's callgrind, a trace of 1,000 slots less
one of a single slot; how long a processor was at work for 20,000 slots, in the program and in the system, by the least of
some runs; and both as multiples of `verify`. `picture` shows the slots that it chooses itself. Then come the bytes of the
trace of 20,000 slots and the most memory that `wave` and `picture` held beside them. The same once more for a trace in which
hosts write and read, by the lines of `hosts.py`.

It needs the programs that `./prove` builds, or the paths of two, first that of ttplab and then that of ttpbench. It prints
figures alone; nothing passes or fails here.
"""

import os
import subprocess
import sys
import tempfile

from hosts import host_lines
from instructions import counted
from peak import memory_of
from programs import TOP
from runs import list_text, processor_seconds_of, script_text, written

NODES = 24
FEW, SLOTS = 1_000, 20_000
RUNS = 5


def built(name):
    """The program of this name that `./prove` builds."""
    path = os.path.join(TOP, "crates", name, "out", name)
    if not os.path.exists(path):
        sys.exit("run ./prove first, which builds the programs")
    return path


def traced(bench, folder, medl, name, slots, lines):
    """A script, and its trace."""
    script = written(folder, f"{name}{slots}.script", script_text(NODES, slots, lines))
    trace = os.path.join(folder, f"{name}{slots}.trace")
    with open(trace, "wb") as out:
        subprocess.run([bench, "run", medl, script], stdout=out, check=True)
    return script, trace


def main():
    lab, bench = sys.argv[1:3] if len(sys.argv) == 3 else (built("ttplab"), built("ttpbench"))
    place = "/dev/shm" if os.path.isdir("/dev/shm") else None
    with tempfile.TemporaryDirectory(dir=place) as folder:
        medl = written(folder, "cluster.toml", list_text(["NXNX"] * NODES, [16] * NODES, drift=1, error=2, window=64))
        for name, lines in (("no hosts", lambda slots: []), ("hosts", host_lines)):
            texts = {slots: traced(bench, folder, medl, name.replace(" ", "_"), slots, lines(slots)) for slots in (1, FEW, SLOTS)}

            def commands(slots):
                script, trace = texts[slots]
                return {
                    "verify": [bench, "verify", medl, script, trace],
                    "wave": [lab, "wave", trace],
                    "picture": [lab, "picture", trace],
                }

            size = os.path.getsize(texts[SLOTS][1])
            print(f"{NODES} nodes, {SLOTS} slots, {name}: {size} bytes of trace")
            few, one, many = commands(FEW), commands(1), commands(SLOTS)
            steps, seconds = {}, {}
            for verb in many:
                steps[verb] = (counted(folder, few[verb])[1] - counted(folder, one[verb])[1]) / (NODES * (FEW - 1))
                seconds[verb] = min(processor_seconds_of(many[verb]) for _ in range(RUNS))
                print(
                    f"  {verb:8s} {steps[verb]:7.0f} instructions a node and slot, {steps[verb] / steps['verify']:5.2f} of verify"
                    f"   {seconds[verb]:6.3f} s, {seconds[verb] / seconds['verify']:5.2f} of verify"
                )
            for verb in ("wave", "picture"):
                print(f"  {verb:8s} {memory_of(many[verb]) - size // 1024:7d} KiB beside the text")


if __name__ == "__main__":
    main()
