#!/usr/bin/env python3
"""Times `run` through the controllers, for two clusters over 1,000, 5,000 and 20,000 slots.

The one has 8 nodes whose frames carry 16 bytes, with implicit and with explicit C-state in turn; two clocks drift, two
receivers err, one frame is lost to all and one to a single node, so that two nodes leave. The other has 24 nodes
without payload and without a fault. For each it prints how long a processor was at work, in the program and in the
system, by the least of some runs: with the trace to /dev/null, to a file in memory where there is one, and with no
writing, by a program that it builds, whose sink takes the bytes away with no call of the system. A figure is the
nanoseconds for each node and slot, less what a run of one slot takes, which is printed beside them. The last lines of a
cluster say how the figures grow from the shortest run to the longest, and how much of them is writing. It also prints
the most memory that the process held. It needs the program that `./ttpbench` builds, and prints figures alone; nothing
passes or fails here. A path given to it is that of the program that it would build.
"""

import os
import sys
import tempfile

from peak import memory_of
from runs import list_text, processor_seconds_of, program, script_text, timing_program, unwritten, written

SLOTS = (1_000, 5_000, 20_000)
RUNS = {1: 50, 1_000: 50, 5_000: 25, 20_000: 15}
SHARED = "/dev/shm"


def mixed_lines(slots):
    last = slots - 1
    clocks = ["drift 1 1", "drift 4 -1", f"error 2 2 0 {last}", f"error 5 -2 0 {last}"]
    return clocks + ["send 0 AB noise 40 40", "receive 3 AB silence 70 70"]


CLUSTERS = {
    "8 nodes, 16 bytes, drift, two faults": (
        8,
        list_text(["NXNX"] * 8, [16] * 8, drift=1, error=2, window=64, schedule=4660, starters=(0, 1)),
        mixed_lines,
    ),
    "24 nodes, no payload": (24, list_text(["I"] * 24, [0] * 24), lambda slots: []),
}


def seconds_by_way(timing, medl, script, times):
    """For each way how long a processor was at work, at least."""
    command = [program(), "run", medl, script]
    found = {"to /dev/null": min(processor_seconds_of(command) for _ in range(times))}
    if os.path.isdir(SHARED):
        with tempfile.NamedTemporaryFile(dir=SHARED) as file:
            found["to a file"] = min(processor_seconds_of(command, file.name) for _ in range(times))
    found["not written"] = min(processor_seconds_of(unwritten(timing, medl, script, runs=1)) for _ in range(times))
    return found


def main():
    with tempfile.TemporaryDirectory() as folder:
        timing = sys.argv[1] if len(sys.argv) > 1 else timing_program(folder)
        for name, (nodes, listed, lines) in CLUSTERS.items():
            medl = written(folder, "cluster.toml", listed)
            one = seconds_by_way(timing, medl, written(folder, "one.script", script_text(nodes, 1)), RUNS[1])
            print(f"{name}; one slot" + "".join(f"   {way} {taken * 1e3:.2f} ms" for way, taken in one.items()))
            figures = {}
            for slots in SLOTS:
                script = written(folder, "run.script", script_text(nodes, slots, lines(slots)))
                taken = seconds_by_way(timing, medl, script, RUNS[slots])
                figures[slots] = {way: (taken[way] - one[way]) * 1e9 / (nodes * (slots - 1)) for way in taken}
                told = "".join(f"   {way} {figure:6.1f} ns" for way, figure in figures[slots].items())
                print(f"  {slots:6d} slots{told}   memory {memory_of([program(), 'run', medl, script])} KiB")
            short, long = figures[SLOTS[0]], figures[SLOTS[-1]]
            grows = "".join(f"   {way} {long[way] / short[way]:.2f}" for way in long)
            print(f"  {SLOTS[-1]} slots to {SLOTS[0]}:{grows}")
            for way in long:
                if way != "not written":
                    print(f"  writing {way} takes {long[way] - long['not written']:.1f} ns of a line")


if __name__ == "__main__":
    main()
