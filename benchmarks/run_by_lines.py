#!/usr/bin/env python3
"""Times runs whose scripts have 50,000 `error` lines, beside the same runs without them.

In one kind of script each line covers all 20,000 slots, in the other one slot. Two lines each add up to 0, so that the
trace is that of the run without them, for 4 and for 24 nodes without payload. It builds a program over bench_call, whose
sink takes the bytes away with no call of the system, and prints the milliseconds to read the script and the nanoseconds
of a slot: by how long a processor was at work, the least of some runs. It prints figures alone; nothing passes or fails
here. A path given to it is that of the program that it would build.
"""

import sys
import tempfile

from runs import list_text, processor_seconds_of, script_text, timing_program, unwritten, written

RUNS = 15
READINGS = 4
SLOTS = 20_000
LINES = 50_000
# The slots that a line of one slot names: their numbers are short enough for the size limit of a script.
NAMED = 10_000


def pair(number, nodes, whole):
    """Two lines of one node that take each other back."""
    node = number % nodes
    span = f"0 {SLOTS - 1}" if whole else f"{number % NAMED} {number % NAMED}"
    return [f"error {node} 1 {span}", f"error {node} -1 {span}"]


def lines_of_kind(nodes, whole):
    return [line for number in range(LINES // 2) for line in pair(number, nodes, whole)]


def seconds_of(timing, medl, script):
    """The least seconds of one reading of a script, and of one run of it without the writing."""
    def least(**times):
        return min(processor_seconds_of(unwritten(timing, medl, script, **times)) for _ in range(RUNS))

    start = least()
    reading = (least(readings=READINGS) - start) / READINGS
    # A run reads the script and tests it too.
    return reading, least(runs=1) - least(tests=1) - reading


def main():
    with tempfile.TemporaryDirectory() as folder:
        timing = sys.argv[1] if len(sys.argv) > 1 else timing_program(folder)
        for nodes in (4, 24):
            medl = written(folder, "cluster.toml", list_text(["I"] * nodes, [0] * nodes))
            kinds = {
                "no lines": [],
                "lines of all slots": lines_of_kind(nodes, True),
                "lines of one slot": lines_of_kind(nodes, False),
            }
            for kind, lines in kinds.items():
                script = written(folder, "run.script", script_text(nodes, SLOTS, lines))
                reading, taken = seconds_of(timing, medl, script)
                head = f"{nodes:2d} nodes, {len(lines):5d} {kind:18s}" if lines else f"{nodes:2d} nodes, {kind:24s}"
                print(f"{head}   read in {reading * 1e3:7.2f} ms   {taken * 1e9 / SLOTS:7.1f} ns a slot")


if __name__ == "__main__":
    main()
