#!/usr/bin/env python3
"""Times the test of the single-fault hypothesis, by slots and by lines of the script.

All scripts keep the hypothesis, so that each slot is looked at for every rule. The first ones have no lines beside
those that switch nodes on, and more and more slots; the others have 20,000 slots and more and more lines, up to as many
as the size limit of a script has room for: reading errors within the bound, and receivers that are deaf on one channel.
It builds a program over hypothesis, and prints the milliseconds of one test and the nanoseconds for each slot and node,
by how long a processor was at work, the least of some runs. It prints figures alone; nothing passes or fails here. A
path given to it is that of the program that it would build.
"""

import sys
import tempfile

from runs import list_text, processor_seconds_of, script_text, timing_program, unwritten, written

RUNS = 15
TESTS = 4
SLOTS = 20_000
LIMIT = 1_048_576


def lines_up_to(nodes, most):
    """So many lines, or as many as the limit leaves room for: in turn a reading error and a deaf channel."""
    lines, size = [], len(script_text(nodes, SLOTS))
    for number in range(most):
        node, slot = number % nodes, number * 7919 % SLOTS
        line = f"error {node} 0 {slot} {slot}" if number % 2 else f"receive {node} A noise {slot} {slot}"
        size += len(line) + 1
        if size > LIMIT:
            break
        lines.append(line)
    return lines


def seconds_of(timing, medl, script):
    """The least seconds of one test."""
    def least(**times):
        return min(processor_seconds_of(unwritten(timing, medl, script, **times)) for _ in range(RUNS))

    return (least(tests=TESTS) - least()) / TESTS


def main():
    with tempfile.TemporaryDirectory() as folder:
        timing = sys.argv[1] if len(sys.argv) > 1 else timing_program(folder)
        for nodes in (4, 24):
            medl = written(folder, "cluster.toml", list_text(["I"] * nodes, [0] * nodes))
            scripts = [(slots, []) for slots in (1_000, 5_000, SLOTS)]
            scripts += [(SLOTS, lines_up_to(nodes, most)) for most in (1_000, 10_000, LIMIT)]
            for slots, lines in scripts:
                taken = seconds_of(timing, medl, written(folder, "test.script", script_text(nodes, slots, lines)))
                figures = f"{taken * 1e3:7.2f} ms   {taken * 1e9 / (slots * nodes):6.1f} ns a slot and node"
                print(f"{nodes:2d} nodes, {slots:5d} slots, {len(lines):5d} lines   {figures}")


if __name__ == "__main__":
    main()
