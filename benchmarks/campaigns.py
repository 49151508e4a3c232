#!/usr/bin/env python3
"""Times `ttplab campaign` on one processor and on four, beside `ttpbench run` of the same cluster.

The first cluster has 8 nodes and 100 slots, the second 24 nodes and 200 slots, and all faults of all slots are tried; the third
has 24 nodes and 240 slots, and the faults of slots 96 to 143 are tried, 18,432 of them. They have no drift, and node 0 starts
them. For each it prints the runs
of a campaign, and how long they took by the clock and how long processors were at work, by the least of some runs on one
processor and on four (as many as there are, if fewer); how many more runs four made by the clock; what a run cost beside
one of `run` with the trace to /dev/null, which is taken from a longer script of the same cluster; and the most memory that
the process held; then what `ttplab chart` of its text takes. On a machine that does other work the clock tells little, and what
processors were at work still something.
It needs the programs that `./ttpbench` and `./ttplab` build, and prints figures alone; nothing passes or fails here.
"""

import os
import subprocess
import sys
import tempfile
import time

from peak import memory_of
from programs import TOP
from runs import list_text, processor_seconds_of, program, script_text, written

LAB = os.path.join(TOP, "crates", "ttplab", "out", "ttplab")
# Nodes, slots, the first slot of faults and the last.
CAMPAIGNS = ((8, 100, 0, 99), (24, 200, 0, 199), (24, 240, 96, 143))
TIMES = 3
# So many slots more tell what a slot of `run` costs.
LONG = 5_000


def lab():
    """The program that `./ttplab` builds."""
    if not os.path.exists(LAB):
        sys.exit("run ./ttplab once first, which builds the program")
    return LAB


def timed(command, processors):
    """How long a command took on these processors by the clock, and how long they were at work."""
    with open(os.devnull, "wb") as out:
        began = time.monotonic()
        running = subprocess.Popen(command, stdout=out, preexec_fn=lambda: os.sched_setaffinity(0, processors))
        _, status, used = os.wait4(running.pid, 0)
    running.returncode = os.waitstatus_to_exitcode(status)
    if running.returncode != 0:
        sys.exit(f"status {running.returncode} from {command}")
    return time.monotonic() - began, used.ru_utime + used.ru_stime


def run_costs(folder, nodes, medl, slots):
    """What `run` costs for so many slots, in seconds of a processor, by a longer run less one of one slot."""
    taken = {}
    for length in (1, LONG + 1):
        script = written(folder, f"run{length}.script", script_text(nodes, length))
        taken[length] = min(processor_seconds_of([program(), "run", medl, script]) for _ in range(5 * TIMES))
    return (taken[LONG + 1] - taken[1]) / LONG * slots


def main():
    processors = sorted(os.sched_getaffinity(0))
    several = set(processors[:4])
    with tempfile.TemporaryDirectory() as folder:
        for nodes, slots, first, last in CAMPAIGNS:
            medl = written(folder, "cluster.toml", list_text(["I"] * nodes, [0] * nodes))
            script = written(folder, "campaign.script", script_text(nodes, slots))
            command = [lab(), "campaign", medl, script, str(first), str(last)]
            text = subprocess.run(command, check=True, capture_output=True).stdout
            runs = sum(int(line.split()[1]) for line in text.splitlines()[-2:])
            print(f"{nodes} nodes, {slots} slots, faults in {first} to {last}: {runs} runs")
            clocks, works = [], []
            for chosen in ({processors[0]}, several):
                found = [timed(command, chosen) for _ in range(TIMES)]
                clock, work = min(clock for clock, _ in found), min(work for _, work in found)
                clocks.append(clock)
                works.append(work)
                told = f"{clock:6.2f} s by the clock {work:6.2f} s at work {runs / clock:8.0f} runs a second"
                print(f"  processors {len(chosen)} {told}   {work / runs * 1e6:6.1f} us a run")
            alone = run_costs(folder, nodes, medl, slots)
            told = f"by the clock, and {len(several) * works[0] / works[1]:.2f} by what they are at work"
            print(f"  {len(several)} processors make {clocks[0] / clocks[1]:.2f} times as many runs {told}")
            print(f"  run of the script {alone * 1e6:6.1f} us; a run on one processor costs {works[0] / runs / alone:.2f} of it")
            print(f"  memory {memory_of(command)} KiB")
            drawn = [lab(), "chart", written(folder, "campaign.txt", text.decode("ascii"))]
            clock = min(timed(drawn, several)[0] for _ in range(TIMES))
            kib = memory_of(drawn)
            print(f"  chart of its {len(text)} bytes {clock:6.2f} s, memory {kib} KiB, of which the text is {len(text) // 1024}")


if __name__ == "__main__":
    main()
