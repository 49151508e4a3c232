#!/usr/bin/env python3
"""Times `sample` over 1,000, 5,000 and 20,000 slots of 24 nodes without payload, whose hosts poll their statuses.

Beside it stand `run` of a script with the same reads, with its trace to /dev/null, which reads its lines and writes the
trace; the same script without reads, which starts no threads; and `keeps`, which reads and tests the script alone. So what
the hosts' threads take is told apart from the slots, and from reading, testing and writing. Printed is how long
processors were at work, the least of some runs, and the most memory that `sample` held. It needs the program that
`./ttpbench` builds, and prints figures alone; nothing passes or fails here.
"""

import tempfile

from peak import memory_of
from runs import list_text, processor_seconds_of, program, script_text, written

NODES = 24
SLOTS = (1_000, 5_000, 20_000)
RUNS = {1_000: 9, 5_000: 5, 20_000: 3}


def main():
    with tempfile.TemporaryDirectory() as folder:
        medl = written(folder, "cluster.toml", list_text(["I"] * NODES, [0] * NODES))
        for slots in SLOTS:
            reads = [f"read {(t + 1) % NODES} {t} status" for t in range(slots)]
            polled = written(folder, "polled.script", script_text(NODES, slots, reads))
            quiet = written(folder, "quiet.script", script_text(NODES, slots))
            commands = {
                "sample": ["sample", medl, str(slots), "1"],
                "run with the same reads": ["run", medl, polled],
                "run without reads": ["run", medl, quiet],
                "keeps": ["keeps", medl, polled],
            }
            for name, words in commands.items():
                taken = min(processor_seconds_of([program(), *words]) for _ in range(RUNS[slots]))
                print(f"{slots:6d} slots   {name:24s} {taken * 1e3:8.1f} ms   {taken * 1e6 / slots:7.2f} microseconds a slot")
            print(f"{slots:6d} slots   memory {memory_of([program(), *commands['sample']])} KiB")


if __name__ == "__main__":
    main()
