#!/usr/bin/env python3
"""Says how far apart clocks come beside a two-faced sender, as a part of the bound, in 200 random scripts.

Each cluster has 4 to 16 nodes, all of which are on from slot 0, and runs for 40 rounds after its start. Its list's
`drift`, `error` and `window` are drawn, and each clock drifts as far as it may, ahead or back, or less. One node is
two-faced: from two rounds after the start on each other node errs in reading its frames as far as the window less the
bound, ahead or back, or less. In every other slot each node errs by up to the list's `error`. Each script is asked of
`precision`, which must say that the node may be two-faced and name the bound. Printed are the least, the middle and the
largest part of the bound that was seen, of all scripts, and of those with few and with many nodes. It needs the program
that `./ttpbench` builds. The numbers are drawn from a fixed start, so that each call prints the same.
"""

import random
import statistics
import subprocess
import sys
import tempfile

from runs import list_text, program, script_text, written

SCRIPTS = 200
ROUNDS = 40


def up_to(rng, most):
    """A number from -most to most, often one of the two."""
    return rng.choice((-most, most, rng.randint(-most, most)))


def bound_of(nodes, drift, error):
    return 12 * drift * nodes + 6 * error + 2


def cluster(rng):
    """A list, a script, the two-faced node, and how many nodes there are and what the bound is."""
    nodes = rng.randint(4, 16)
    drift, error = rng.randint(0, 5), rng.randint(0, 5)
    bound = bound_of(nodes, drift, error)
    room = rng.randint(error, 2 * bound)
    start, faced = 2 * nodes, rng.randrange(nodes)
    slots = start + ROUNDS * nodes
    lines = [f"drift {k} {up_to(rng, drift)}" for k in range(nodes)]
    for slot in range(start, slots):
        sender = (slot - start) % nodes
        most = room if sender == faced and slot >= start + 2 * nodes else error
        for k in range(nodes):
            value = up_to(rng, most)
            if k != sender and value != 0:
                lines.append(f"error {k} {value} {slot} {slot}")
    listed = list_text(["I"] * nodes, [0] * nodes, drift=drift, error=error, window=bound + room)
    return listed, script_text(nodes, slots, lines), faced, nodes, bound


def part_seen(folder, listed, script, faced, bound):
    """What was seen, as a part of the bound."""
    files = written(folder, "cluster.toml", listed), written(folder, "two_faced.script", script)
    told = subprocess.run([program(), "precision", *files, str(faced)], capture_output=True, text=True)
    words = told.stdout.split()
    if told.returncode != 0 or words[:2] != ["precision", "node"] or words[6] != str(bound):
        sys.exit(f"status {told.returncode}: {told.stdout}")
    return int(words[8]) / bound


def main():
    rng = random.Random(200)
    parts = []
    with tempfile.TemporaryDirectory() as folder:
        for _ in range(SCRIPTS):
            listed, script, faced, nodes, bound = cluster(rng)
            parts.append((nodes, part_seen(folder, listed, script, faced, bound)))
    kinds = {
        "all": parts,
        "4 to 6 nodes": [part for part in parts if part[0] <= 6],
        "12 to 16 nodes": [part for part in parts if part[0] >= 12],
    }
    for kind, some in kinds.items():
        seen = sorted(part for _, part in some)
        middle = statistics.median(seen)
        print(f"{kind:15s} {len(seen):3d} scripts   least {seen[0]:.2f}   middle {middle:.2f}   largest {seen[-1]:.2f}")


if __name__ == "__main__":
    main()
