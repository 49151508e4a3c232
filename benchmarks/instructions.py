#!/usr/bin/env python3
"""Counts the instructions that `run` takes for each node and slot, by valgrind's callgrind.

For the two clusters of `run_by_slots.py` it counts a run of 1,000 slots and one of a single slot, with the trace to
/dev/null, and prints the difference for each node and slot, whole and by the functions that take the most. A function's
figure has what the compiler put into it of others. It needs the program that `./ttpbench` builds, or the path of one,
and prints figures alone; nothing passes or fails here.
"""

import os
import re
import subprocess
import sys
import tempfile

from run_by_slots import CLUSTERS
from runs import program, script_text, written

SLOTS = 1_000
FUNCTIONS = 16
LINE = re.compile(r"^ *([\d,]+) \([\d. ]+%\)  (?:.*?:)?((?:[^ ]+::)?[^ :]+(?:::<[^ ]*>)?) ")


def counted(folder, command):
    """The instructions of a run, by function, and all together."""
    out = os.path.join(folder, "callgrind.out")
    tool = ["valgrind", "--tool=callgrind", f"--callgrind-out-file={out}", *command]
    subprocess.run(tool, check=True, stdout=subprocess.DEVNULL, stderr=subprocess.DEVNULL)
    shown = subprocess.run(["callgrind_annotate", "--threshold=100", out], check=True, capture_output=True, text=True).stdout
    found = {}
    for line in shown.splitlines():
        match = LINE.match(line)
        if match and not line.endswith("PROGRAM TOTALS"):
            name = re.sub(r"::<#?[^>]*>.*", "", match.group(2))
            found[name] = found.get(name, 0) + int(match.group(1).replace(",", ""))
    total = re.search(r"^ *([\d,]+) \(100", shown, re.M)
    return found, int(total.group(1).replace(",", ""))


def main():
    runs = sys.argv[1] if len(sys.argv) > 1 else program()
    with tempfile.TemporaryDirectory() as folder:
        for name, (nodes, listed, lines) in CLUSTERS.items():
            medl = written(folder, "cluster.toml", listed)
            found = {}
            for slots in (1, SLOTS):
                script = written(folder, f"{slots}.script", script_text(nodes, slots, lines(slots) if slots > 1 else []))
                found[slots] = counted(folder, [runs, "run", medl, script])
            each = nodes * (SLOTS - 1)
            print(f"{name}: {(found[SLOTS][1] - found[1][1]) / each:.0f} instructions a node and slot")
            taken = {at: count - found[1][0].get(at, 0) for at, count in found[SLOTS][0].items()}
            for at, count in sorted(taken.items(), key=lambda pair: -pair[1])[:FUNCTIONS]:
                print(f"{count / each:8.1f}  {at}")


if __name__ == "__main__":
    main()
