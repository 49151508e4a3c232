#!/usr/bin/env python3
"""Times `schedule` on a list at the format's limits, and says how much memory it takes.

The list has 24 slots, 64 rounds and comments up to the size limit of 1,048,576 bytes. For
comparison it also times a list of four nodes, and Python's own reader of TOML on the same bytes.
Each figure is of many runs: the least and the median. It needs the program that `./ttpbench`
builds, and prints figures alone; nothing passes or fails here.
"""

import os
import statistics
import subprocess
import sys
import tempfile
import time

from peak import memory_of
from runs import list_text, program

RUNS = 25
LIMIT = 1_048_576


def commented_list(slots, rounds, size):
    """A list of frames without payload, with comments up to this size."""
    text = list_text(["I" * rounds] * slots, [0] * slots, drift=1000, error=1000, window=1_000_000, schedule=16_777_215, buffers=16)
    comment = "# a comment of sixty-four bytes, as generators of lists write them\n"
    text += comment * (max(0, size - len(text)) // len(comment))
    return text + "#" * max(0, size - len(text))


def times_of(command, runs=RUNS):
    taken = []
    for _ in range(runs):
        before = time.perf_counter()
        done = subprocess.run(command, stdout=subprocess.DEVNULL)
        taken.append(time.perf_counter() - before)
        if done.returncode != 0:
            sys.exit(f"status {done.returncode} from {command}")
    return min(taken) * 1000, statistics.median(taken) * 1000


def tomllib_times(text, runs=RUNS):
    import tomllib

    taken = []
    for _ in range(runs):
        before = time.perf_counter()
        tomllib.loads(text)
        taken.append(time.perf_counter() - before)
    return min(taken) * 1000, statistics.median(taken) * 1000


def main():
    bench = program()
    with tempfile.TemporaryDirectory() as folder:
        large = os.path.join(folder, "large.toml")
        small = os.path.join(folder, "small.toml")
        dense = os.path.join(folder, "dense.toml")
        large_text = commented_list(24, 64, LIMIT)
        for path, text in (
            (large, large_text),
            (small, commented_list(4, 1, 0)),
            (dense, commented_list(24, 64, 0)),
        ):
            with open(path, "w", encoding="ascii") as file:
                file.write(text)
        print(f"list at the limits: {os.path.getsize(large)} bytes, 24 slots, 64 rounds, 1537 lines of output")
        rows = (
            ("at the limits", large),
            ("the same without comments", dense),
            ("four nodes, one round", small),
        )
        least = {}
        for name, path in rows:
            command = [bench, "schedule", path]
            least[name], median = times_of(command)
            memory = memory_of(command)
            print(f"{name:28} least {least[name]:8.2f} ms   median {median:8.2f} ms   memory {memory:7d} KiB")
        reader_least, reader_median = tomllib_times(large_text)
        print(f"{'Python tomllib, the bytes':28} least {reader_least:8.2f} ms   median {reader_median:8.2f} ms")
        print(f"ratio, at the limits to four nodes: {least['at the limits'] / least['four nodes, one round']:.2f}")
        print(f"ratio, at the limits to tomllib:    {least['at the limits'] / reader_least:.2f}")


if __name__ == "__main__":
    main()
