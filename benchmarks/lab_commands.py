#!/usr/bin/env python3
"""Times `ttplab check`, `margins`, `pairs` and `why`, beside `keeps`, `campaign` and `run`.

`benchmarks/lab_commands.py` takes all figures, and `benchmarks/lab_commands.py NAME..` some; a name that is none lists them.
`check` takes scripts of half a MiB and of a whole one with a fault in each line, and right files of 24 nodes and 20,000 slots
beside `keeps` of them. `margins` takes ten nodes whose window is 1,301, all drifts and the jumps of a round, and 24 nodes, all
drifts and the jumps of one slot. `pairs` takes a round of 8 nodes, with and without drift, and one slot of 24. Beside each of
these stands a campaign of the same script over the same slots. `why` takes departures near the end of 2,000 slots of 24 nodes,
beside `run`: one by a lost frame, whose story is short, and the newest one beside a starter that is deaf from its start on,
whose story is long.

It prints what each takes by the clock and of all processors, runs a second where it runs clusters, and the most memory that it
held; `taskset` before it chooses processors. It needs the programs that `./prove` builds, and prints figures alone; nothing
passes or fails here.
"""

import os
import re
import subprocess
import sys
import tempfile
import time

import margin_facts
import pair_facts
from campaigns import lab
from peak import peak_of
from runs import list_text, program, script_text, written

FAULTY = "send 9 AB noise 0 0\n"
# How often the system is asked what a command holds.
LOOK = 0.02


def timed(command):
    """The text of a command, how long it took by the clock, how long processors were at work, and the most KiB it held."""
    with tempfile.TemporaryFile() as out:
        began, peak, ended = time.monotonic(), 0, 0
        running = subprocess.Popen(command, stdout=out, stderr=subprocess.DEVNULL)
        while not ended:
            peak = max(peak, peak_of(running.pid))
            time.sleep(min(LOOK, time.monotonic() - began))
            ended, status, used = os.wait4(running.pid, os.WNOHANG)
        clock, running.returncode = time.monotonic() - began, os.waitstatus_to_exitcode(status)
        if running.returncode not in (0, 1, 4):
            sys.exit(f"status {running.returncode} from {command}")
        out.seek(0)
        return out.read().decode("ascii"), clock, used.ru_utime + used.ru_stime, peak


def said(what, command, runs_of=None):
    """Prints what a command takes; the answer is how long processors were at work, for each of its runs if it has some."""
    text, clock, work, peak = timed(command)
    runs = runs_of(text) if runs_of else 0
    told = f"  {runs} runs, {runs / clock:.0f} a second, {work / runs * 1e6:.2f} us each" if runs else ""
    print(f"{what:56} {clock:8.2f} s {work:8.2f} s at work {peak:7} KiB{told}", flush=True)
    return work / runs if runs else work


def values_of(text):
    return int(re.search(r"^all \w+ sweeps \d+ values (\d+)", text, re.M)[1])


def pairs_of(text):
    return sum(map(int, re.findall(r"^(?:kept|broken) pairs (\d+)", text, re.M)))


def faults_of(text):
    return sum(map(int, re.findall(r"^(?:kept|broken) (\d+)", text, re.M)))


def check_faulty(size):
    def take(folder):
        head = script_text(8, 40)
        text = head + FAULTY * ((size - len(head)) // len(FAULTY))
        files = written(folder, "list", list_text(["I"] * 8, [0] * 8)), written(folder, "script", text)
        said(f"check of {size} bytes, a fault in each line", [lab(), "check", *files])

    return take


def check_right(folder):
    files = written(folder, "list", list_text(["I"] * 24, [0] * 24)), written(folder, "script", script_text(24, 20_000))
    checked = said("check of right files, 24 nodes, 20,000 slots", [lab(), "check", *files])
    print(f"  {checked / said('keeps of them', [program(), 'keeps', *files]):.2f} times keeps")


def runs_of_cluster(command, name, cluster, asked, beside, runs_of):
    """Runs of a command, and those of a campaign over these slots of the same cluster."""
    def take(folder):
        files = written(folder, "list", cluster.list), written(folder, "script", cluster.script)
        what = " ".join([command, name, *map(str, asked)])
        each = said(what, [lab(), command, *files, *map(str, asked)], runs_of)
        alone = said(f"campaign {name} {beside[0]} {beside[1]}", [lab(), "campaign", *files, *map(str, beside)], faults_of)
        print(f"  a run of {command} costs {each / alone:.2f} of one of the campaign")

    return take


def margins(name, asked, beside):
    return runs_of_cluster("margins", name, margin_facts.CLUSTERS[name], asked, beside, values_of)


def pairs(name, *asked):
    first, last, within = asked
    return runs_of_cluster("pairs", name, pair_facts.CLUSTERS[name], asked, (first, last + within), pairs_of)


def why(fault, node):
    def take(folder):
        files = written(folder, "list", list_text(["I"] * 24, [0] * 24)), written(folder, "script", script_text(24, 2_000, [fault]))
        ran = said("run of 24 nodes, 2,000 slots", [program(), "run", *files])
        told = said(f"why node {node}, with {fault}", [lab(), "why", *files, node])
        lines = timed([lab(), "why", *files, node])[0].count("\n")
        print(f"  {told / ran:.2f} times run, {lines} lines")

    return take


# A campaign beside drifts begins with the start, since a drift's run does so.
FIGURES = {
    "half_faulty": check_faulty(524_288), "whole_faulty": check_faulty(1_048_576), "right": check_right,
    "drifts": margins("ten", (), (0, 99)), "jumps_of_a_slot": margins("ten", (40, 40), (40, 40)), "jumps": margins("ten", (40, 49), (40, 49)),
    "drifts_24": margins("twentyfour", (), (0, 99)), "jumps_24": margins("twentyfour", (96, 96), (96, 96)),
    "pairs_of_a_slot": pairs("n8", 32, 32, 16), "pairs": pairs("n8", 32, 39, 16), "pairs_drift": pairs("r8", 32, 39, 16),
    "pairs_24_near": pairs("n24", 96, 96, 1), "pairs_24": pairs("n24", 96, 96, 48),
    "why_short": why("send 2 AB silence 1970 1970", "2"), "why_long": why("receive 0 AB silence 49 1999", "23"),
}


def main():
    names = sys.argv[1:] or list(FIGURES)
    if not set(names) <= set(FIGURES):
        sys.exit(f"usage: benchmarks/lab_commands.py [NAME..], where names are {', '.join(FIGURES)}")
    with tempfile.TemporaryDirectory() as folder:
        for name in names:
            FIGURES[name](folder)


if __name__ == "__main__":
    main()
