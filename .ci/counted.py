"""Checks that are counted, for the scripts of this folder: each compares what was found with what is right.

`TTPBENCH_UNPROVED` and `TTPLAB_UNPROVED` name programs that were built with no proof, which stand for the proved ones. They are
many times slower and do their own bookkeeping of memory, so some checks are left out with them, and counted as left.
"""

import concurrent.futures
import os
import re
import subprocess
import sys
import threading

TOP = os.path.dirname(os.path.dirname(os.path.realpath(__file__)))
UNPROVED = os.environ.get("TTPBENCH_UNPROVED")


def program(name="ttpbench"):
    """The program of this name that is checked."""
    built = os.environ.get(f"{name.upper()}_UNPROVED") or os.path.join(TOP, "crates", name, "out", name)
    if not os.path.exists(built):
        sys.exit(f"{built} is not there: ./prove builds it")
    return built


def answer(words, *, name="ttpbench", out=subprocess.PIPE, seconds=120, **how):
    """The status, the output as text, and what was said on standard error, of the program with these words."""
    try:
        ran = subprocess.run(
            [program(name), *words], stdout=out, stderr=subprocess.PIPE, stdin=subprocess.DEVNULL, timeout=seconds, check=False, **how
        )
    except subprocess.TimeoutExpired:
        return "no end", "", ""
    return ran.returncode, (ran.stdout or b"").decode("latin-1"), ran.stderr.decode("latin-1")


def text_of(path):
    """What a file holds, a letter for each byte."""
    with open(path, encoding="latin-1", newline="") as file:
        return file.read()


def lab_usage():
    """The line that answers words of no form of ttplab, as its page shows it."""
    with open(os.path.join(TOP, "docs", "VIEWS.md"), encoding="utf-8") as file:
        return re.search(r"`(usage: .*?)`", file.read())[1].replace("\\|", "|") + "\n"


# What ttplab tells of a campaign: how far it has come, and that it tried nothing.
TOLD = re.compile(r"^ttplab: (?:\d+ of \d+ slots, about \d+ \w+ left|no fault was tried: the script has slots 0 to \d+)\n", re.M)


def unasked(said, status, name):
    """What was said on standard error but for what is due there: of a campaign, and with status 2 to 8 one line that says why."""
    if name == "ttplab":
        said = TOLD.sub("", said)
    if status not in range(2, 9):
        return said
    return "" if re.fullmatch(rf"{name}: .+\n", said, re.S) else said or "nothing was said"


def asked_lab(*words, **how):
    """The status and the text with which ttplab ends; and what else it said on standard error, if it did."""
    status, text, said = answer(words, name="ttplab", seconds=300, **how)
    said = unasked(said, status, "ttplab")
    return (status, text, said) if said else (status, text)


class Counted:
    """What was checked so far, by as many threads as there are processors."""

    def __init__(self, name):
        self.name = name
        self.passed = self.failed = self.left = 0
        self.lock = threading.Lock()

    def check(self, what, found, right):
        with self.lock:
            if found == right:
                self.passed += 1
                return True
            self.failed += 1
            print(f"check failed: {self.name}: {what}\n--- expected\n{right}\n--- found\n{found}", flush=True)
            return False

    def leave(self, count):
        """So many checks are not made with a program that is not proved."""
        self.left += count

    def side_by_side(self, tasks):
        """Does all tasks; one that raises is a check that failed."""
        with concurrent.futures.ThreadPoolExecutor(len(os.sched_getaffinity(0))) as pool:
            for what, done in [(what, pool.submit(task)) for what, task in tasks]:
                fault = done.exception()
                if fault is not None:
                    self.check(what, repr(fault), "an answer")

    def end(self):
        """Prints the counts, and gives the status to end with."""
        left = f", {self.left} left out" if self.left else ""
        print(f"{self.name}: {self.passed} passed, {self.failed} failed{left}")
        return 1 if self.failed or not self.passed else 0
