"""Traces, written and compared by the second reading of the rules."""

import os
import random
import subprocess

import rules
import script_tests

HERE = os.path.dirname(os.path.abspath(__file__))


def program():
    """The program that TTPBENCH_UNPROVED names, built with no proof; else the proved one, and where none stands `./ttpbench`."""
    top = os.path.dirname(HERE)
    unproved = os.environ.get("TTPBENCH_UNPROVED")
    if unproved:
        return unproved
    if subprocess.run([os.path.join(HERE, "is_proved"), "ttpbench"], check=False).returncode == 0:
        return os.path.join(top, "crates", "ttpbench", "out", "ttpbench")
    return os.path.join(top, "ttpbench")


PROGRAM = program()


class Differs(Exception):
    """The first line that no legal numbers give after the lines before it: its number, what was found, and what is legal."""


class Compared:
    """A text that is compared line by line."""

    def __init__(self, text):
        # What follows the last line feed is a line without one, if it is anything.
        *self.lines, self.rest = text.split("\n")
        self.at = 0

    def found(self):
        if self.at <= len(self.lines):
            return repr(self.lines[self.at - 1])
        return f"{self.rest!r} without a line feed" if self.rest else "no line"

    def take(self, legal):
        self.at += 1
        if self.at > len(self.lines) or self.lines[self.at - 1] not in legal:
            raise Differs(self.at, self.found(), [repr(line) for line in legal])
        return self.lines[self.at - 1]

    def end(self):
        self.at += 1
        if self.at <= len(self.lines) or self.rest:
            raise Differs(self.at, self.found(), ["no line"])


def compare(medl, script, text, on_line=lambda line, legal: None):
    """Returns where the text is a trace of the script for some legal message numbers, and raises `Differs` elsewhere.

    `on_line` is called with each line and those that are legal in its place, the one with the oldest message first.
    """
    compared = Compared(text)

    def take(legal):
        line = compared.take(legal)
        on_line(line, legal)
        return line

    rules.lines_of(medl, script, take)
    compared.end()


def is_front(medl, script, text):
    """Whether a text is some whole first lines of a trace, or none, or all."""
    try:
        compare(medl, script, text)
    except Differs as differs:
        return differs.args[0] == text.count("\n") + 1 and not text.rpartition("\n")[2]
    return True


def oldest(legal):
    return legal[0]


def newest(legal):
    return legal[-1]


def by_chance(seed):
    return random.Random(seed).choice


def trace(medl, script, choose):
    """A trace in which each line is the one of the legal ones that is chosen."""
    lines = []

    def take(legal):
        lines.append(choose(legal))
        return lines[-1]

    rules.lines_of(medl, script, take)
    return "".join(f"{line}\n" for line in lines)


def list_in(path):
    with open(path, encoding="utf-8") as file:
        return rules.List(file.read())


def script_in(path):
    with open(path, encoding="latin-1", newline="") as file:
        return rules.Script(file.read())


def text_in(path):
    with open(path, encoding="latin-1", newline="") as file:
        return file.read()


def written(folder, name, text):
    """The path of a file of this name in the folder, with this text."""
    path = os.path.join(folder, name)
    with open(path, "w", encoding="latin-1", newline="") as file:
        file.write(text)
    return path


def answer(program, words, files):
    """How the program ends, by the words of a command with a list and a script behind the first one."""
    command = [program, words[0], *files, *words[1:]]
    return subprocess.run(command, capture_output=True, encoding="latin-1", check=False)


def fault_of_run(program, files, on_line=lambda line, legal: None):
    """What is wrong with the run of a script for a list, if something is; and what the program wrote. See `compare`."""
    run = answer(program, ["run"], files)
    if run.returncode != 0:
        return f"status {run.returncode}: {run.stdout[-200:]}{run.stderr[-200:]}", run.stdout
    try:
        compare(list_in(files[0]), script_in(files[1]), run.stdout, on_line)
    except Differs as differs:
        line, found, legal = differs.args
        return f"line {line}: found {found}, legal {', '.join(legal)}", run.stdout
    return None, run.stdout


def fault_of_refusal(program, files, line):
    """What is wrong with the answer to a script that is refused by this line, if something is."""
    run = answer(program, ["run"], files)
    if (run.returncode, run.stdout) == (4, line + "\n"):
        return None
    return f"status {run.returncode}: found {run.stdout[:200]!r}, right is {line!r}"


def fault_of_lines(program, files):
    """What is wrong with the lines that `keeps` and `precision` write, if something is."""
    medl, script = list_in(files[0]), script_in(files[1])
    right = {("keeps",): "\n".join(script_tests.test_lines(medl, script))}
    for node in range(0, min(medl.nodes + 1, 24), 3):
        right["precision", str(node)] = rules.precision_line(medl, script, node)
    for words, lines in right.items():
        found = answer(program, words, files).stdout
        if found != lines + "\n":
            return f"{' '.join(words)}: found {found!r}, right is {lines!r}"
    return None
