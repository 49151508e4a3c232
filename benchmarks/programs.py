"""Builds the programs that the benchmarks time: over crates of this repository, and in C beside them."""

import os
import shutil
import subprocess
import sys

TOP = os.path.dirname(os.path.dirname(os.path.abspath(__file__)))

INVARIANT = """use Rattle.std.proofs.Common.{{◌≡◌}}
{imports}use Rattle.{name}.proofs.{function}.Given as goal

abbrev pub invariant-{loop} : goal.invariant-{loop}
invariant-{loop} l = {invariant}
"""


def write(path, text):
    os.makedirs(os.path.dirname(path), exist_ok=True)
    with open(path, "w", encoding="utf-8") as file:
        file.write(text)


def rattle_program(folder, name, uses, source, invariants={}, loop="loop", imports="", proofs={}):
    """A program of this name and source, over a copy of the crates that it uses and those below them.

    `uses` is what stands behind the program's name in crates.txt, and `invariants` has what the loop of a function
    keeps; `loop` names those loops, and `imports` has the lines by which their invariants import words. `proofs` has
    other files of its proof. Building the program proves it, and what `rt` has not proved before.
    """
    if shutil.which("rt") is None:
        sys.exit("rt is not on the path")
    with open(os.path.join(TOP, "crates.txt"), encoding="utf-8") as file:
        lines = {line.split(":")[0].split()[0]: line for line in file if line[0] not in "#\n"}
    ours, waiting = set(), [used for used in uses.split() if used in lines]
    while waiting:
        crate = waiting.pop()
        if crate not in ours:
            ours.add(crate)
            waiting += [used for used in lines[crate].split(":")[1].split() if used in lines]
    crates = os.path.join(folder, "crates")
    leave = shutil.ignore_patterns("out", "must-fail")
    for crate in ours:
        shutil.copytree(os.path.join(TOP, "crates", crate), os.path.join(crates, crate), ignore=leave)
    listed = "".join(line for crate, line in lines.items() if crate in ours)
    write(os.path.join(folder, "crates.txt"), listed + f"{name}: {uses}\n")
    shutil.copy(os.path.join(TOP, "HANDLES"), os.path.join(folder, "HANDLES"))
    program = os.path.join(crates, name)
    write(os.path.join(program, "src", "main.rt"), source)
    for function, invariant in invariants.items():
        text = INVARIANT.format(name=name, function=function, invariant=invariant, loop=loop, imports=imports)
        write(os.path.join(program, "proofs", function, "Invariants.antt"), text)
    for file, text in proofs.items():
        write(os.path.join(program, "proofs", file), text)
    built = os.path.join(program, "out", name)
    told = subprocess.run(["rt", "run"], cwd=program, stdin=subprocess.DEVNULL, capture_output=True, text=True)
    if not os.path.exists(built):
        sys.exit(told.stdout[-4000:] + told.stderr[-4000:] + "\nthe program could not be built")
    return built


def c_program(folder, source, *options):
    """A program in C at -O2, or None where there is no compiler."""
    compiler = shutil.which("cc") or shutil.which("gcc") or shutil.which("clang")
    if compiler is None:
        return None
    path = os.path.join(folder, "c", "program.c")
    write(path, source)
    program = os.path.join(folder, "c", "program")
    subprocess.run([compiler, "-O2", *options, "-o", program, path], check=True)
    return program


def lines_of(program):
    """The words of each line that a program prints."""
    output = subprocess.run([program], check=True, capture_output=True, text=True).stdout
    return [line.split() for line in output.splitlines()]
