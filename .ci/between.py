"""The library of refuse.c, which stands between a program and the C library, and what it counts of a command."""

import os
import re
import shutil
import struct
import subprocess
import sys
import tempfile

HERE = os.path.dirname(os.path.abspath(__file__))


def library(folder):
    """The library, built in this folder; where there is no compiler for C, the script ends."""
    compiler = shutil.which("cc") or shutil.which("gcc") or shutil.which("clang")
    if compiler is None:
        sys.exit("there is no compiler for C")
    path = os.path.join(folder, "refuse.so")
    subprocess.run([compiler, "-O2", "-shared", "-fPIC", "-o", path, os.path.join(HERE, "refuse.c"), "-ldl"], check=True)
    return path


class Asked:
    """What a command asked of the system."""

    def __init__(self, status, counts, calls):
        self.status = status
        self.allocations, self.threads, self.bytes, _, self.most_held = counts
        # Names of the files in the order in which they were opened, and for each its reads: bytes asked for and got.
        self.opened, self.reads, self.writes = [], {}, []
        names = {}
        for word, file, rest in re.findall(r"^(open|read|write) (-?\d+) (.*)$", calls, re.M):
            if word == "open":
                names[file] = rest
                self.opened.append(rest)
                self.reads.setdefault(rest, [])
            elif word == "read":
                self.reads.setdefault(names.get(file, file), []).append(tuple(map(int, rest.split())))
            else:
                self.writes.append((int(file), *map(int, rest.split())))


def asked(built, command, out, place=None, **more):
    """Runs a command behind the library, with its output to an open file, and tells what it asked for.

    `more` are further words of the library's, as INTERRUPTED.
    """
    with tempfile.TemporaryFile() as counted, tempfile.TemporaryFile() as calls:
        counted.truncate(40)
        surroundings = {
            **os.environ, "LD_PRELOAD": built, "COUNTED": str(counted.fileno()), "COUNTED_CALLS": str(calls.fileno()),
            **more,
        }
        ran = subprocess.run(
            command, env=surroundings, pass_fds=[counted.fileno(), calls.fileno()], stdin=subprocess.DEVNULL, stdout=out,
            cwd=place, timeout=120, check=False,
        )
        counted.seek(0)
        calls.seek(0)
        return Asked(ran.returncode, struct.unpack("5l", counted.read(40)), calls.read().decode("latin-1"))
