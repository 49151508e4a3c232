"""How much memory a command of the bench holds at most."""

import fcntl
import os
import subprocess
import time

F_SETPIPE_SZ = 1031


def peak_of(process):
    """The most memory that a process held so far, in KiB, or 0 where it has ended."""
    with open(f"/proc/{process}/status", encoding="ascii") as status:
        return max((int(line.split()[1]) for line in status if line.startswith("VmHWM:")), default=0)


def memory_of(command):
    """The most memory that the command held at once, in KiB.

    Its output goes into a small pipe that is almost full, so that it waits in its first write, with its files read,
    while the system is asked for its peak. From then on it waits in each further write, until a piece is taken and the
    system is asked again.
    """
    reading, writing = os.pipe()
    fcntl.fcntl(writing, F_SETPIPE_SZ, 4096)
    os.write(writing, b"x" * 4090)
    running = subprocess.Popen(command, stdout=writing)
    os.close(writing)
    peak = 0
    for _ in range(100):
        time.sleep(0.01)
        peak = max(peak, peak_of(running.pid))
    while os.read(reading, 65536):
        peak = max(peak, peak_of(running.pid))
    os.close(reading)
    running.wait()
    return peak
