"""Generated scripts and the lines of `sample`, by the second reading of the rules.

The generator is written from docs/FORMATS.md, as a text of script lines, which the second reading then runs.
"""

import itertools
import subprocess

import rules
import traces

SENT_WORDS, LEFT_WORDS = ("start", "send"), ("denied", "unacknowledged", "clique")


def draws(number):
    """The draws that begin at a number, without end."""
    state = number
    while True:
        state = (state * 6364136223846793005 + 1442695040888963407) % 2**64
        yield state // 2**33


def clock_lines(medl, slots, drawn):
    """The drift and the reading error of each node, drawn in this order."""
    for k in range(medl.nodes):
        yield f"drift {k} {next(drawn) % (2 * medl.drift + 1) - medl.drift}"
        yield f"error {k} {next(drawn) % (2 * medl.error + 1) - medl.error} 0 {slots - 1}"


def fault_lines(medl, slots, drawn):
    n = medl.nodes
    starters = [k for k, slot in enumerate(medl.slots) if slot.start]
    starter = min(starters, default=0)
    spare = sum(slot.sync for slot in medl.slots) - 4
    for j in range(min(spare, n // 2)):
        slot = (2 * n + starter) + 2 * n + j * (2 * n + 2)
        if slot >= slots:
            continue
        if next(drawn) % 2 == 0:
            yield f"send {(starter + 2 * j) % n} AB noise {slot} {slot}"
        else:
            yield f"receive {(starter + 2 * j + 1) % n} AB noise {slot} {slot}"


def host_lines(medl, slots):
    for t in range(slots):
        sender, reader = t % medl.nodes, (t + 1) % medl.nodes
        size = medl.slots[sender].data
        if medl.buffers >= 2 and size > 0:
            yield f"write {sender} {t} {bytes([t % 256] * size).hex()}"
        yield f"read {reader} {t} status"
        if size > 0:
            yield f"read {reader} {t} {sender}"


def script_text(medl, slots, number):
    """The script that the number gives for the list."""
    drawn = draws(number)
    on = (f"on {k} 0" for k in range(medl.nodes))
    clocks = list(clock_lines(medl, slots, drawn))
    lines = itertools.chain([f"slots {slots}"], on, clocks, fault_lines(medl, slots, drawn), host_lines(medl, slots))
    return "".join(f"{line}\n" for line in lines)


def members_in(medl, lines):
    """The members of the lowest active node in the node lines of a slot, as the line of a node shows them."""
    active = (*SENT_WORDS, "join", "correct", "tentative", "incorrect", "invalid", "null")
    shown = [words[words.index("mem") + 1] for words in lines if words[4] in active]
    return shown[0] if shown else "0" * 2 * medl.member_bytes


def lines_of(medl, slots, number, choose=traces.oldest):
    """The four lines, counted in a trace of the generated run that is made of the lines that are chosen."""
    script = rules.Script(script_text(medl, slots, number))
    _, *lines, keep = (line.split(" ") for line in traces.trace(medl, script, choose).splitlines())
    nodes = [words for words in lines if words[2] == "node"]
    hosts = [words[4] for words in lines if words[2] == "host"]
    sent, left = (sum(words[4] in told for words in nodes) for told in (SENT_WORDS, LEFT_WORDS))
    return (
        f"sample slots {slots} number {number}\n"
        f"sent {sent} left {left} members {members_in(medl, nodes[-medl.nodes:])}\n"
        f"writes {hosts.count('write')} reads {hosts.count('read')}\n"
        f"{' '.join(keep)}\n"
    )


def fault_of(program, path, slots, number):
    """What is wrong with the lines that `sample` writes for the list of a file, if something is."""
    command = [program, "sample", path, str(slots), str(number)]
    found = subprocess.run(command, capture_output=True, encoding="latin-1", check=False)
    right = lines_of(traces.list_in(path), slots, number)
    if (found.returncode, found.stdout) == (0, right):
        return None
    return f"sample {slots} {number}: status {found.returncode}, found {found.stdout!r}, right is {right!r}"
