"""Texts of `ttplab frames`, read a second time, by docs/FRAMES.md and the pages that it names.

Each line is made and taken apart bit by bit, with a check word whose register is 24 single bits, and the nodes of the second
reading hear nothing but what the lines say: what they do then is what the trace says. A list, a script and a trace of it leave
nothing of a text open, so `faults` finds each change of it.
"""

import re

import rules

HEADERS = {"N": 0, "I": 1, "X": 2, "cold": 3}
LINE = re.compile(
    r"slot (0|[1-9]\d*) ([AB]) node (0|[1-9]\d*) (cold|I|N|X) (match|differs|invalid|noise|collision)"
    r" clock (0|-?[1-9]\d*) state ([0-9a-f]+)((?: [0-9a-f]+)*)"
)


def bits_of(data):
    """The bits of some bytes, each byte's most significant one first."""
    return [byte >> place & 1 for byte in data for place in range(7, -1, -1)]


def bytes_of(bits):
    return bytes(int("".join(map(str, bits[at : at + 8])), 2) for at in range(0, len(bits), 8))


GENERATOR = bits_of(rules.GENERATOR.to_bytes(3, "big"))


def check_bits(schedule, bits):
    """The check word of bits: the register moves left by one for each, and where the bit that leaves differs, the generator is added."""
    register = bits_of(schedule.to_bytes(3, "big"))
    for bit in bits:
        leaves, register = register[0], [*register[1:], 0]
        if leaves != bit:
            register = [one ^ other for one, other in zip(register, GENERATOR)]
    return register


class Line:
    """A line of the text, by its words."""

    def __init__(self, text):
        words = LINE.fullmatch(text)
        if words is None:
            raise ValueError(f"no line of frames: {text!r}")
        self.slot, self.channel, self.node, self.kind, self.word = int(words[1]), words[2], int(words[3]), words[4], words[5]
        self.clock, self.state, self.parts = int(words[6]), words[7], words[8].split()
        self.bytes = bytes.fromhex("".join(self.parts))

    def place(self):
        return self.slot, self.channel, self.node


def sent_bits(medl, kind, state, payload):
    """The bits of a frame, before any is flipped."""
    carried = [] if kind == "N" else bits_of(state)
    front = bits_of([HEADERS[kind]]) + carried + bits_of(payload)
    return front + check_bits(medl.schedule, (bits_of(state) if kind == "N" else []) + front)


def parts_of(kind, size, bits):
    """The words of a line for these bits, where a C-state has so many bytes."""
    ends = [0, 8, 8 if kind == "N" else 8 + 8 * size, len(bits) - 24, len(bits)]
    return [bytes_of(bits[first:last]).hex() for first, last in zip(ends, ends[1:]) if first < last]


def found(medl, kind, length, state, bits):
    """What a receiver finds that expects a frame of this kind and length, and holds this C-state."""
    if bits[:8] != bits_of([HEADERS[kind]]) or len(bits) != 8 * length:
        return "invalid"
    held = bits_of(state)
    if check_bits(medl.schedule, (held if kind == "N" else []) + bits[:-24]) != bits[-24:]:
        return "differs" if kind == "N" else "invalid"
    return "match" if kind == "N" or bits[8 : 8 + len(held)] == held else "differs"


def head_of(medl, script):
    return f"ttplab frames {medl.version} nodes {medl.nodes} rounds {medl.rounds} slots {script.slots} schedule {medl.schedule:06x}"


def places_due(script, trace):
    """Slot, channel and sender of each line that is due: a node sends by the trace, and no send fault silences it."""
    for t, lines in enumerate(trace):
        for channel in "AB":
            for node, line in enumerate(lines):
                if line.split()[4] in ("start", "send") and rules.SILENCE not in script.send[node, channel, t]:
                    yield t, channel, node


def carried_by(lines):
    """What a channel carries, of whom all lines of a slot and a channel are these."""
    if not lines:
        return rules.SILENCE
    return (lines[0].node, lines[0].bytes) if len(lines) == 1 and lines[0].bytes else rules.NOISE


def faults_of_line(medl, script, line, count, state, clock, kind, payload):
    """What is wrong with a line, one of so many, of a sender that holds this C-state and has this clock."""
    if (line.kind, line.clock, line.state) != (kind, clock, state.hex()):
        yield f"kind, clock and state are {kind} {clock} {state.hex()}"
    if count > 1 or rules.NOISE in script.send[line.node, line.channel, line.slot]:
        if (line.word, line.parts) != ("collision" if count > 1 else "noise", []):
            yield "it is a collision" if count > 1 else "it is noise"
        return
    bits = sent_bits(medl, kind, state, payload)
    length = len(bits) // 8
    for place in script.flips[line.node, line.channel, line.slot]:
        if place < len(bits):
            bits[place] ^= 1
    if line.parts != parts_of(kind, len(state), bits):
        yield f"the bytes are {parts_of(kind, len(state), bits)}"
    word = found(medl, kind, length, state, bits_of(line.bytes))
    if line.word != word:
        yield f"a receiver finds: {word}"


def faults(medl, script, trace, text):
    """What is wrong with a text of frames for this trace of the script. A text with other lines than are due is read no further."""
    shown = [line for line in trace.split("\n") if re.match(r"slot \d+ node ", line)]
    by_slot = [shown[at : at + medl.nodes] for at in range(0, len(shown), medl.nodes)]
    head, *rest = text.split("\n")
    if head != head_of(medl, script):
        yield f"line 1: right is {head_of(medl, script)!r}"
    if not rest or rest.pop():
        yield "the last line has no line feed"
    try:
        lines = [Line(one) for one in rest]
    except ValueError as no_line:
        yield str(no_line)
        return
    due = list(places_due(script, by_slot))
    if [line.place() for line in lines] != due:
        yield f"other lines than are due: {sorted({line.place() for line in lines} ^ set(due))[:3]}"
        return
    numbers, on_bus = {}, {}
    for number, line in enumerate(lines, 2):
        numbers[line.place()] = number
        on_bus.setdefault((line.slot, line.channel), []).append(line)
    cluster = rules.Cluster(medl)
    for t in range(script.slots):
        for node in cluster.nodes:
            node.begin(medl, script, t)
            cluster.outgoing[node.number] += script.writes[node.number, t]
        acts = [node.act(medl) for node in cluster.nodes]
        clocks = [node.clock for node in cluster.nodes]
        words = [line.split() for line in by_slot[t]]
        carried = {k: int(words[k][8]) for k, act in enumerate(acts) if act == "send" and words[k][8] != "-"}
        here = {channel: on_bus.get((t, channel), []) for channel in "AB"}
        channels = {channel: carried_by(on_it) for channel, on_it in here.items()}
        after = rules.outcome_by_numbers(cluster, medl, script, t, acts, carried, channels)
        for line in (*here["A"], *here["B"]):
            node = after.nodes[line.node]
            if node.phase != "active":
                yield f"line {numbers[line.place()]}: node {line.node} sends nothing"
                return
            kind = "cold" if acts[line.node] == "start" else medl.slots[line.node].kinds[node.cstate.round]
            payload = cluster.outgoing[line.node][carried[line.node]] if line.node in carried else b""
            own = node.own_cstate().bytes(medl)
            for fault in faults_of_line(medl, script, line, len(here[line.channel]), own, clocks[line.node], kind, payload):
                yield f"line {numbers[line.place()]}: {fault}"
        for k, line in enumerate(after.lines):
            if line != by_slot[t][k]:
                yield f"who hears these lines gives {line!r}, and the trace {by_slot[t][k]!r}"
                return
        cluster.nodes = after.nodes
        for place, message in after.messages.items():
            cluster.incoming[place].append(message)
