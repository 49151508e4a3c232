"""The rules of the bench, read a second time: from docs/PROTOCOL.md and the pages that
it names, and from docs/FORMATS.md, never from crates/.

`lines_of` tells a run line by line. Where the rules leave a choice, the number of the message that a frame carries or
that a host reads, all legal lines are told, and whoever asked for them answers the one that was taken. Lists and scripts
are taken for right ones.
"""

import itertools
import re
from copy import copy

from script_tests import start_of, test_lines

GENERATOR = 0x5D6DCB
IMPLICIT, EXPLICIT, EXPLICIT_WITH_PAYLOAD, COLD_START = range(4)
HEADERS = {"N": IMPLICIT, "I": EXPLICIT, "X": EXPLICIT_WITH_PAYLOAD}
SILENCE, NOISE = "silence", "noise"
# The views of a channel, the better ones first.
FIRST, SECOND, OTHER, BAD, SILENT = range(5)


# Lists and scripts.


class Slot:
    """A slot of the round, which its node owns."""

    def __init__(self, keys):
        self.kinds = keys["kinds"]
        self.data = keys["data"]
        self.sync = keys["sync"]
        self.start = keys["start"]
        self.requests = keys.get("requests", False)
        self.live = keys.get("live")


# A string, a boolean, or an integer: decimal, hexadecimal, octal or binary, perhaps with underscores between its digits.
VALUE = r"""("[^"]*"|'[^']*'|true|false|0x[\dA-Fa-f_]+|0o[0-7_]+|0b[01_]+|[+-]?\d[\d_]*)"""


class List:
    """A descriptor list, from its text. Keys at the top and of a slot have different names."""

    def __init__(self, text):
        top, slots = {}, []
        text = re.sub(r"#.*", "", text)
        for opened, key, value in re.findall(r"(\[\[\s*slot\s*\]\]|\{)|(\w+)\s*=\s*" + VALUE, text):
            if opened:
                slots.append({})
            else:
                meant = value[1:-1] if value[0] in "\"'" else value == "true" if value in ("true", "false") else int(value, 0)
                (slots[-1] if slots and key in ("kinds", "data", "sync", "start", "requests", "live") else top)[key] = meant
        self.version, self.rounds, self.schedule = top["version"], top["rounds"], top["schedule"]
        self.buffers = top["buffers"]
        self.modes = top.get("modes", 1)
        self.drift, self.error, self.window = top["drift"], top["error"], top["window"]
        self.slots = [Slot(keys) for keys in slots]
        self.nodes = len(slots)
        self.member_bytes = 2 if self.version == 1 else 3

    def header(self, round_, slot):
        return HEADERS[self.slots[slot].kinds[round_]]

    def payload(self, header, slot):
        """How many bytes of payload a frame of this header has in this slot."""
        return self.slots[slot].data if header in (IMPLICIT, EXPLICIT_WITH_PAYLOAD) else 0


class Told(dict):
    """What lines say, by places; of a place that no line names there is this."""

    def __init__(self, nothing):
        super().__init__()
        self.nothing = nothing

    def __missing__(self, _):
        return self.nothing


class Script:
    """A script, from its text: what happens to each node in each slot."""

    def __init__(self, text):
        self.slots = 0
        self.on, self.drift = {}, Told(0)
        # By node, channel and slot: the faults of what it sends and hears, and its flipped bits.
        self.send, self.receive, self.flips = Told(()), Told(()), Told(())
        # By node and slot.
        self.errors, self.jumps, self.writes = Told(0), Told(0), Told(())
        self.armed = []
        # By slot, in the order of the script: who writes, and who reads what.
        self.writers, self.reads = Told(()), Told(())
        for line in text.split("\n"):
            words = line.rstrip("\r").replace("\t", " ").split(" ")
            words = [word for word in words if word]
            if words and words[0][0] != "#":
                getattr(self, "say_" + words[0])(*words[1:])

    def say_slots(self, count):
        self.slots = int(count)

    def say_on(self, node, slot):
        self.on[int(node)] = int(slot)

    def say_drift(self, node, value):
        self.drift[int(node)] = int(value)

    def say_send(self, node, channels, fault, first, last):
        for channel, slot in itertools.product(channels, range(int(first), int(last) + 1)):
            self.send[int(node), channel, slot] += (fault,)

    def say_receive(self, node, channels, fault, first, last):
        for channel, slot in itertools.product(channels, range(int(first), int(last) + 1)):
            self.receive[int(node), channel, slot] += (fault,)

    def say_flip(self, node, channels, bit, slot):
        for channel in channels:
            self.flips[int(node), channel, int(slot)] += (int(bit),)

    def say_error(self, node, value, first, last):
        for slot in range(int(first), int(last) + 1):
            self.errors[int(node), slot] += int(value)

    def say_jump(self, node, value, slot):
        self.jumps[int(node), int(slot)] += int(value)

    def say_arm(self, node, slot):
        self.armed.append((int(node), int(slot)))

    def say_write(self, node, slot, payload):
        self.writes[int(node), int(slot)] += (bytes.fromhex(payload),)
        self.writers[int(slot)] += (int(node),)

    def say_read(self, node, slot, source):
        self.reads[int(slot)] += ((int(node), source if source == "status" else int(source)),)


# Frames.


def shifted(register):
    """The register of the check after one more bit of zero: eight of these make a byte."""
    return (register << 1 & 0xFFFFFF) ^ (GENERATOR if register & 0x800000 else 0)


def shifted_by_a_byte(front):
    register = front << 16
    for _ in range(8):
        register = shifted(register)
    return register


AFTER_FRONT = [shifted_by_a_byte(front) for front in range(256)]


def check_word(start, data):
    """The check word of these bytes: each bit is added to the register's front before it is shifted."""
    register = start
    for byte in data:
        register = (register << 8 & 0xFFFFFF) ^ AFTER_FRONT[register >> 16 ^ byte]
    return register.to_bytes(3, "big")


class CState:
    """The controller state: time, place in the cycle, and members."""

    def __init__(self, time, round_, slot, members):
        self.time, self.round, self.slot, self.members = time, round_, slot, frozenset(members)

    def with_members(self, members):
        return CState(self.time, self.round, self.slot, members)

    def next(self, medl):
        slot = (self.slot + 1) % medl.nodes
        round_ = (self.round + 1) % medl.rounds if slot == 0 else self.round
        return CState((self.time + 1) % 65536, round_, slot, self.members)

    def bytes(self, medl):
        members = sum(1 << member for member in self.members)
        return self.time.to_bytes(2, "big") + bytes([self.round, self.slot]) + members.to_bytes(medl.member_bytes, "big")


def cstate_in(data):
    members = int.from_bytes(data[4:], "big")
    return CState(int.from_bytes(data[:2], "big"), data[2], data[3], (k for k in range(24) if members >> k & 1))


def frame(medl, header, cstate, payload):
    state = cstate.bytes(medl)
    if header == IMPLICIT:
        return bytes([header]) + payload + check_word(medl.schedule, state + bytes([header]) + payload)
    sent = bytes([header]) + state + payload
    return sent + check_word(medl.schedule, sent)


def frame_length(medl, header, payload):
    return 1 + (0 if header == IMPLICIT else 4 + medl.member_bytes) + payload + 3


def carried(medl, bits):
    """The C-state that explicit bytes carry, where their check word is right."""
    if check_word(medl.schedule, bits[:-3]) == bits[-3:]:
        return cstate_in(bits[1 : 5 + medl.member_bytes])
    return None


def payload_of(medl, bits):
    return bits[1:-3] if bits[0] == IMPLICIT else bits[5 + medl.member_bytes : -3]


def joinable(medl, bits):
    """The C-state of a frame that a listening node joins on, or None."""
    header = bits[0]
    if header not in (EXPLICIT, EXPLICIT_WITH_PAYLOAD, COLD_START) or len(bits) < frame_length(medl, header, 0):
        return None
    cstate = carried(medl, bits)
    if cstate is None or cstate.round >= medl.rounds or cstate.slot >= medl.nodes:
        return None
    if cstate.slot not in cstate.members or max(cstate.members) >= medl.nodes:
        return None
    if header == COLD_START:
        is_due = medl.slots[cstate.slot].start
    else:
        is_due = medl.header(cstate.round, cstate.slot) == header
    right_length = frame_length(medl, header, medl.payload(header, cstate.slot))
    return cstate if is_due and len(bits) == right_length else None


# What comes on a channel is SILENCE, NOISE, or a pair of the node that sent and its bytes.


def flipped(bits, places):
    out = bytearray(bits)
    for place in places:
        if place < 8 * len(out):
            out[place // 8] ^= 0x80 >> place % 8
    return bytes(out)


def on_channel(script, t, channel, frames):
    """What a channel carries in a slot, of the frames that nodes send."""
    remain = []
    for node, bits in frames.items():
        faults = script.send[node, channel, t]
        if SILENCE not in faults:
            remain.append(NOISE if NOISE in faults else (node, flipped(bits, script.flips[node, channel, t])))
    return SILENCE if not remain else remain[0] if len(remain) == 1 else NOISE


def heard_by(script, t, channel, node, arriving):
    faults = script.receive[node, channel, t]
    if SILENCE in faults or arriving == SILENCE:
        return SILENCE
    return NOISE if NOISE in faults else arriving


# A node.


def average(notes):
    """The fault-tolerant average of the last four deviations, towards zero."""
    middle = sum(sorted(notes[-4:])[1:3])
    return middle // 2 if middle >= 0 else -(-middle // 2)


class Node:
    def __init__(self, number):
        self.number = number
        self.phase = "off"
        self.clock = 0
        self.cut_loose()

    def cut_loose(self):
        """Forgets all that only an active node has."""
        self.cstate = None
        self.members, self.accepted, self.rejected = frozenset(), 0, 0
        # None, "first", or the node that is in doubt.
        self.ack = None
        self.is_newest_own_frame_cold_start = False
        self.notes = []

    def copied(self):
        other = copy(self)
        other.notes = list(self.notes)
        return other

    def listen(self, limit):
        self.phase, self.silent_slots, self.limit = "listening", 0, limit

    def begin(self, medl, script, t):
        """The beginning of a slot."""
        if script.on.get(self.number) == t:
            self.listen(2 * medl.nodes + self.number)
        elif self.phase == "left" and (self.number, t) in script.armed:
            self.listen(2 * medl.nodes + self.number)
        if self.phase != "off":
            self.clock += script.jumps[self.number, t]
        if self.phase == "active":
            self.cstate = self.cstate.next(medl)
            if self.cstate.slot == 0:
                self.notes = []

    def act(self, medl):
        """What the node does in the slot."""
        if self.phase == "off":
            return "off"
        if self.phase == "left":
            return "gone"
        if self.phase == "listening":
            return "start" if medl.slots[self.number].start and self.silent_slots >= self.limit else "listen"
        if self.cstate.slot != self.number:
            return "judge"
        if self.ack is not None:
            return "retry" if self.is_newest_own_frame_cold_start else "unacknowledged"
        return "send" if self.accepted > self.rejected else "clique"

    def activate(self, cstate, ack):
        self.phase, self.cstate, self.members, self.ack = "active", cstate, cstate.members, ack
        self.accepted, self.rejected, self.notes = 1, 0, []

    def note(self, medl, deviation):
        if medl.slots[self.cstate.slot].sync:
            self.notes.append(deviation)

    def start(self, medl):
        self.activate(CState(0, 0, self.number, {self.number}), "first")
        self.is_newest_own_frame_cold_start = True
        self.note(medl, 0)

    def send(self, medl):
        self.members |= {self.number}
        self.accepted, self.rejected, self.ack = 1, 0, "first"
        self.is_newest_own_frame_cold_start = False
        self.note(medl, 0)

    def own_cstate(self):
        return self.cstate.with_members(self.members)

    def retry(self, medl):
        self.cut_loose()
        self.listen(medl.nodes + self.number)

    def leave(self):
        self.cut_loose()
        self.phase = "left"

    def hear_listening(self, medl, heard, deviations):
        """Joins, where it hears a frame to join on. The word of its line, and its peer."""
        for arrival, deviation in zip(heard, deviations):
            cstate = joinable(medl, arrival[1]) if isinstance(arrival, tuple) else None
            if cstate is not None:
                self.activate(cstate, None)
                self.clock += deviation
                self.note(medl, 0)
                return "join", cstate.slot
        self.silent_slots = self.silent_slots + 1 if all(arrival == SILENCE for arrival in heard) else 0
        return "wait", None

    def candidates(self, sender):
        own = self.number
        members = self.members | {sender}
        if self.ack is None:
            return [members]
        if self.ack == "first":
            return [members | {own}, members - {own}]
        return [(members | {own}) - {self.ack}, (members - {own}) | {self.ack}]

    def view(self, medl, arrival, deviation):
        """What one channel tells of the slot's sender."""
        if arrival == SILENCE:
            return SILENT
        if arrival == NOISE or abs(deviation) > medl.window:
            return BAD
        bits = arrival[1]
        sender = self.cstate.slot
        header = medl.header(self.cstate.round, sender)
        if bits[0] != header or len(bits) != frame_length(medl, header, medl.payload(header, sender)):
            return BAD
        if header != IMPLICIT and carried(medl, bits) is None:
            return BAD
        for view, members in zip((FIRST, SECOND), self.candidates(sender)):
            if bits == frame(medl, header, self.cstate.with_members(members), payload_of(medl, bits)):
                return view
        return OTHER

    def judge(self, medl, heard, deviations):
        """Judges another node's slot. The word of its line, its peer, and what it delivers."""
        sender = self.cstate.slot
        views = [self.view(medl, arrival, deviation) for arrival, deviation in zip(heard, deviations)]
        taken = min(views)
        channel = views.index(taken)
        in_doubt = self.ack not in (None, "first")
        if taken == FIRST:
            self.members |= {sender}
            self.accepted += 1
            if in_doubt:
                self.members -= {self.ack}
                self.rejected += 1
            self.ack = None
            self.note(medl, deviations[channel])
            header = medl.header(self.cstate.round, sender)
            if medl.payload(header, sender) == 0:
                return "correct", sender, None
            return "correct", sender, payload_of(medl, heard[channel][1])
        if taken == SECOND and in_doubt:
            self.leave()
            return "denied", sender, None
        if taken == SECOND:
            self.members |= {sender}
            self.ack = sender
            return "tentative", sender, None
        self.members -= {sender}
        self.rejected += taken != SILENT
        return {OTHER: "incorrect", BAD: "invalid", SILENT: "null"}[taken], sender, None

    def end(self, medl, script):
        """The end of a slot: the correction of a round, and the drift. Whether there was a correction."""
        is_corrected = self.phase == "active" and self.cstate.slot == medl.nodes - 1 and len(self.notes) >= 4
        if is_corrected:
            self.clock += average(self.notes)
        if self.phase != "off":
            self.clock += script.drift[self.number]
        return is_corrected

    def line(self, medl, t, word, peer, message):
        ack = {None: "none", "first": "first"}.get(self.ack, f"doubt:{self.ack}")
        members = sum(1 << member for member in self.members)
        shown = [str(part) if part is not None else "-" for part in (peer, message)]
        return (
            f"slot {t} node {self.number} {word} peer {shown[0]} msg {shown[1]} mem {members:0{2 * medl.member_bytes}x}"
            f" acc {self.accepted} rej {self.rejected} ack {ack} clock {self.clock}"
        )

    def status(self, medl, t, word, is_delivered, is_corrected):
        """The message of the slot in the status ring."""
        in_doubt = self.ack not in (None, "first")
        flags = (
            (self.phase == "active", 1), (self.phase == "listening", 2), (self.phase == "left", 4),
            (word in ("start", "send"), 8), (is_delivered, 16), (self.ack is not None, 32), (in_doubt, 64),
            (is_corrected, 128),
        )
        cstate = int.from_bytes(self.own_cstate().bytes(medl), "big") if self.phase == "active" else 0
        words = (t, sum(flag for holds, flag in flags if holds), cstate, 256 * self.accepted + self.rejected)
        return b"".join(number.to_bytes(8, "big") for number in words)


# A cluster.


class Cluster:
    """The nodes of a list and the messages of their rings, between two slots."""

    def __init__(self, medl):
        self.nodes = [Node(k) for k in range(medl.nodes)]
        zeros = [bytes(slot.data) for slot in medl.slots]
        # What each host wrote; and what it may read: its status, and what its node delivered of each sender.
        self.outgoing = [[data] for data in zeros]
        self.incoming = {}
        for host in range(medl.nodes):
            self.incoming[host, "status"] = [bytes(32)]
            self.incoming.update({(host, sender): [data] for sender, data in enumerate(zeros)})
        # The number of the newest message that a host has read of a ring.
        self.read = Told(0)


class Outcome:
    """What a slot makes of a cluster: the nodes with their lines, and by host and source the messages for hosts."""

    def __init__(self, nodes):
        self.nodes = [node.copied() for node in nodes]
        self.lines, self.messages = [], {}


def outcome_by_numbers(cluster, medl, script, t, acts, numbers, channels=None):
    """What a slot makes of a cluster whose nodes have begun it and whose hosts have written.

    `numbers` has the message number of each frame that carries one. `channels` has what the channels carry, where another text
    tells it; else it is what the nodes send.
    """
    after = Outcome(cluster.nodes)
    frames, told = {}, {}
    for node, act in zip(after.nodes, acts):
        k = node.number
        if act == "start":
            node.start(medl)
            frames[k] = frame(medl, COLD_START, node.own_cstate(), b"")
            told[k] = ("start", k, None)
        elif act == "send":
            node.send(medl)
            payload = cluster.outgoing[k][numbers[k]] if k in numbers else b""
            frames[k] = frame(medl, medl.header(node.cstate.round, k), node.own_cstate(), payload)
            told[k] = ("send", k, numbers.get(k))
        elif act == "retry":
            node.retry(medl)
            told[k] = ("retry", None, None)
        elif act in ("unacknowledged", "clique"):
            node.leave()
            told[k] = (act, k, None)
        elif act in ("off", "gone"):
            told[k] = (act, None, None)
    channels = channels or {channel: on_channel(script, t, channel, frames) for channel in "AB"}
    for node, act in zip(after.nodes, acts):
        k = node.number
        # A clock is read as it is at the beginning of the slot, after its jumps.
        heard = [heard_by(script, t, channel, k, channels[channel]) for channel in "AB"]
        deviations = [
            cluster.nodes[arrival[0]].clock - cluster.nodes[k].clock + script.errors[k, t]
            if isinstance(arrival, tuple) else 0
            for arrival in heard
        ]
        delivered = None
        if act == "listen":
            word, peer = node.hear_listening(medl, heard, deviations)
            told[k] = (word, peer, None)
        elif act == "judge":
            word, peer, delivered = node.judge(medl, heard, deviations)
            told[k] = (word, peer, None if delivered is None else len(cluster.incoming[k, peer]))
            if delivered is not None:
                after.messages[k, peer] = delivered
        is_corrected = node.end(medl, script)
        after.lines.append(node.line(medl, t, *told[k]))
        after.messages[k, "status"] = node.status(medl, t, told[k][0], delivered is not None, is_corrected)
    return after


def tell_slot(cluster, medl, script, t, take):
    """Takes a cluster through a slot. Each line is one of those that `take` is handed, and answers."""
    finished = [len(ring) - 1 for ring in cluster.outgoing]
    for node in cluster.nodes:
        node.begin(medl, script, t)
        cluster.outgoing[node.number] += script.writes[node.number, t]
    acts = [node.act(medl) for node in cluster.nodes]
    loaded = [
        k for k, act in enumerate(acts)
        if act == "send" and medl.payload(medl.header(cluster.nodes[k].cstate.round, k), k) > 0
    ]
    # A frame carries a message between the newest one before the slot and the newest one of the slot. Each choice has
    # its outcome; those that show another line than the one taken fall away.
    legal = [range(finished[k], len(cluster.outgoing[k])) for k in loaded]
    possible = [
        outcome_by_numbers(cluster, medl, script, t, acts, dict(zip(loaded, numbers)))
        for numbers in itertools.product(*legal)
    ]
    for k in range(medl.nodes):
        line = take(list(dict.fromkeys(after.lines[k] for after in possible)))
        possible = [after for after in possible if after.lines[k] == line]
    after = possible[0]
    cluster.nodes = after.nodes
    for place, message in after.messages.items():
        cluster.incoming[place].append(message)

    for host in script.writers[t]:
        finished[host] += 1
        take([f"slot {t} host {host} write {finished[host]}"])
    for host, source in script.reads[t]:
        # A read gets a message between the newest one before the slot and the newest one after it, and none that is
        # older than one that the host has read of the ring.
        ring = cluster.incoming[host, source]
        before = len(ring) - 1 - ((host, source) in after.messages)
        numbers = range(max(before, cluster.read[host, source]), len(ring))
        lines = {f"slot {t} host {host} read {source} {number} {ring[number].hex()}": number for number in numbers}
        cluster.read[host, source] = lines[take(list(lines))]


def lines_of(medl, script, take):
    """Tells the lines of a run: `take` is handed the legal ones at each place, and answers the one that was taken."""
    take([
        f"ttpbench trace {medl.version} nodes {medl.nodes} rounds {medl.rounds} slots {script.slots}"
        f" schedule {medl.schedule:06x}"
    ])
    cluster = Cluster(medl)
    for t in range(script.slots):
        tell_slot(cluster, medl, script, t, take)
    for line in test_lines(medl, script):
        take([line])


# One two-faced sender.


def rule_broken_by_faced(medl, script, faced):
    """The first rule that is broken where this node is to be the two-faced one, with its slot, or None."""
    n = medl.nodes
    bound = 12 * medl.drift * n + 6 * medl.error + 2
    start, first, is_in_time = start_of(medl, script)
    if faced >= n:
        return 0, 0

    def allowed(t):
        is_turn = len(first) == 1 and t >= start + 2 * n and (first[0] + t - start) % n == faced
        return max(medl.error, medl.window - bound) if is_turn else medl.error

    if any(abs(value) > medl.drift for value in script.drift.values()):
        return 1, 0
    wide = [t for (_, t), value in script.errors.items() if abs(value) > allowed(t)]
    if wide:
        return 1, min(wide)
    if medl.window < 12 * medl.drift * n + 7 * medl.error + 2:
        return 2, 0
    disturbed = [t for _, _, t in (*script.send, *script.receive, *script.flips)] + [t for _, t in script.jumps]
    if disturbed:
        return 3, min(disturbed)
    if len(first) != 1 or not is_in_time:
        return 4, 0
    return (5, 0) if sum(medl.slots[k].sync for k in script.on) < 4 else None


def precision_line(medl, script, faced):
    """What `precision` writes of a node: how far apart the clocks of the others come."""
    broken = rule_broken_by_faced(medl, script, faced)
    if broken is not None:
        return f"precision no F{broken[0]} {broken[1]}"
    start, _, _ = start_of(medl, script)
    cluster, seen, at = Cluster(medl), 0, start
    for t in range(script.slots):
        tell_slot(cluster, medl, script, t, lambda legal: legal[0])
        clocks = [node.clock for node in cluster.nodes if node.phase != "off" and node.number != faced]
        if t >= start and len(clocks) > 1 and max(clocks) - min(clocks) > seen:
            seen, at = max(clocks) - min(clocks), t
    bound = 12 * medl.drift * medl.nodes + 6 * medl.error + 2
    return f"precision node {faced} start {start} bound {bound} seen {seen} slot {at}"
