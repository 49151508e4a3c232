#!/usr/bin/env python3
"""Finds the facts of docs/FAULTS.md again, by campaigns: what single faults, and second ones, cost a cluster.

`benchmarks/facts.py` makes lists and scripts, has `ttplab campaign` run them, and prints for each fact what was looked
for, what was found, and where that is not the fact, what the page says. The last line counts the facts that were found
and the runs; the status is 0 exactly where all were. `benchmarks/facts.py NAME..` looks for some of them: 1 to 11, and m1 to m10
of docs/MARGINS.md (margin_facts.py) and p1 to p11 of docs/PAIRS.md (pair_facts.py), which take longer and are looked for where
they are named alone; `margins` and `pairs` name all of these. `benchmarks/facts.py --write FOLDER` writes the lists and scripts
that the pages' commands name, those of margins and pairs into folders of these names.

Node 0 starts each cluster, all nodes are on from slot 0, and each frame is an I-frame without payload, unless a fact says
otherwise. n is the number of nodes, S the slot of the start, which is 2 n here, and W the list's `window`. It needs the
program `ttplab` that `./prove` builds, or one that `TTPLAB_UNPROVED` names.
"""

import collections
import itertools
import os
import random
import subprocess
import sys
import tempfile

import margin_facts
import pair_facts
from programs import TOP
from runs import list_text, script_text, written

sys.path.insert(0, os.path.join(TOP, ".ci"))
from counted import program  # noqa: E402

DRIFTING = {"drift": 1, "error": 1}


class Cluster:
    """A list, and the scripts for it: clocks drift ahead and behind by turns, and err so by turns of two."""

    def __init__(self, nodes, slots, *, drift=0, error=0, window=None, kind="I", data=0, on=None):
        self.nodes, self.slots = nodes, slots
        self.window = window or max(1, 4 * drift * nodes + 3 * error + 1)
        self.on = nodes if on is None else on
        self.list = list_text([kind] * nodes, [data] * nodes, drift=drift, error=error, window=self.window)
        self.clocks = [f"drift {k} {drift * (-1) ** k}" for k in range(nodes) if drift]
        self.clocks += [f"error {k} {error * (-1) ** (k // 2)} 0 {slots - 1}" for k in range(nodes) if error]

    def script(self, lines=()):
        return script_text(self.on, self.slots, [*self.clocks, *lines])


class Line:
    """What a line of a campaign says; that of the script's own run has no fault."""

    def __init__(self, text):
        words = text.split(" ")
        self.says_yes, self.rule = words[5] == "yes", words[6]
        self.left = {}
        for word in [] if words[9] == "-" else words[9].split(","):
            node, slot, _ = word.split(":")
            self.left[int(node)] = int(slot)
        self.hurt = set() if words[11] == "-" else {int(word) for word in words[11].split(",")}
        self.split = 0 if words[13] == "-" else int(words[14]) - int(words[13]) + 1
        self.end = [] if words[16] == "-" else [bin(int(word, 16)).count("1") for word in words[16].split(",")]
        self.cost, self.fault = " ".join(words[8:17]), " ".join(words[18:])
        if self.fault != "-":
            self.slot, self.node = int(words[1]), int(words[3])
            self.kind, self.is_jump = words[18], words[18] == "jump"
            self.size = int(words[20]) if self.is_jump else 0
            self.channels = "" if self.is_jump else words[20]
            self.lasts = not self.is_jump and words[22] != words[23]

    def others(self, *nodes):
        """The nodes that left beside these."""
        return set(self.left) - set(nodes)

    def hurt_others(self):
        return self.hurt - {self.node}

    @property
    def is_torn(self):
        return len(self.end) > 1

    @property
    def is_dead(self):
        return all(members < 2 for members in self.end)

    def is_full(self, window):
        """Whether the fault is a loss on both channels, or a jump by four windows."""
        return self.channels == "AB" or self.is_jump and abs(self.size) == 4 * window


class Lab:
    """The program, and what was counted of all that it wrote."""

    def __init__(self, folder):
        self.folder = folder
        self.runs = self.kept = self.unsafe = 0
        self.found = {}
        # What margins and pairs were asked for already.
        self.texts = {}

    def text_of(self, *words):
        """What the program writes for these words."""
        ran = subprocess.run([program("ttplab"), *words], capture_output=True, text=True)
        if ran.returncode != 0:
            sys.exit(f"status {ran.returncode} for {' '.join(words)}: {ran.stdout[-1000:]}{ran.stderr}")
        return ran.stdout

    def read(self, listed, script, first, last):
        """The line of the script's own run, and those of the faults in slots from first to last."""
        files = written(self.folder, "list", listed), written(self.folder, "script", script)
        own, *lines = [Line(text) for text in self.text_of("campaign", *files, str(first), str(last)).splitlines()[1:-2]]
        for line in (own, *lines):
            self.runs += 1
            self.kept += line.says_yes
            self.unsafe += line.says_yes and bool(line.hurt or line.split)
        return own, lines

    def campaign(self, cluster, first, last, lines=()):
        return self.read(cluster.list, cluster.script(lines), first, last)

    def run(self, cluster, *lines):
        """The run of a script alone: a campaign over slots that it doesn't have."""
        return self.campaign(cluster, cluster.slots, cluster.slots, lines)[0]

    def look(self, fact, what, found, right):
        """Tells what was looked for and found, and whether that is the fact."""
        is_so = found == right
        self.found[fact] = self.found.get(fact, True) and is_so
        print(f"fact {fact}: {what}: {found}" + (", which is the fact" if is_so else f", and NOT {right}"), flush=True)


class Missing(Exception):
    """A fault that the campaign didn't try."""


def line_of(lines, fault):
    for line in lines:
        if line.fault == fault:
            return line
    raise Missing(fault)


def steady(nodes):
    """A cluster without drift, for ten rounds."""
    return Cluster(nodes, 10 * nodes)


def full_faults(cluster, slot, nodes):
    """The losses on both channels that begin in a slot, and the jumps by four windows, of these nodes, as lines of a script."""
    for node in nodes:
        kind = "send" if slot % cluster.nodes == node else "receive"
        for fault, last in itertools.product(("silence", "noise"), (slot, cluster.slots - 1)):
            yield node, f"{kind} {node} AB {fault} {slot} {last}"
        for size in (4 * cluster.window, -4 * cluster.window):
            yield node, f"jump {node} {size} {slot}"


# Fact 1: where the test says yes, nobody is hurt.


def random_cluster(rng):
    """A list and a script of any size, with a fault that the hypothesis allows, and a slot two rounds behind it."""
    nodes, drift, error = rng.randint(4, 24), rng.randint(0, 3), rng.randint(0, 3)
    window, starter = 4 * drift * nodes + 3 * error + 1 + rng.randint(0, 40), rng.randrange(nodes)
    listed = list_text(["I"] * nodes, [0] * nodes, drift=drift, error=error, window=window, starters=(starter,))
    first = rng.randint(5 * nodes, 6 * nodes)
    lines = [f"drift {k} {rng.randint(-drift, drift)}" for k in range(nodes)]
    lines += [f"error {k} {rng.randint(-error, error)} 0 {10 * nodes - 1}" for k in range(nodes)]
    lines.append(rng.choice((
        f"send {first % nodes} AB {rng.choice(('silence', 'noise'))} {first} {first}",
        f"receive {(first + 1) % nodes} AB {rng.choice(('silence', 'noise'))} {first} {10 * nodes - 1}",
        f"jump {rng.randrange(nodes)} {rng.choice((-4, 4)) * window} {first}",
    )))
    return listed, script_text(nodes, 10 * nodes, lines), first + 2 * nodes + rng.randrange(nodes)


def yes_lines(lab):
    rng = random.Random(1)
    before, hurt = lab.kept, 0
    for _ in range(20):
        listed, script, slot = random_cluster(rng)
        _, lines = lab.read(listed, script, slot, slot)
        hurt += sum(bool(line.hurt or line.split) for line in lines if line.says_yes)
    kept = lab.kept - before
    what = f"20 random lists of 4 to 24 nodes, {kept} lines of second faults that say yes: are they 2,000 or more"
    lab.look(1, what, kept >= 2_000, True)
    lab.look(1, "and those that show a node hurt or memberships split", hurt, 0)


# Fact 2: a single fault costs its own node, or nothing.


def single_faults(lab):
    for cluster, first, last in [
        *((steady(nodes), 4 * nodes, 5 * nodes - 1) for nodes in (4, 5, 6, 7, 8, 12, 16)),
        (steady(24), 96, 101),
        (Cluster(8, 160, **DRIFTING), 32, 39),
    ]:
        own, lines = lab.campaign(cluster, first, last)
        full = [line for line in lines if line.is_full(cluster.window)]
        half = [line for line in lines if line.channels in ("A", "B")]
        what = f"{cluster.nodes} nodes, drift {1 if cluster.clocks else 0}, slots {first} to {last}"
        right = len(full), len(half)
        found = sum(set(line.left) == {line.node} for line in full), sum(line.cost == own.cost for line in half)
        what += ", faults on both channels that cost their own node alone, and on one that cost nothing"
        lab.look(2, what, found, right)
    own, lines = lab.campaign(steady(8), 32, 39)
    kept = [line for line in lines if line.says_yes]
    told = len(kept), sum(line.cost == own.cost for line in kept), sum(bool(line.hurt) for line in kept)
    what = "8 nodes, slots 32 to 39, lines that say yes, of them like the script's own, of them with a node hurt"
    lab.look(2, what, told, (896, 512, 0))


# Facts 3 and 4: the slot after the start.


def after_the_start(lab):
    for nodes in (4, 5, 6, 7, 8, 12, 24):
        cluster, start = steady(nodes), 2 * nodes
        last = start + 2 if nodes == 24 else 4 * nodes - 1
        _, lines = lab.campaign(cluster, 0, last)
        slot, end = start + 1, cluster.slots - 1
        some = [line for line in lines if line.is_full(1) or line.channels in ("A", "B")]
        found = sorted(line.fault for line in some if line.hurt_others())
        ending = [f"jump 1 -4 {slot}", f"jump 1 4 {slot}", f"send 1 AB noise {slot} {end}", f"send 1 AB noise {slot} {slot}"]
        deaf = f"receive 0 AB silence {slot} {end}"
        what = f"{nodes} nodes, {len(some)} losses and jumps by 4 W in slots 0 to {last}, that hurt another node"
        lab.look(3, what, found, sorted([*ending, deaf]))
        dead = [line for line in lines if line.fault in ending]
        told = sum(line.is_dead and sorted(line.left) == [*range(1, nodes)] for line in dead)
        lab.look(3, "and of the first four those after which all but the starter have left", told, 4)
        silent = line_of(lines, f"send 1 AB silence {slot} {slot}")
        lab.look(3, "and who leaves by silence there", sorted(silent.left), [1])


def deaf_starter(lab):
    cluster = Cluster(8, 200)
    _, lines = lab.campaign(cluster, 17, 17)
    line = line_of(lines, "receive 0 AB silence 17 199")
    told = line.left, sorted(line.hurt), line.end
    gone = {1: 35, 2: 52, 3: 69, 4: 86, 5: 103, 6: 126, 7: 119}
    what = "8 nodes, a starter that is deaf from slot 17 on: who leaves when, who is hurt, what is left"
    lab.look(4, what, told, (gone, [*range(1, 8)], []))
    _, lines = lab.campaign(cluster, 17, 47)
    later = [line for line in lines if line.kind == "receive" and line.node == 0 and line.channels == "AB" and line.lasts]
    found = sorted(line.fault for line in later if line.hurt)
    what = f"of {len(later)} such faults of the starter in slots 17 to 47, by silence or noise, those that hurt"
    lab.look(4, what, found, ["receive 0 AB silence 17 199"])
    told = sum(set(line.left) <= {0} and line.end == [7] for line in later)
    lab.look(4, "and those after which the other seven hold one membership", told, len(later) - 1)


# Fact 5: receivers that are dead without a sign.


def dead_receivers(lab):
    cluster = steady(8)
    dead = {
        "the same channel": ["receive 3 A silence 0 79", "receive 4 A silence 0 79"],
        "different channels": ["receive 3 A silence 0 79", "receive 4 B silence 0 79"],
        "channel A, as those of all others": [f"receive {k} A silence 0 79" for k in range(8)],
    }
    for where, lines in dead.items():
        own, lines = lab.campaign(cluster, 32, 39, lines)
        what = f"8 nodes, receivers of 3 and 4 dead on {where}: whether the test says yes, and who leaves"
        lab.look(5, what, (own.says_yes, own.left), (True, {}))
        hurt = [line for line in lines if line.hurt]
        if where != "the same channel":
            lab.look(5, f"lines of {len(lines)} with a node hurt", len(hurt), 0)
            continue
        lost = [line for line in lines if line.kind == "send" and line.channels == "B" and line.node not in (3, 4)]
        told = len(lost), sum({3, 4} <= set(line.left) for line in lost), len(hurt)
        what = "frames of the others lost on B alone, those that cost 3 and 4, and all lines with a node hurt"
        lab.look(5, what, told, (24, 24, 24))
        three = {line.node for line in lost if len(line.left) == 3}
        lab.look(5, "senders that such a loss costs too, whose successors are 3 and 4", three, {2})


# Fact 6: a clock at the edge of the window.


def edge_of_the_window(lab):
    cluster = Cluster(8, 160, **DRIFTING)
    line = lab.run(cluster, "jump 1 -36 49")
    lab.look(6, "8 drifting nodes, W 36, jump 1 -36 49: who leaves", sorted(line.left), [0, 1, 2, 4, 6])
    line = lab.run(cluster, "jump 0 29 48")
    lab.look(6, "jump 0 29 48: who leaves", sorted(line.left), [1, 3, 5, 7])
    line = lab.run(cluster, "jump 7 -14 48")
    lab.look(6, "jump 7 -14 48, seven slots before node 7 sends: who leaves", sorted(line.left), [6])
    large = Cluster(24, 200, kind="X", data=16, **DRIFTING)
    line = lab.run(large, "jump 17 -100 113")
    told = 17 in line.left, len(line.others(17))
    lab.look(6, "24 drifting nodes, jump 17 -100 113: whether 17 leaves, and how many beside", told, (True, 12))
    for some, first, last, near_hurt in ((cluster, 32, 79, 72), (large, 96, 103, 14)):
        _, lines = lab.campaign(some, first, last)
        jumps = [line for line in lines if line.is_jump and abs(line.size) == some.window]
        near = [line for line in jumps if (line.node - line.slot) % some.nodes < 2]
        far = [line for line in jumps if line not in near]
        what = f"{some.nodes} drifting nodes, slots {first} to {last}, jumps by W or -W that hurt"
        hurt = sum(bool(line.hurt) for line in near)
        lab.look(6, f"{what}, of {len(near)} whose node sends then or in the next slot", hurt, near_hurt)
        lab.look(6, f"and of the other {len(far)}", sum(bool(line.hurt) for line in far), 0)
        lab.look(6, f"and jumps of {len(jumps)} after which two memberships are left", sum(line.is_torn for line in jumps), 0)
        four = [line for line in lines if line.is_jump and abs(line.size) == 4 * some.window]
        lab.look(6, f"jumps by 4 W, of {len(four)}, that hurt a node", sum(bool(line.hurt) for line in four), 0)
    sizes_of_jumps(lab)


def sizes_of_jumps(lab):
    """Jumps of a node that sends in the slot or in the next one, by sizes around a window, for windows of three widths."""
    counts, torn = {}, 0
    for window in (36, 72, 144):
        cluster, counts[window] = Cluster(8, 160, window=window, **DRIFTING), {}
        for away in range(-30, 31, 6):
            lines = [
                lab.run(cluster, f"jump {node % 8} {sign * (window + away)} {slot}")
                for slot in range(48, 52) for node in (slot, slot + 1) for sign in (1, -1)
            ]
            hurt = sum(bool(line.hurt) for line in lines)
            torn += sum(line.is_torn for line in lines)
            if hurt:
                counts[window][away] = hurt
    told = {window: sorted(found) for window, found in counts.items()}
    right = dict.fromkeys(counts, [-12, -6, 0, 6, 12])
    lab.look(6, "jumps in slots 48 to 51 by W - 30, W - 24 .. W + 30: by W, sizes of 11 that hurt, less W", told, right)
    told = {window: sum(found.values()) for window, found in counts.items()}
    lab.look(6, "of 176 such jumps those that hurt, by W", told, dict.fromkeys(counts, 23))
    lab.look(6, "and runs of 528 after which two memberships are left", torn, 0)


# Fact 7: two faults.


def two_faults(lab):
    longest = {}
    for nodes, some in ((5, range(5)), (6, range(6)), (7, (0, 1, 2, 4)), (8, (0, 1, 2, 5))):
        cluster, slot = steady(nodes), 4 * nodes
        apart, together, torn, dead, more, spans = 0, 0, 0, 0, 0, set()
        third = collections.Counter()
        for node, fault in full_faults(cluster, slot, some):
            _, lines = lab.campaign(cluster, slot, slot + 2 * nodes + 2, [fault])
            for line in (line for line in lines if line.is_full(1)):
                torn, dead = torn + line.is_torn, dead + line.is_dead
                others = line.others(node, line.node)
                if line.slot != slot:
                    apart, more = apart + 1, more + bool(others)
                    continue
                together += 1
                spans.add(0 if line.says_yes else line.split)
                if others:
                    third[tuple(sorted((node, line.node))), tuple(others)] += 1
        what = f"{nodes} nodes, {apart} pairs of faults in different slots, 1 to {2 * nodes + 2} apart, that cost a third node"
        lab.look(7, what, more, 0)
        what = f"pairs of them and of {together} in one slot that leave two memberships, or no two nodes"
        lab.look(7, what, (torn, dead), (0, 0))
        what = "who is lost beside the two in one slot: the sender, where they are its successors"
        lab.look(7, what, dict(third), {((1, 2), (0,)): 16})
        longest[nodes] = max(spans, default=0)
    lab.look(7, "slots in which memberships are split, by nodes, at most", longest, {5: 8, 6: 10, 7: 11, 8: 13})
    _, lines = lab.campaign(steady(8), 32, 32, ["receive 1 AB noise 32 32"])
    line = line_of(lines, "receive 2 AB noise 32 32")
    lab.look(7, "8 nodes, receive 1 and receive 2 AB noise 32 32: who leaves when", line.left, {0: 34, 1: 41, 2: 42})
    for nodes in (6, 7, 8):
        cluster, slot, pairs, more = Cluster(nodes, 20 * nodes, **DRIFTING), 4 * nodes, 0, 0
        for node, fault in (
            (0, f"send 0 AB noise {slot} {slot}"),
            (1, f"receive 1 AB silence {slot} {cluster.slots - 1}"),
            (2, f"jump 2 {4 * cluster.window} {slot}"),
        ):
            _, lines = lab.campaign(cluster, slot + 1, slot + 2 * nodes + 2, [fault])
            full = [line for line in lines if line.is_full(cluster.window)]
            pairs, more = pairs + len(full), more + sum(bool(line.others(node, line.node)) for line in full)
        lab.look(7, f"{nodes} drifting nodes, {pairs} pairs of faults in different slots that cost a third node", more, 0)
    drifting_in_one_slot(lab)


def drifting_in_one_slot(lab):
    """Two faults in one slot, where clocks drift: a sender that is lost too leaves a clock less."""
    most, pairs = {}, 0
    for nodes in (6, 7, 8):
        cluster, slot = Cluster(nodes, 20 * nodes, **DRIFTING), 4 * nodes
        for node, fault in full_faults(cluster, slot, range(4)):
            _, lines = lab.campaign(cluster, slot, slot, [fault])
            full = [line for line in lines if line.is_full(cluster.window)]
            pairs += len(full)
            most[nodes] = max([most.get(nodes, 0), *(len(line.others(node, line.node)) for line in full)])
    what = f"drifting nodes, {pairs} pairs of faults in one slot: by nodes, how many are lost beside the two at most"
    lab.look(7, what, most, {6: 2, 7: 1, 8: 1})


# Fact 8: fewer than four clocks.


def too_few_clocks(lab):
    cluster = Cluster(5, 120, **DRIFTING)
    _, lines = lab.campaign(cluster, 32, 51, ["send 2 AB silence 22 22"])
    full = [line for line in lines if line.is_full(cluster.window) and line.node != 2]
    hurt = [line for line in full if line.hurt_others()]
    lab.look(8, f"5 drifting nodes, second faults of {len(full)} in slots 32 to 51 that cost a third node", len(hurt), len(full))
    waits = [line.left[node] - line.slot for line in hurt for node in line.hurt_others()]
    lab.look(8, "slots until it leaves, from and to", (min(waits, default=0), max(waits, default=0)), (8, 18))
    lab.look(8, "the rules that the tests name", {line.rule for line in full}, {"H7"})
    line = line_of(full, "send 0 AB silence 40 40")
    lab.look(8, "send 0 AB silence 40 40: who is hurt and when it leaves", (line.hurt, line.left[4]), ({4}, 54))
    calm = Cluster(5, 120)
    _, lines = lab.campaign(calm, 32, 51, ["send 2 AB silence 22 22"])
    found = sum(bool(line.hurt_others()) for line in lines if line.is_full(1))
    lab.look(8, "the same without drift: second faults that cost a third node", found, 0)
    six = Cluster(6, 120, **DRIFTING)
    _, lines = lab.campaign(six, 36, 59, ["send 2 AB silence 26 26"])
    full = [line for line in lines if line.is_full(six.window) and line.node != 2]
    found = sum(bool(line.hurt_others()) for line in full)
    lab.look(8, f"6 drifting nodes, second faults of {len(full)} in slots 36 to 59 that cost a third node", found, 0)
    _, lines = lab.campaign(six, 24, 24, ["receive 1 AB silence 24 24"])
    line = line_of(lines, "receive 2 AB silence 24 24")
    what = "6 drifting nodes, receive 1 and receive 2 AB silence 24 24: who leaves when"
    lab.look(8, what, line.left, {0: 26, 1: 31, 2: 32, 4: 46})


# Fact 9: small clusters.


def small_clusters(lab):
    cluster, dead, left = Cluster(4, 60), collections.Counter(), collections.Counter()
    pairs = 0
    for slot in range(16, 20):
        for node, fault in full_faults(cluster, slot, range(4)):
            _, lines = lab.campaign(cluster, slot, slot + 10, [fault])
            for line in (line for line in lines if line.is_full(1) and line.node != node):
                pairs += 1
                dead[line.slot - slot] += line.is_dead
                left[line.slot - slot, max(line.end, default=0)] += 1
    found = sorted(gap for gap in dead if dead[gap])
    lab.look(9, f"4 nodes, {pairs} pairs, slots between two faults that can end the cluster", found, [0, 1, 2, 3, 4])
    found = {members for gap, members in left if gap >= 5}
    lab.look(9, "how many nodes are left where they are 5 to 10 slots apart", found, {2})
    _, lines = lab.campaign(steady(4), 20, 20, ["receive 2 AB silence 16 16"])
    line = line_of(lines, "send 0 AB noise 20 20")
    what = "receive 2 AB silence 16 16 and send 0 AB noise 20 20: who leaves, and whether no two are left"
    lab.look(9, what, (sorted(line.left), line.is_dead), ([0, 1, 2, 3], True))
    for on, left in ((3, 2), (2, 0)):
        _, lines = lab.campaign(Cluster(8, 80, on=on), 32, 39)
        full = [line for line in lines if line.is_full(1)]
        what = f"{on} of 8 nodes on, losses on both channels and jumps by 4 W in slots 32 to 39, after which {left} are left"
        found = sum(max((members for members in line.end if members > 1), default=0) == left for line in full)
        lab.look(9, f"{what}, of {len(full)}", found, len(full))


# Fact 10: a frame that a set of receivers loses.


def sets_of_receivers(lab):
    least, sides = {}, set()
    for nodes in (5, 6, 7, 8):
        cluster, slot = steady(nodes), 34 if nodes == 8 else 4 * nodes + 2
        receivers = [k for k in range(nodes) if k != slot % nodes]
        tried = whole = 0
        for kind, size in itertools.product(("silence", "noise"), range(1, nodes)):
            for deaf in itertools.combinations(receivers, size):
                line = lab.run(cluster, *(f"receive {k} AB {kind} {slot} {slot}" for k in deaf))
                stays = set(range(nodes)) - set(line.left)
                some_deaf, some_hearing = bool(stays & set(deaf)), bool(stays & (set(receivers) - set(deaf)))
                tried += 1
                whole += len(line.end) == 1 and some_deaf != some_hearing
                least[nodes] = min(least.get(nodes, nodes), len(stays))
                sides.add((size * 2 - nodes > 0, size * 2 == nodes, kind, some_deaf))
        what = f"{nodes} nodes, sets of receivers that lose one frame, and those after which one group and one membership stays"
        lab.look(10, what, (tried, whole), (2 * (2 ** (nodes - 1) - 1),) * 2)
    lab.look(10, "the fewest nodes that are left, by nodes", least, {5: 2, 6: 2, 7: 3, 8: 3})
    clear = {(more, deaf) for more, equal, _, deaf in sides if not equal}
    lab.look(10, "whether the deaf are more than half, and stay", clear, {(True, True), (False, False)})
    half = {(kind, deaf) for _, equal, kind, deaf in sides if equal}
    right = {("silence", True), ("noise", True), ("noise", False)}
    lab.look(10, "where they are half: the kind of loss, and whether they stay", half, right)


# Fact 11: a node that comes back.


def returning():
    """Six nodes of which node 2 left and is armed in slot 40."""
    cluster = Cluster(6, 120, window=2)
    return cluster, ["send 2 AB noise 26 26", "arm 2 40"]


def node_that_returns(lab):
    cluster, lines = returning()
    _, lines = lab.campaign(cluster, 40, 87, lines)
    yes = [line for line in lines if line.says_yes]
    no = [line for line in lines if not line.says_yes]
    told = len(yes), sum(bool(line.hurt) for line in yes)
    lab.look(11, "6 nodes, slots 40 to 87, lines that say returns yes, and those with a node hurt", told, (2_976, 0))
    hurt = [line for line in no if line.hurt]
    lab.look(11, "lines that say returns no with a node hurt", len(hurt), 59)
    receivers = [line for line in hurt if line.kind == "receive" and line.hurt == {line.node} and line.node != 2]
    told = len(receivers), sorted({line.slot for line in receivers})
    lab.look(11, "receivers that are hurt by missing a frame, and in which slots", told, (40, [44, 50, 56, 62]))
    rest = [line for line in hurt if line not in receivers]
    told = {tuple(line.hurt) for line in rest}, sorted({line.slot for line in rest})
    lab.look(11, "who is hurt in the rest, and in which slots", told, ({(2,)}, [59, 60, 61, 62, 63]))


FACTS = {
    1: yes_lines, 2: single_faults, 3: after_the_start, 4: deaf_starter, 5: dead_receivers, 6: edge_of_the_window,
    7: two_faults, 8: too_few_clocks, 9: small_clusters, 10: sets_of_receivers, 11: node_that_returns,
}


def write(folder):
    """Writes the lists and scripts that the page's commands name."""
    os.makedirs(folder, exist_ok=True)
    back, lines = returning()
    drifting = Cluster(5, 120, **DRIFTING)
    for name, cluster, some in (
        ("four", steady(4), {"": [], "_deaf": ["receive 2 AB silence 16 16"]}),
        ("five_drifting", drifting, {"_silent": ["send 2 AB silence 22 22"]}),
        ("eight", steady(8), {
            "": [], "_noise": ["receive 1 AB noise 32 32"],
            "_dead": ["receive 3 A silence 0 79", "receive 4 A silence 0 79"],
            "_half": [f"receive {k} AB noise 34 34" for k in (3, 4, 5, 6)],
        }),
        ("eight_long", Cluster(8, 200), {"": []}),
        ("eight_drifting", Cluster(8, 160, **DRIFTING), {"": []}),
        ("six_back", back, {"": lines}),
    ):
        written(folder, f"{name}.toml", cluster.list)
        for more, script in some.items():
            written(folder, f"{name}{more}.script", cluster.script(script))
    written(folder, "eight_two.script", Cluster(8, 80, on=2).script())
    margin_facts.write(os.path.join(folder, "margins"))
    pair_facts.write(os.path.join(folder, "pairs"))


def main():
    words = sys.argv[1:]
    if len(words) == 2 and words[0] == "--write":
        write(words[1])
        return 0
    facts = {str(number): look for number, look in FACTS.items()}
    facts.update(margin_facts.FACTS, **pair_facts.FACTS)
    groups = {"margins": margin_facts.FACTS, "pairs": pair_facts.FACTS}
    chosen = [name for word in words for name in groups.get(word, [word])] or [str(number) for number in FACTS]
    if not set(chosen) <= set(facts):
        sys.exit("usage: benchmarks/facts.py [NAME..] | --write FOLDER, where names are 1 to 11, m1 to m10, p1 to p11, margins, pairs")
    with tempfile.TemporaryDirectory() as folder:
        lab = Lab(folder)
        for number in chosen:
            before = lab.runs
            try:
                facts[number](lab)
            except Missing as fault:
                lab.look(number, f"a line on the fault {fault}", "none", "one")
            print(f"fact {number}: {lab.runs - before} runs", flush=True)
    print(f"{lab.kept} runs say yes, and {lab.unsafe} of them show a node hurt or memberships split")
    found = sum(lab.found.values())
    is_all = found == len(chosen) and lab.unsafe == 0
    print(f"facts: {found} of {len(chosen)} found, in {lab.runs} runs")
    return 0 if is_all else 1


if __name__ == "__main__":
    sys.exit(main())
