"""What docs/MARGINS.md says that margins show, found again by `ttplab margins`; `facts.py m1` and so on call it.

n is the number of nodes, s of those with `sync`, D the list's `drift`, W its `window`. Node 0 starts all clusters, in slot 2 n. Clocks
drift by D and -D in turns, unless a name says otherwise, and windows are the least that H2 allows, but where a name has another.
"""

import os
import random
import re

from runs import script_text, written


class Clocks:
    """A list and a script in which clocks drift by turns (`turns`), half as much (`half`), all behind (`low`), or not (`still`)."""

    def __init__(self, nodes, drift, error, window=None, *, how="turns", slots=None, sync=None, first=0, kinds="I", lines=()):
        self.nodes, self.drift = nodes, drift
        self.sync = nodes if sync is None else sync
        self.window = window or 4 * drift * nodes + 3 * error + 1
        ticks = {(first + i) % nodes for i in range(self.sync)}
        head = f"version = {2 if nodes > 16 else 1}\nrounds = 1\nschedule = 0\nbuffers = 2\n"
        head += f"drift = {drift}\nerror = {error}\nwindow = {self.window}\n"
        truth = {True: "true", False: "false"}
        self.list = head + "".join(
            f'[[slot]]\nkinds = "{kinds}"\ndata = 0\nsync = {truth[k in ticks]}\nstart = {truth[k == 0]}\n' for k in range(nodes)
        )
        drifts = {"turns": lambda k: drift * (-1) ** k, "half": lambda k: drift // 2 * (-1) ** k, "low": lambda k: -drift, "still": lambda k: 0}
        clocks = [f"drift {k} {drifts[how](k)}" for k in range(nodes) if drifts[how](k)]
        self.script = script_text(nodes, slots or 10 * nodes, [*clocks, *lines])

    def bears(self):
        """The rule of thumb: how great a drift may be that costs nobody."""
        return self.window / (2 * self.nodes - self.sync + 2.6) - self.drift


def errors(nodes, slots, size, turn):
    return [f"error {k} {size * (-1) ** (k // turn)} 0 {slots - 1}" for k in range(nodes)]


CLUSTERS = {
    "ten": Clocks(10, 25, 100), "ten_half": Clocks(10, 25, 100, how="half"), "ten_still": Clocks(10, 25, 100, how="still"),
    "ten_low": Clocks(10, 25, 100, how="low"), "ten_one": Clocks(10, 25, 100, how="still", lines=["drift 4 25"]),
    **{f"ten_{w}": Clocks(10, 25, 100, w) for w in (1951, 2602, 5204)},
    **{f"ten_sync{s}": Clocks(10, 25, 100, sync=s) for s in (4, 5, 6, 8)},
    **{f"ten_{t}_slots": Clocks(10, 25, 100, slots=t) for t in (40, 60, 200)},
    **{f"ten_{kind}": Clocks(10, 25, 100, kinds=kind) for kind in "NX"},
    **{f"ten_errors{turn}": Clocks(10, 25, 100, lines=errors(10, 100, 100, turn)) for turn in (1, 2)},
    "ten_lost": Clocks(10, 25, 100, lines=["send 9 AB silence 39 39"]),
    "eight": Clocks(8, 1, 1), "eight_still": Clocks(8, 1, 1, how="still"), **{f"eight_{w}": Clocks(8, 1, 1, w) for w in (72, 144)},
    "five": Clocks(5, 25, 100), "five_1": Clocks(5, 1, 1), "twentyfour": Clocks(24, 25, 100, slots=200),
}


class Range:
    """The line of a range of values."""

    def __init__(self, words):
        self.node, self.slot, self.first, self.last, self.costs = int(words[2]), words[4], int(words[6]), int(words[8]), words[10]
        self.says_yes, self.end = words[12] == "yes", words[22]
        self.left, self.hurt = ([] if word == "-" else [int(node) for node in word.split(",")] for word in (words[16], words[18]))
        self.is_split = words[20] == "yes"

    @property
    def size(self):
        return self.last - self.first + 1

    @property
    def least(self):
        """The least absolute value."""
        return 0 if self.first <= 0 <= self.last else min(abs(self.first), abs(self.last))


class Margins:
    """A text of margins."""

    def __init__(self, text):
        self.text, lines = text, text.splitlines()
        rows = [line.split(" ") for line in lines]
        self.ranges = [Range(row) for row in rows if row[0] in ("drift", "jump")]
        self.sweeps = {(int(row[3]), row[5]): line for row, line in zip(rows, lines) if row[0] == "margin"}
        self.all = lines[-1]
        numbers = re.search(r"values (\d+) nobody (\d+) itself (\d+) others (\d+) free (\S+) (\S+) least (\S+) most (\d+)$", self.all)
        self.values, _, self.itself, self.others, *_ = map(int, numbers.groups()[:4])
        self.free, self.least, self.most = numbers[5] + " " + numbers[6], numbers[7], int(numbers[8])

    def dear(self, **of):
        """The ranges that cost others, of a node or a slot."""
        return [r for r in self.ranges if r.costs == "others" and all(getattr(r, key) == value for key, value in of.items())]


def margins(lab, name, *asked):
    """The margins of a cluster, which are asked for once."""
    kept = lab.texts.get((name, asked))
    if kept is None:
        cluster = CLUSTERS.get(name) or name
        files = written(lab.folder, "list", cluster.list), written(lab.folder, "script", cluster.script)
        kept = lab.texts[name, asked] = Margins(lab.text_of("margins", *files, *map(str, asked)))
        lab.runs += kept.values
        for r in kept.ranges:
            lab.kept += r.size if r.says_yes else 0
            lab.unsafe += r.says_yes and bool(r.hurt or r.is_split)
    return kept


def sizes(ranges, of):
    """How many values these ranges have, by some key."""
    found = {}
    for r in ranges:
        found[of(r)] = found.get(of(r), 0) + r.size
    return found


def m1(lab):
    ten, eight = margins(lab, "ten"), margins(lab, "eight", 32, 39)
    found = {(r.first, r.last) for r in ten.ranges if r.says_yes}
    lab.look("m1", "drifts of ten for which the test says yes", found, {(-25, 25)})
    found = {(r.first, r.last) for r in eight.ranges if r.says_yes}
    lab.look("m1", "jumps of eight for which it says yes, four windows", found, {(-144, -144), (144, 144)})
    hurt = [r for text in (ten, eight) for r in text.ranges if r.says_yes and (r.hurt or r.is_split)]
    lab.look("m1", "those that cost others or split memberships", len(hurt), 0)


def m2(lab):
    right = "all drift sweeps 10 values 20010 nobody 1792 itself 17409 others 809 free -79 79 least 80 most 9"
    lab.look("m2", "the last line of ten", margins(lab, "ten").all, right)
    for name, free, least in (("five", "81", "82"), ("twentyfour", "76", "77"), ("eight", "2", "3"), ("ten_sync6", "53", "56"), ("ten_2602", "183", "184")):
        found = margins(lab, name)
        lab.look("m2", f"{name}: the margin ahead, and the least that costs others", (found.free.split(" ")[1], found.least), (free, least))
    chance, far = random.Random(1), 0
    for _ in range(20):
        nodes, drift, error = chance.randint(5, 10), chance.randint(2, 25), chance.randint(0, 100)
        cluster = Clocks(nodes, drift, error, sync=chance.randint(max(5, (nodes + 1) // 2), nodes))
        back, ahead = map(int, margins(lab, cluster).free.split(" "))
        far = max(far, abs(min(-back, ahead) - cluster.bears()))
    lab.look("m2", f"20 random lists of 5 to 10 nodes, how far the rule of thumb is off, {far:.1f}: at most 1.5", far <= 1.5, True)


def m3(lab):
    ten = margins(lab, "ten")
    joined = []
    for r in ten.ranges:
        told = r.costs, r.left
        if r.node == 9:
            if joined and joined[-1][2] == told:
                joined[-1][1] = r.last
            else:
                joined.append([r.first, r.last, told])
    even, odd = [0, 2, 4, 6, 8], [1, 3, 5, 7]
    right = [
        [-1000, -138, ("itself", [9])], [-137, -130, ("others", list(range(10)))], [-129, -120, ("others", [*even, 9])],
        [-119, -89, ("itself", [9])], [-88, -80, ("others", even)], [-79, 83, ("nobody", [])], [84, 105, ("others", odd)],
        [106, 119, ("itself", [9])], [120, 160, ("others", [*odd, 9])], [161, 1000, ("itself", [9])],
    ]
    lab.look("m3", "what the drifts of node 9 of ten cost, from -1,000 on", joined, right)
    found = sorted((r.least, max(abs(r.first), abs(r.last))) for r in ten.dear(node=2))
    lab.look("m3", "where node 2 of ten costs others, either way", (found[0][0], found[-1][1], sum(b - a + 1 for a, b in found)), (626, 675, 100))


def m4(lab):
    ten, many = margins(lab, "ten"), margins(lab, "twentyfour")
    lab.look("m4", "drifts of ten that cost others, by how many they cost", sizes(ten.dear(), lambda r: len(r.hurt)), {4: 457, 5: 324, 9: 28})
    dead = [(r.node, r.first, r.last) for r in ten.dear() if r.end == "-"]
    lab.look("m4", "those that end the cluster", dead, [(7, -169, -161), (8, 138, 148), (9, -137, -130)])
    lab.look("m4", "those with which the bad node stays", sizes(ten.dear(), lambda r: r.node in r.left).get(False), 75)
    found = sizes(many.dear(), lambda r: len(r.hurt))
    lab.look("m4", "drifts of twentyfour that cost others, and how many they cost", (sum(found.values()), sorted(found)), (1_283, [11, 12]))


def m5(lab):
    for name, others in (("ten_still", 0), ("ten_low", 0), ("ten_half", 470)):
        lab.look("m5", f"drifts of {name} that cost others", margins(lab, name).others, others)
    lab.look("m5", "what a node of ten_low bears", margins(lab, "ten_low").free, "-129 79")
    lab.look("m5", "what a node of ten_half bears", margins(lab, "ten_half").free.split(" ")[1], "92")
    one = margins(lab, "ten_one")
    lab.look("m5", "one node of ten drifts: from when on others are cost, and how many", (one.least, one.most), ("82", 1))
    lab.look("m5", "who is cost there", {tuple(r.hurt) for r in one.dear()}, {(4,)})
    eight = margins(lab, "eight_still")
    found = {(r.node, r.first, r.last, len(r.hurt), r.end) for r in eight.dear()}
    lab.look("m5", "drifts of eight_still that cost others", found, {(1, -144, -37, 6, "-"), (1, 37, 144, 6, "-")})


def m6(lab):
    for name, free, others in (("ten", 79, 809), ("ten_1951", 131, 906), ("ten_2602", 183, 871), ("ten_5204", 391, 668)):
        found = margins(lab, name)
        lab.look("m6", f"{name}: the margin, and the drifts that cost others", (found.free, found.others), (f"{-free} {free}", others))
    for name, free in (("eight", 14), ("eight_72", 50), ("eight_144", 122)):
        found = margins(lab, name, 32, 39)
        lab.look("m6", f"{name}, jumps: the margin, and those that cost others", (found.free, found.others), (f"{-free} {free}", 405))


def m7(lab):
    for sync, free in ((8, "-67 64"), (6, "-55 53"), (5, "-50 49"), (4, "-46 45")):
        lab.look("m7", f"the margin of ten with {sync} slots in sync", margins(lab, f"ten_sync{sync}").free, free)
    four = margins(lab, "ten_sync4")
    lab.look("m7", "with four, drifts that cost others", four.others, 8_241)
    right = "margin drift node 0 slot - ranges 5 nobody 98 itself 0 others 1903 free -51 46 below -1000 -52 above 47 1000 most 4"
    lab.look("m7", "with four, the line of node 0", four.sweeps[0, "-"], right)
    alone = sum(r.size for r in four.ranges if r.node < 4 and r.costs == "itself")
    lab.look("m7", "with four, drifts that cost one of these its place alone", alone, 0)


def m8(lab):
    ten, eight = margins(lab, "ten", 40, 49), margins(lab, "eight", 32, 39)
    right = "all jump sweeps 100 values 1040900 nobody 202171 itself 824763 others 13966 free -675 675 least 676 most 5"
    lab.look("m8", "the last line of the jumps of ten", ten.all, right)
    lab.look("m8", "sweeps in which a jump costs others", len({(r.node, r.slot) for r in ten.dear()}), 59)
    for name, text, stays, others in (("ten", ten, 13_778, 13_966), ("eight", eight, 399, 405)):
        found = sizes(text.dear(), lambda r: r.node in r.left)
        lab.look("m8", f"jumps of {name} that cost others and not the node itself, of all that cost others", (found[False], text.others), (stays, others))
    far = {(r.left == [r.node], tuple(r.hurt)) for r in eight.ranges if 144 in (r.last, -r.first)}
    lab.look("m8", "whether a jump of four windows costs its own node, and whom else", far, {(True, ())})
    first = [r for r in margins(lab, "eight", 17, 17).dear(node=1) if r.first == 39]
    lab.look("m8", "jumps of node 1 of eight in slot S + 1", [(r.last, r.left, r.hurt) for r in first], [(143, [1, 2, 3, 4, 5, 6, 7], [2, 3, 4, 5, 6, 7])])


def m9(lab):
    for name, nodes, value in (("ten", {9}, 80), ("twentyfour", {23}, 77), ("eight", {6, 7}, 3)):
        dear = margins(lab, name).dear()
        least = min(r.least for r in dear)
        lab.look("m9", f"the least drift of {name} that costs others, and whose", (least, {r.node for r in dear if r.least == least}), (value, nodes))
    found = {r.node for r in margins(lab, "ten").dear()}
    lab.look("m9", "nodes of ten whose drift never costs others", sorted(set(range(10)) - found), [0, 1])
    slots = {}
    for r in margins(lab, "ten", 40, 49).dear():
        slots.setdefault(r.slot, []).append((r.least, r.node))
    lab.look("m9", "whose jump is the least that costs others, in each slot of 40 to 49", {min(found)[1] for found in slots.values()}, {9})


def m10(lab):
    ten = margins(lab, "ten")
    for slots in (60, 200):
        lab.look("m10", f"the last line of ten with {slots} slots", margins(lab, f"ten_{slots}_slots").all, ten.all)
    lab.look("m10", "the margin of ten with 40 slots", margins(lab, "ten_40_slots").free.split(" ")[1], "119")
    for kind in "NX":
        lab.look("m10", f"whether frames {kind} give the text of ten", margins(lab, f"ten_{kind}").text == ten.text, True)
    found = {margins(lab, f"ten_errors{turn}").free.split(" ")[1] for turn in (1, 2)}
    lab.look("m10", "the margins of ten with reading errors at their limits, by turns of one and of two", found, {"75"})
    lab.look("m10", "the least of ten where node 9 is lost in slot 39", margins(lab, "ten_lost").least, "80")
    for name in ("eight", "five_1"):
        window = CLUSTERS[name].window
        found = [r for r in margins(lab, name).ranges if 2 * window < abs(r.first) < 4 * window]
        lab.look("m10", f"ranges of {name} that begin between 2 W and 4 W", [r for r in found if r.first > 0], [])


FACTS = {"m1": m1, "m2": m2, "m3": m3, "m4": m4, "m5": m5, "m6": m6, "m7": m7, "m8": m8, "m9": m9, "m10": m10}


def write(folder):
    """Writes the lists and scripts that the page's commands name."""
    os.makedirs(folder, exist_ok=True)
    for name, cluster in CLUSTERS.items():
        written(folder, f"{name}.toml", cluster.list)
        written(folder, f"{name}.script", cluster.script)
