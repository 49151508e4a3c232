"""What docs/PAIRS.md says that pairs show, found again by `ttplab pairs`; `facts.py p1` and so on call it.

n is the number of nodes, S the slot of the start, 2 n, and W the list's `window`. Node 0 starts all clusters. Names have the number
of nodes, and `r` for a list with drift 1, error 1, the least window that H2 allows, and clocks that drift ahead and behind by
turns; other clocks stand still. A *round* is the slots S + 2 n to S + 3 n - 1 for the first fault, and 2 n slots for the second.
"""

import os
import re

from runs import list_text, script_text, written

CLASSES = ("sum", "less", "own", "divided", "third", "torn", "dead")
WORST = CLASSES[4:]


class Cluster:
    """A list and a script."""

    def __init__(self, nodes, slots, drift=0, *, kinds="I", data=0, lines=()):
        self.nodes = nodes
        self.window = 4 * drift * nodes + 3 * drift + 1
        of_nodes = [kinds] * nodes if isinstance(kinds, str) else kinds
        self.list = list_text(of_nodes, [data] * nodes, drift=drift, error=drift, window=self.window)
        clocks = [f"drift {k} {drift * (-1) ** k}" for k in range(nodes) if drift]
        clocks += [f"error {k} {drift * (-1) ** (k // 2)} 0 {slots - 1}" for k in range(nodes) if drift]
        self.script = script_text(nodes, slots, [*clocks, *lines])


CLUSTERS = {
    **{f"n{n}": Cluster(n, 12 * n) for n in (4, 5, 6, 7, 8)}, **{f"r{n}": Cluster(n, 12 * n, 1) for n in (4, 5, 6, 7, 8)},
    "noisy_starter": Cluster(8, 300, lines=["receive 0 AB noise 17 299"]), "n12": Cluster(12, 120), "n24": Cluster(24, 200),
    "n6_X": Cluster(6, 72, kinds="X", data=16), "n6_N": Cluster(6, 72, kinds=["I"] + ["N"] * 5),
    "n6_two": Cluster(6, 72, kinds=["IX" if k % 2 else "XI" for k in range(6)], data=16),
}


class Pair:
    """The line of a pair."""

    def __init__(self, line):
        self.line, words = line, line.split(" ")
        self.kind, self.slot, self.apart, self.nodes = words[1], int(words[3]), int(words[5]), (int(words[7]), int(words[8]))
        self.alone, self.third = (int(words[10]), int(words[11])), words[13]
        self.faults = line[line.index(" fault ") + 7:].split(" and ")

    def jumps(self):
        """How far its faults that are jumps go."""
        return [int(fault.split(" ")[2]) for fault in self.faults if fault.startswith("jump ")]


def counts_of(line):
    """How many pairs there are, and how many of each class."""
    numbers = re.search(" pairs (.*?)(?: fault |$)", line)[1].split(" ")
    return dict(zip(("pairs", *CLASSES), map(int, numbers[::2])))


class Pairs:
    """A text of pairs."""

    def __init__(self, text):
        self.lines = text.splitlines()
        self.pairs = [Pair(line) for line in self.lines if line.startswith("pair ")]
        self.apart = {int(line.split(" ")[1]): counts_of(line) for line in self.lines if line.startswith("apart ")}
        self.kept, self.broken = map(counts_of, self.lines[-2:])
        self.all = {key: self.kept[key] + self.broken[key] for key in self.kept}

    def later(self):
        """The pairs in different slots that have lines."""
        return [pair for pair in self.pairs if pair.apart]

    def first(self, start):
        """The line of a first fault."""
        return next((line for line in self.lines if line.startswith("slot ") and line.endswith(f" fault {start}")), "none")

    def line(self, text):
        """The line of a pair with these faults, or of the first that has this text."""
        return next((pair.line for pair in self.pairs if text in pair.line), "none")


def pairs(lab, name, *asked):
    """The pairs of a cluster, which are asked for once."""
    kept = lab.texts.get((name, asked))
    if kept is None:
        files = written(lab.folder, "list", CLUSTERS[name].list), written(lab.folder, "script", CLUSTERS[name].script)
        kept = lab.texts[name, asked] = Pairs(lab.text_of("pairs", *files, *map(str, asked)))
        lab.runs += kept.all["pairs"]
        lab.kept += kept.kept["pairs"]
        lab.unsafe += sum(kept.kept[key] for key in ("divided", *WORST))
    return kept


def round_of(lab, name):
    nodes = CLUSTERS[name].nodes
    return pairs(lab, name, 4 * nodes, 5 * nodes - 1, 2 * nodes)


def counted(text):
    return "pairs {pairs} sum {sum} less {less} own {own} divided {divided} third {third} torn {torn} dead {dead}".format(**text)


def p1(lab):
    eight = round_of(lab, "n8")
    right = "pairs 1322688 sum 1284224 less 3136 own 35328 divided 0 third 0 torn 0 dead 0"
    lab.look("p1", "a round of n8, pairs for which the test says yes", counted(eight.kept), right)
    right = "pairs 732928 sum 717798 less 64 own 4762 divided 10240 third 64 torn 0 dead 0"
    lab.look("p1", "a round of n8, those for which it says no", counted(eight.broken), right)


def p2(lab):
    for name in ("n5", "n6", "n7", "n8"):
        found = round_of(lab, name)
        lab.look("p2", f"a round of {name}, {found.all['pairs']} pairs, those in different slots that cost a third node", len(found.later()), 0)
    apart = round_of(lab, "n8").apart
    for slots, right in (
        (0, "pairs 65024 sum 57928 less 736 own 3224 divided 3072 third 64 torn 0 dead 0"),
        (1, "pairs 131072 sum 127148 less 672 own 2804 divided 448 third 0 torn 0 dead 0"),
        (16, "pairs 120896 sum 117632 less 0 own 2816 divided 448 third 0 torn 0 dead 0"),
    ):
        lab.look("p2", f"a round of n8, {slots} slots apart", counted(apart[slots]), right)


def p3(lab):
    for name in ("n5", "n6", "n7", "n8"):
        found, nodes = round_of(lab, name), CLUSTERS[name].nodes
        same = [pair for pair in found.pairs if pair.apart == 0]
        by_slot = [sum(pair.slot == slot for pair in same) for slot in range(4 * nodes, 5 * nodes)]
        lab.look("p3", f"{name}: pairs in one slot that cost a third node, in each slot of a round", by_slot, [8] * nodes)
        near = {tuple(sorted((node - pair.slot) % nodes for node in pair.nodes)) for pair in same}
        lab.look("p3", f"{name}: which nodes behind the sender have these faults", near, {(1, 2)})
    for name, slot in (("n12", 48), ("n24", 96)):
        lab.look("p3", f"{name}: those of slot {slot}", len(pairs(lab, name, slot, slot, 0).pairs), 8)
    right = (
        "pair third slot 32 apart 0 nodes 1 2 alone 1 1 third 0 keeps no H5 32 left 0:34:denied,1:41:clique,2:42:unacknowledged"
        " hurt 0,1,2 split 32 41 end 00f8 fault receive 1 AB silence 32 32 and receive 2 AB silence 32 32"
    )
    lab.look("p3", "the first of n8", round_of(lab, "n8").pairs[0].line, right)


def p4(lab):
    third = dead = 0
    for name in ("r6", "r7", "r8"):
        found, window = round_of(lab, name), CLUSTERS[name].window
        later = found.later()
        third += sum(pair.kind == "third" for pair in later)
        dead += sum(pair.kind == "dead" for pair in later)
        none = [pair for pair in later if not {abs(size) for size in pair.jumps()} & {window}]
        lab.look("p4", f"a round of {name}: pairs in different slots that cost a third node, with no jump by W", len(none), 0)
    lab.look("p4", "pairs of 6, 7 and 8 drifting nodes in different slots that cost a third node, and that end the cluster", (third, dead), (12_639, 514))
    dead = [pair for pair in round_of(lab, "r8").pairs if pair.kind == "dead"]
    lab.look("p4", "those of eight that end the cluster, in one slot or two, and how far apart", (len(dead), max(pair.apart for pair in dead)), (114, 10))
    alone = {max(pair.alone) for pair in dead}
    lab.look("p4", "what the worse fault of these costs alone", (min(alone), max(alone)), (3, 5))
    right = "fault jump 6 36 38 and send 0 AB noise 48 48"
    lab.look("p4", "whether one of them is the jump of node 6 by W and a noisy frame of node 0", any(right in pair.line for pair in dead), True)


def p5(lab):
    for name, count in (("r8", 39), ("r7", 14), ("r6", 37)):
        free = [pair for pair in round_of(lab, name).later() if pair.alone == (0, 0)]
        lab.look("p5", f"a round of {name}: pairs that cost a third node, and nothing alone", len(free), count)
        window = CLUSTERS[name].window
        lab.look("p5", f"a round of {name}: whether all are two jumps by W", all([abs(size) for size in pair.jumps()] == [window] * 2 for pair in free), True)
        same = [pair for pair in free if pair.nodes[0] == pair.nodes[1] and pair.jumps()[0] == pair.jumps()[1]]
        stays = [pair for pair in same if not re.search(rf" left (?:\S*,)?{pair.nodes[0]}:", pair.line)]
        lab.look("p5", f"a round of {name}: where one node makes both the same way, whether it stays", len(stays), len(same))
    right = (
        "pair third slot 32 apart 13 nodes 6 6 alone 0 0 third 0,2,4 keeps no H3 32 left 0:56:clique,2:58:unacknowledged,4:52:clique"
        " hurt 0,2,4 split 46 57 end 00ea fault jump 6 -36 32 and jump 6 -36 45"
    )
    lab.look("p5", "the first of r8", round_of(lab, "r8").line(" alone 0 0 "), right)


def p6(lab):
    eight, six = pairs(lab, "n8", 16, 31, 16), pairs(lab, "n6", 12, 23, 12)
    for name, text, start, count, most in (("n8", eight, 16, 82, 2), ("n6", six, 12, 115, 7)):
        dead = [pair for pair in text.pairs if pair.kind == "dead"]
        found = len(dead), max(pair.apart for pair in dead), max(pair.slot for pair in dead) - start
        lab.look("p6", f"{name}: pairs that end the cluster, how far apart at most, and from which slot behind the start at most", found, (count, most, 2))
    table = [[sum((pair.apart, pair.slot) == (apart, slot) for pair in eight.pairs) for slot in range(16, 23)] for apart in range(4)]
    right = [[4, 27, 16, 8, 8, 8, 8], [8, 23, 16, 0, 0, 0, 0], [20, 13, 0, 0, 0, 0, 0], [0, 5, 0, 0, 0, 0, 0]]
    lab.look("p6", "n8: lines by slot of the first fault, 16 to 22, and distance", table, right)
    right = (
        "pair dead slot 18 apart 1 nodes 2 3 alone 1 1 third 0,1,4,5,6,7 keeps no H6 18 left 0:24:clique,1:25:unacknowledged,"
        "2:26:unacknowledged,3:27:unacknowledged,4:20:clique,5:21:clique,6:22:clique,7:23:clique hurt 0,1,4,5,6,7 split - - end -"
        " fault send 2 AB noise 18 18 and send 3 AB noise 19 19"
    )
    lab.look("p6", "n8: noise in two frames that follow each other", eight.line("fault send 2 AB noise 18 18 and send 3 AB noise 19 19"), right)


def p7(lab):
    right = (
        "pair third slot 17 apart 2 nodes 0 0 alone 0 1 third 1,2,3,4 keeps no H6 17 left 1:35:denied,2:52:denied,3:69:denied,"
        "4:86:denied hurt 1,2,3,4 split 33 84 end 00e0 fault receive 0 AB noise 17 95 and receive 0 AB silence 19 95"
    )
    found = pairs(lab, "n8", 17, 17, 16).line("fault receive 0 AB noise 17 95 and receive 0 AB silence 19 95")
    lab.look("p7", "n8: a starter whose receivers hear noise, and then nothing", found, right)
    cluster = CLUSTERS["noisy_starter"]
    files = written(lab.folder, "list", cluster.list), written(lab.folder, "script", cluster.script)
    for slot, right in ((60, None), (100, "1:195:denied,2:218:unacknowledged,3:211:unacknowledged,4:110:denied,5:127:denied,6:145:denied,7:162:denied"), (201, None)):
        text = lab.text_of("campaign", *files, str(slot), str(slot))
        left = re.search(rf" left (\S+) .* fault receive 0 AB silence {slot} 299\n", text)[1]
        lab.runs += 1
        if right is None:
            lab.look("p7", f"where the receivers of a noisy starter die in slot {slot}, whether others leave", left != "-", True)
        else:
            lab.look("p7", f"where they die in slot {slot}, who leaves", left, right)


def p8(lab):
    four, drifting, five = (round_of(lab, name) for name in ("n4", "r4", "r5"))
    dead = [pair for pair in four.pairs if pair.kind == "dead"]
    found = four.all["pairs"], len(dead), max(pair.apart for pair in dead)
    lab.look("p8", "n4: pairs of a round, those that end the cluster, and how far apart at most", found, (125_184, 724, 4))
    dead = [pair for pair in drifting.pairs if pair.kind == "dead"]
    found = drifting.all["pairs"], len(dead), {pair.apart for pair in dead} == set(range(9))
    lab.look("p8", "r4: pairs of a round, those that end the cluster, and whether at every distance", found, (122_088, 12_537, True))
    found = five.all["pairs"], five.all["third"], five.all["dead"]
    lab.look("p8", "r5: pairs of a round, those that cost a third node, and that end the cluster", found, (303_324, 42_817, 2_929))
    right = (
        "pair dead slot 16 apart 4 nodes 2 0 alone 1 1 third 1,3 keeps no H6 20 left 0:24:unacknowledged,1:21:clique,"
        "2:22:unacknowledged,3:23:unacknowledged hurt 1,3 split - - end - fault receive 2 AB silence 16 16 and send 0 AB noise 20 20"
    )
    lab.look("p8", "n4: the first that ends the cluster, four slots apart", next((p.line for p in four.pairs if (p.kind, p.apart) == ("dead", 4)), ""), right)
    right = (
        "pair third slot 20 apart 10 nodes 1 0 alone 1 1 third 3 keeps no H7 30 left 0:33:denied,1:26:unacknowledged,"
        "3:43:unacknowledged hurt 3 split 38 42 end 0014 fault receive 1 AB silence 20 20 and send 0 AB silence 30 30"
    )
    lab.look("p8", "r5: two faults, 2 n slots apart", five.line("fault receive 1 AB silence 20 20 and send 0 AB silence 30 30"), right)


def p9(lab):
    one, near = pairs(lab, "n8", 32, 32, 16), pairs(lab, "n8", 32, 32, 0)
    right = (
        "slot 32 node 3 keeps yes start 16 left - hurt - split - - end 00ff pairs 2119 sum 2005 less 0 own 114 divided 0 third 0 torn 0"
        " dead 0 fault receive 3 A silence 32 95"
    )
    lab.look("p9", "n8: second faults after a receiver's channel died", one.first("receive 3 A silence 32 95"), right)
    later = {}
    for line in one.lines:
        half = re.search(r" fault ((?:send|receive) \d+ [AB] \w+ 32 (\d+))$", line)
        if line.startswith("slot ") and half:
            more = counts_of(line)["own"] - counts_of(near.first(half[1]))["own"]
            later[half[2] == "95"] = later.get(half[2] == "95", 0) + more
    lab.look("p9", "n8: second losses in later slots that cost a node, where the first one on a channel was over", later[False], 0)
    lab.look("p9", f"and where it lasts, {later[True]}: whether there are some", later[True] > 0, True)


def p10(lab):
    found = round_of(lab, "n8").all
    lab.look("p10", "a round of n8: pairs, and those that cost a node less than their faults alone", (found["pairs"], found["less"]), (2_055_616, 3_200))


def p11(lab):
    right = round_of(lab, "n6").lines
    for name in ("n6_X", "n6_N", "n6_two"):
        lab.look("p11", f"whether a round of {name} has the text of n6", round_of(lab, name).lines == right, True)


FACTS = {"p1": p1, "p2": p2, "p3": p3, "p4": p4, "p5": p5, "p6": p6, "p7": p7, "p8": p8, "p9": p9, "p10": p10, "p11": p11}


def write(folder):
    """Writes the lists and scripts that the page's commands name."""
    os.makedirs(folder, exist_ok=True)
    for name, cluster in CLUSTERS.items():
        written(folder, f"{name}.toml", cluster.list)
        written(folder, f"{name}.script", cluster.script)
