"""A second reading of docs/CHARTS.md: which texts are campaigns, and what the chart of a campaign must say.

A chart is read by Python's reader of XML, and what it says is compared with the lines of the campaign: titles, classes and letters of
cells, marks, tallies, the list of the worst, the table of all faults, names, the key and its colours. A cell must stand where the
names of its row and its column say, a mark below its cell at the place that the key gives its fault, and nothing outside the page.
Other looks, and the texts that say how to read a chart, are the definitions' alone, which the program follows to the byte.

Nothing here is shared with the program; looks, letters, colours and what they mean are those of the page's table.
"""
import itertools
import re

from views import Drawing, beside_faults, boxes, grid_faults, is_in, meaning, rows_of

NUMBER = r"(?:0|[1-9]\d*)"
HEAD = re.compile(rf"ttplab campaign 1 nodes ({NUMBER}) slots ({NUMBER}) from ({NUMBER}) to ({NUMBER})", re.ASCII)
COSTS = rf"left (\S+) hurt (\S+) split (-|{NUMBER}) (-|{NUMBER}) end (\S+)"
TEST = rf"(keeps|returns) (?:yes start|no ([HQ])([1-8])) ({NUMBER})"
OWN = re.compile(rf"slot - node - ({TEST}) ({COSTS}) fault -", re.ASCII)
LINE = re.compile(rf"slot ({NUMBER}) node ({NUMBER}) ({TEST}) ({COSTS}) fault (.*)", re.ASCII)
LEAVE = re.compile(rf"({NUMBER}):({NUMBER}):(denied|unacknowledged|clique)", re.ASCII)
COUNTS = "runs same hurt split torn dead".split()
KINDS = [f"{channels} {what}" for channels in ("AB", "A", "B") for what in ("silence", "noise")]
JUMPS = ("4 W", "-4 W", "W", "-W")
LOOKS = {look: rest for look, *rest in rows_of("CHARTS.md", "look | letter | colour | letter's colour | meaning")}
HARM = ("hurt", "split", "torn", "dead")


class Wrong(Exception):
    """A line that is not due."""


def due(is_right):
    if not is_right:
        raise Wrong


def nodes_in(word, n):
    """Nodes in ascending order with commas between, or a dash."""
    if word == "-":
        return []
    due(re.fullmatch(rf"{NUMBER}(?:,{NUMBER})*", word, re.ASCII))
    nodes = [int(node) for node in word.split(",")]
    due(nodes == sorted(set(nodes)) and nodes[-1] < n)
    return nodes


class Run:
    """What is between `node K ` and ` fault `."""

    def __init__(self, found, n, t):
        test, kind, letter, rule, slot, fields, left, hurt, first, last, end = found
        due(len(slot) <= 5)
        due(letter is None or (letter == "H") == (kind == "keeps") and not rule + letter == "8H")
        self.test, self.kind, self.yes, self.slot, self.fields = test, kind, letter is None, int(slot), fields
        self.rule = None if self.yes else letter + rule
        if left != "-":
            leaves = [LEAVE.fullmatch(one) for one in left.split(",")]
            due(all(leaves))
            due(all(int(leave[2]) < t for leave in leaves))
            nodes_in(",".join(leave[1] for leave in leaves), n)
        self.hurt, self.hurt_word = len(nodes_in(hurt, n)), hurt
        due((first == "-") == (last == "-"))
        self.split = first != "-"
        due(not self.split or int(first) <= int(last) < t)
        self.ends = []
        if end != "-":
            due(all(re.fullmatch(r"[0-9a-f]{4}|[0-9a-f]{6}", members) for members in end.split(",")))
            self.ends = [int(members, 16) for members in end.split(",")]
            due(all(members < 2 ** n for members in self.ends))

    def is_torn(self):
        return len(self.ends) > 1

    def is_dead(self):
        return not any(members.bit_count() > 1 for members in self.ends)


class Fault:
    def __init__(self, line, campaign):
        found = LINE.fullmatch(line)
        due(found)
        self.line, self.slot, self.node = line, int(found[1]), int(found[2])
        self.run = Run(found.groups()[2:13], campaign.n, campaign.t)
        due(self.run.kind == campaign.own.kind)
        self.word = found[14].split(" ")[0]
        self.said = found[14]
        self.same = self.run.fields == campaign.own.fields

    def is_at(self, place, window):
        """Whether the fault is that of its place; a jump may have any size, above or below 0."""
        if place > 11:
            found = re.fullmatch(rf"jump {self.node} (-?)[1-9]\d{{0,8}} {self.slot}", self.said, re.ASCII)
            return bool(found) and (found[1] == "-") == (place in (13, 15))
        last = self.slot if place < 6 else window
        return self.word in ("send", "receive") and self.said == f"{self.word} {self.node} {KINDS[place % 6]} {self.slot} {last}"

    def look(self, campaign):
        run = self.run
        out = "" if run.yes else " out"
        if self.same:
            return "same" + out
        if run.is_dead():
            return "dead"
        if run.is_torn() and self.slot + 2 * campaign.n <= campaign.t:
            return "torn"
        if run.split:
            return "split"
        if run.hurt:
            return "hurt"
        return "late" if run.is_torn() else "cost" + out


class Campaign:
    """A text, from which lines are taken as they are due; `at` is the number of the last one."""

    def __init__(self, text):
        *self.lines, rest = text.split("\n")
        self.at = 0
        self.n = None
        self.slots, self.faults, self.sums = [], [], {}
        while True:
            self.piece()
            if self.at == len(self.lines):
                break
        if rest:
            self.at += 1
            raise Wrong

    def next(self):
        self.at += 1
        due(self.at <= len(self.lines))
        return self.lines[self.at - 1]

    def ahead(self, pattern):
        return self.at < len(self.lines) and re.match(pattern, self.lines[self.at], re.ASCII)

    def piece(self):
        found = HEAD.fullmatch(self.next())
        due(found and all(len(number) <= 9 for number in found.groups()))
        n, t, first, last = map(int, found.groups())
        due(4 <= n <= 24 and 1 <= t <= 20000 and first <= last)
        due(self.n is None or (n, t) == (self.n, self.t) and self.last < first)
        own = self.next()
        if self.n is None:
            self.n, self.t, self.head = n, t, found[0].split(" from ")[0]
            found = OWN.fullmatch(own)
            due(found)
            self.own, self.own_line = Run(found.groups(), n, t), own
        due(own == self.own_line)
        self.last = last
        self.slots += range(first, min(last + 1, t))
        counts = {name: [0] * 6 for name in ("kept", "broken")}
        before = (-1, -1, 0)
        while self.ahead("slot "):
            before = self.group(before, first, last, counts)
        for name, numbers in counts.items():
            shown = " ".join(f"{word} {number}" for word, number in zip(COUNTS, numbers)).removeprefix("runs ")
            due(self.next() == f"{name} {shown}")
            self.sums[name] = [one + other for one, other in zip(self.sums.get(name, [0] * 6), numbers)]

    def group(self, before, first, last, counts):
        """Twelve losses or four jumps of a node in a slot."""
        fault = None
        place, end = None, None
        while place != end or place is None:
            line = Fault(self.next(), self)
            if fault is None:
                fault = line
                jumps = line.word == "jump"
                place, end = (12, 16) if jumps else (0, 12)
                due(first <= line.slot <= last and line.slot < self.t and line.node < self.n)
                due((line.slot, line.node) > before[:2] or jumps and (line.slot, line.node, 0) == before)
            due((line.slot, line.node, line.word) == (fault.slot, fault.node, fault.word) and line.is_at(place, self.t - 1))
            line.place = place
            self.faults.append(line)
            run = line.run
            told = (True, line.same, run.hurt > 0, run.split, run.is_torn(), run.is_dead())
            numbers = counts["kept" if run.yes else "broken"]
            numbers[:] = [number + one for number, one in zip(numbers, told)]
            place += 1
        return fault.slot, fault.node, int(jumps)


def counts_text(numbers, where):
    runs, same, hurt, split, torn, dead = numbers
    return (f"{runs} faults {where} the single-fault hypothesis: {same} changed nothing, {hurt} cost healthy nodes, "
            f"{split} split them, {torn} left several memberships, {dead} left no two nodes together")


# The chart.

def worst_first(those):
    """These faults with their looks, the worst first, and of those that are as bad the first one first."""
    return sorted(those, key=lambda one: (list(LOOKS).index(one[1]), one[0].run.hurt), reverse=True)


def summed(name, those, also=""):
    """The class, the title and the letters of the cell that sums up faults with their looks."""
    if not those:
        return "none", f"{name} faults 0", "-"
    told = "".join(f", {look} {many}" for look in LOOKS if (many := sum(other == look for _, other in those)))
    fault, look = worst_first(those)[0]
    return look + also, f"{name} faults {len(those)}{told}", str(fault.run.hurt) if look in HARM else ""


def harmful(those):
    return str(sum(look in HARM for _, look in those) or "")


def columns_shown(campaign, asked):
    slots = campaign.slots
    if asked is not None:
        return [slot for slot in slots if asked[0] <= slot <= asked[1]]
    n = campaign.n
    most = n * (48 // n) * max(1, 36 // n)
    if len(slots) <= most:
        return slots
    harmed = [fault.slot for fault in campaign.faults if fault.look(campaign) in HARM]
    index = slots.index(harmed[0]) if harmed else 0
    begin = min(max(index - n, 0), len(slots) - most)
    return slots[begin:begin + most]


def table_of(every):
    """The kinds of faults in the table of all, and how many of each kind have each look."""
    kinds, counts = [], []
    for word, places in (("send", range(12)), ("receive", range(12)), ("jump", range(12, 16))):
        for place in places:
            kinds.append(JUMPS[place - 12] if place > 11 else KINDS[place % 6] + (", stays" if place > 5 else ""))
            those = [look for fault, look in every if (fault.word, fault.place) == (word, place)]
            counts += [str(those.count(look)) for look in LOOKS]
    return kinds, counts


def mark_faults(drawing, marks):
    """Marks that are not below their cells, or stand otherwise to each other than their faults do in the key."""
    key, placed = boxes(drawing.cells, "key"), {}
    for (fault, _, at), box in zip(marks, boxes(drawing.shapes, *LOOKS)):
        left, _, right, bottom = drawing.cells[at][3]
        place = box[0] - left, box[1] - bottom
        if placed.setdefault(fault.place, place) != place or not is_in(box, left, bottom, right + 2, bottom + 14):
            yield f"not at its place: {fault.line}"
    for (one, here), (other, there) in itertools.combinations(placed.items(), 2):
        if any((here[i] < there[i], here[i] > there[i]) != (key[one][i] < key[other][i], key[one][i] > key[other][i]) for i in (0, 1)):
            yield f"marks of the faults {one} and {other} stand otherwise than in the key"


def chart_faults(campaign, asked, text):
    """What the chart of the slots that are asked for, or else chosen, says that the campaign does not, or the other way round."""
    drawing, n, own = Drawing(text), campaign.n, campaign.own
    shown = columns_shown(campaign, asked)
    across = n * (48 // n)
    every = [(fault, fault.look(campaign)) for fault in campaign.faults]
    harm = worst_first(one for one in every if one[1] in HARM)
    of_node = [[one for one in every if one[0].node == k] for k in range(n)]
    cells, columns, slots, marks, numbered, gaps = [], [], [], [], {}, []
    for c, slot in enumerate(shown):
        those = [one for one in every if one[0].slot == slot]
        if c and shown[c - 1] != slot - 1:
            gaps.append(c)
        if slot % 5 == 0 or c == 0 or c in gaps:
            numbered[c] = len(slots)
            slots.append(str(slot))
        slots.append(harmful(those))
        columns.append({})
        for k in range(n):
            here = [one for one in those if one[0].node == k]
            if here:
                columns[c][k] = len(cells)
                cells.append(summed(f"slot {slot} node {k}", here, " sends" if here[0][0].word == "send" else ""))
        columns[c][n] = len(cells)
        cells.append(summed(f"slot {slot}", those))
        marks += [(fault, look, columns[c][fault.node]) for fault, look in those if look != "same"]
    at_end, flags = len(cells), [shown.index(own.slot)] if own.slot in shown else []
    cells += [summed(f"node {k}", of_node[k]) for k in range(n)] + [(look, look, str(fault.run.hurt)) for fault, look in harm[:10]]
    cells += [("key", "", f"jump {JUMPS[place - 12]}" if place > 11 else KINDS[place % 6]) for place in range(16)]
    cells += 4 * [(look, look, row[0]) for look, row in LOOKS.items()]
    hidden = [f"; faults of slot {fault.slot} are harmful too" for fault, look in every if look in HARM and fault.slot not in shown][:1]
    most = max((fault.run.hurt for fault, _ in harm), default=0)
    plain = ["".join([f"{n} nodes, {campaign.t} slots, shown: {len(shown)} of them, {shown[0]} to {shown[-1]}", *hidden]),
             f"{campaign.own_line}without any of them: {own.fields}", f"{own.test}: {meaning(own.test)}",
             counts_text(campaign.sums["kept"], "within"), counts_text(campaign.sums["broken"], "outside")]
    for fault, look in harm[:10]:
        lost = f"{fault.run.hurt} ({fault.run.hurt_word})" if fault.run.hurt else "0"
        plain += [fault.said, f"{look}, healthy nodes lost: {lost}"]
    plain += 8 * [None] + [row[3] for row in LOOKS.values()]
    kinds, counts = table_of(every)
    drawing.texts = [("many" if style == "zero" else style, words, box) for style, words, box in drawing.texts]
    texts = {
        None: plain + kinds,
        "said": [f"{len(harm)} of {len(every)} faults are harmful; the most healthy nodes that one of them costs: {most} of {n}",
                 f"the worst of {len(harm)} harmful faults" if harm else "no fault is harmful",
                 "how to read it", "send", "receive", "jump"],
        "row": -(-len(shown) // across) * [*(f"node {k}" for k in range(n)), "worst", "harmful"] + ["this slot alone", "to the end"],
        "slot": slots + ["worst", "harmful", *map(harmful, of_node)],
        "keep": ["of all slots:", *(len(flags) * ["start" if own.yes else own.rule])],
        "many": counts,
    }
    shapes = {None: [""], "gap": len(gaps) * [""], "flag": len(flags) * [""],
              **{look: [fault.line for fault, other, _ in marks if other == look] for look in LOOKS}}
    colours = ("{0}{{fill:{2}}}{0} text{{fill:{3}}}".format("." + look.replace(" ", "."), *row) for look, row in LOOKS.items())
    yield from drawing.faults(campaign.head, colours, {"cells": cells, "texts": texts, "shapes": shapes})
    names, numbers = boxes(drawing.texts, "row")[:-2], boxes(drawing.texts, "slot")
    yield from grid_faults([{r: drawing.cells[at][3] for r, at in cells.items()} for cells in columns], names, across,
                           [(c, numbers[at]) for c, at in numbered.items()],
                           [*zip(gaps, boxes(drawing.shapes, "gap")), *zip(flags, boxes(drawing.shapes, "flag"))])
    for k in range(n):
        box = drawing.cells[at_end + k][3]
        if not is_in(names[k], 0, box[1], box[0], box[3]):
            yield f"the cell of node {k} is not in its row"
    listed, shapes, places = len(harm[:10]), [cell[3] for cell in drawing.cells[at_end + n:]], boxes(drawing.texts, None)[5:]
    yield from beside_faults(shapes[:listed] + shapes[listed + 16:][:len(LOOKS)], places[:2 * listed:2] + places[2 * listed + 8:])
    heads = shapes[-3 * len(LOOKS):]
    for at, box in enumerate(boxes(drawing.texts, "many")):
        row, column = divmod(at, len(LOOKS))
        head, kind = heads[len(LOOKS) * min(row // 12, 2) + column], places[row - len(kinds)]
        if not is_in(box, head[0], head[3], head[2], kind[1]) or box[1] != kind[1]:
            yield f"a number of the table stands at {box}"
    yield from mark_faults(drawing, marks)


def read_campaign(text):
    """The campaign that a text is, or the number of its first line that is not due."""
    campaign = object.__new__(Campaign)
    try:
        campaign.__init__(text)
    except Wrong:
        return campaign.at
    return campaign
