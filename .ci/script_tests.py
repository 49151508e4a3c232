"""The tests of a script for a list: the single-fault hypothesis, and whether armed nodes are owed their place again.

They are read from docs/PROTOCOL.md, docs/RETURNS.md, docs/CLOCKS.md and docs/FORMATS.md, as all of the second reading.
"""


def broken_by_errors(medl, script):
    if any(abs(value) > medl.drift for value in script.drift.values()):
        return 0
    return min((slot for (_, slot), value in script.errors.items() if abs(value) > medl.error), default=None)


def slots_of_disturbances(medl, script):
    """The slots of flipped bits, and of jumps that are not far or not the first ones of their nodes."""
    slots = [slot for _, _, slot in script.flips]
    jumped = set()
    for (node, slot), value in sorted(script.jumps.items()):
        if node in jumped or abs(value) < 4 * medl.window:
            slots.append(slot)
        jumped.add(node)
    return slots


def start_of(medl, script):
    """The slot in which the first starters are due, these starters, and whether all nodes are on by then."""
    due = {k: on + 2 * medl.nodes + k for k, on in script.on.items() if medl.slots[k].start}
    start = min(due.values(), default=None)
    return start, [k for k in due if due[k] == start], start is not None and max(script.on.values()) <= start


def nodes_on(script, t):
    return [node for node in sorted(script.on) if script.on[node] <= t]


def is_deaf(script, node, t):
    return all(script.receive[node, channel, t] for channel in "AB")


def losing_node(script, t, sender, others):
    """The node that is to blame for a slot in which frames were lost: None, a node, or "nobody" where the rule breaks."""
    def is_lost(node):
        return all(script.send[sender, channel, t] or script.receive[node, channel, t] for channel in "AB")

    lost = [node for node in others if is_lost(node)]
    if not lost:
        return None
    if lost == others:
        return sender
    return lost[0] if len(lost) == 1 else "nobody"


class Walk:
    """The slots of a run in order: who becomes faulty in each, and where the rule on losses breaks first.

    `is_forgiven` is asked at the beginning of each slot which of the faulty nodes are so no longer.
    """

    def __init__(self, medl, script, start, starter, is_forgiven=lambda walk, node, t: False):
        self.medl, self.script, self.start, self.starter = medl, script, start, starter
        # For each slot, who is faulty at its beginning and after it, each with the slot since when.
        self.at, self.after = [], []
        self.faults, self.broken = [], None
        faulty = {}
        # The start may lie past the end of the run.
        for t in range(max(script.slots, start)):
            faulty = {node: since for node, since in faulty.items() if not is_forgiven(self, node, t)}
            self.at.append(dict(faulty))
            joining = self.joining(faulty, t)
            if joining is None:
                self.broken = t
                return
            faulty.update({node: t for node in joining})
            self.faults += [t for _ in joining]
            self.after.append(dict(faulty))

    def sender(self, t):
        return (self.starter + t - self.start) % self.medl.nodes

    def round(self, t):
        return (self.starter + t - self.start) // self.medl.nodes % self.medl.rounds

    def sound(self, t):
        """The nodes that are on and not faulty at the beginning of a slot."""
        return [node for node in nodes_on(self.script, t) if node not in self.at[t]]

    def joining(self, faulty, t):
        """The nodes that become faulty in a slot, or None where the rule breaks."""
        on = nodes_on(self.script, t)
        jumped = [node for node in on if node not in faulty and (node, t) in self.script.jumps]
        away = {*faulty, *jumped}
        sender = self.sender(t)
        if t < self.start or sender not in self.script.on or sender in away:
            return jumped
        blamed = losing_node(self.script, t, sender, [node for node in on if node not in away and node != sender])
        if blamed == "nobody":
            return None
        return jumped if blamed is None else [*jumped, blamed]

    def too_early(self):
        """The first fault that lies less than two rounds after the start or the one before."""
        earliest = self.start + 2 * self.medl.nodes
        for t in self.faults:
            if t < earliest:
                return t
            earliest = t + 2 * self.medl.nodes
        return None

    def too_few(self):
        """The first slot from the start on after which fewer than four nodes with `sync` are not faulty."""
        def are_four_left(faulty):
            return sum(self.medl.slots[k].sync for k in self.script.on if k not in faulty) >= 4

        if not are_four_left(self.after[self.start - 1]):
            return self.start
        return next((t for t in range(self.start, self.script.slots) if not are_four_left(self.after[t])), None)


def first_broken(rules):
    """The first rule that is broken and its slot, of rules that answer a slot where they are, or None."""
    return next(((number, slot) for number, slot in rules if slot is not None), None)


def hypothesis_line(medl, script):
    """The line of the single-fault hypothesis."""
    start, first, is_in_time = start_of(medl, script)

    def rules():
        yield 1, broken_by_errors(medl, script)
        yield 2, 0 if medl.window < 4 * medl.drift * medl.nodes + 3 * medl.error + 1 else None
        slots = slots_of_disturbances(medl, script) + [slot for _, slot in script.armed]
        yield 3, min(slots, default=None)
        yield 4, 0 if len(first) != 1 or not is_in_time else None
        walk = Walk(medl, script, start, first[0])
        yield 5, walk.broken
        yield 6, walk.too_early()
        yield 7, walk.too_few()

    broken = first_broken(rules())
    return f"keeps yes start {start}" if broken is None else f"keeps no H{broken[0]} {broken[1]}"


# Armed nodes.


def is_forgiven(walk, node, t):
    then = t - 4 * walk.medl.nodes
    return then >= 0 and (node, then) in walk.script.armed and node in walk.at[then]


def may_return(walk, node, armed):
    """Whether the arm line of a node in a slot meets all that is asked of it."""
    medl, script = walk.medl, walk.script
    n, last = medl.nodes, armed + 4 * medl.nodes - 1
    near = range(armed, min(last + 1, script.slots))

    def offers_place(t):
        sender = walk.sender(t)
        return sender != node and sender in walk.sound(t) and medl.slots[sender].kinds[walk.round(t)] in "IX"

    return (
        node in walk.at[armed] and walk.at[armed][node] + 2 * n <= armed
        and not any(armed - 2 * n < t <= last for t in walk.faults)
        and sum(armed <= t <= last for _, t in script.armed) == 1
        and not any((node, c, t) in lines for lines in (script.send, script.receive) for c in "AB" for t in near)
        and not any((node, t) in script.jumps for t in near)
        and not any(walk.sender(t) == node and any(is_deaf(script, r, t) for r in walk.sound(t)) for t in near)
        and (armed + 2 * n > script.slots or any(offers_place(t) for t in range(armed, armed + 2 * n)))
    )


def returns_line(medl, script):
    """The line on armed nodes."""
    start, first, is_in_time = start_of(medl, script)

    def rules():
        yield 1, broken_by_errors(medl, script)
        yield 2, 0 if medl.window < 8 * medl.drift * medl.nodes + 6 * medl.error + 2 else None
        yield 3, min(slots_of_disturbances(medl, script), default=None)
        yield 4, 0 if len(first) != 1 or not is_in_time else None
        walk = Walk(medl, script, start, first[0], is_forgiven)
        yield 5, walk.broken
        yield 6, walk.too_early()
        yield 7, walk.too_few()
        yield 8, min((armed for node, armed in script.armed if not may_return(walk, node, armed)), default=None)

    broken = first_broken(rules())
    return f"returns yes start {start}" if broken is None else f"returns no Q{broken[0]} {broken[1]}"


def test_lines(medl, script):
    """The last lines of a trace: that of the hypothesis, and where a node is armed that on armed nodes."""
    lines = [hypothesis_line(medl, script)]
    return [*lines, returns_line(medl, script)] if script.armed else lines
