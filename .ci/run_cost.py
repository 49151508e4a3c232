"""What a run costs, by the second reading: who left, who was hurt, when memberships were split, and what is left."""

import rules
import script_tests

SENDING = ("start", "send")
LEAVING = ("denied", "unacknowledged", "clique")
HEARING = ("wait", "join", "correct", "tentative", "incorrect", "invalid", "null", "denied")
# Others hold their clocks against such a node's, or it holds its own against theirs.
TIMED = ("send", "correct", "tentative", "incorrect", "invalid", "null", "denied")
LARGEST_JUMP = 1_000_000


class Faulty(script_tests.Walk):
    """Who is faulty after each slot. A slot that breaks the rule on losses makes nobody so but those whose clocks jump."""

    def joining(self, faulty, t):
        joining = super().joining(faulty, t)
        if joining is None:
            on = script_tests.nodes_on(self.script, t)
            return [node for node in on if node not in faulty and (node, t) in self.script.jumps]
        return joining


def faulty_after(medl, script):
    """For each slot the nodes that are faulty after it."""
    start, first, is_in_time = script_tests.start_of(medl, script)
    if len(first) != 1 or not is_in_time:
        return [()] * script.slots
    if script.armed:
        return Faulty(medl, script, start, first[0], script_tests.is_forgiven).after
    return Faulty(medl, script, start, first[0]).after


def told(part):
    """Words with commas between, or a dash."""
    return ",".join(part) or "-"


class Run:
    """What is read of a run, where these nodes count as faulty besides."""

    def __init__(self, medl, script, besides=()):
        cluster, faulty = rules.Cluster(medl), [{*nodes, *besides} for nodes in faulty_after(medl, script)]
        self.words, left, hurt, split = [], {}, set(), []
        for t in range(script.slots):
            lines = []

            def take(legal):
                lines.append(legal[0].split(" "))
                return legal[0]

            rules.tell_slot(cluster, medl, script, t, take)
            words = [line[4] for line in lines[: medl.nodes]]
            self.words.append(words)
            left.update({k: f"{k}:{t}:{word}" for k, word in enumerate(words) if word in LEAVING})
            hurt.update(k for k, word in enumerate(words) if word in LEAVING and k not in faulty[t])
            if len({node.members for node in self.settled(cluster) if node.number not in faulty[t]}) > 1:
                split.append(t)
        *_, test = script_tests.test_lines(medl, script)
        held = dict.fromkeys(node.members for node in self.settled(cluster))
        digits = 2 * medl.member_bytes
        end = [f"{sum(1 << member for member in members):0{digits}x}" for members in held]
        shown = f"{split[0]} {split[-1]}" if split else "- -"
        self.test = test
        self.cost = (
            f"left {told(left[k] for k in sorted(left))} hurt {told(str(k) for k in sorted(hurt))}"
            f" split {shown} end {told(end)}"
        )
        self.is_kept, self.is_hurt, self.is_split = test.split(" ")[1] == "yes", bool(hurt), bool(split)
        self.is_torn, self.is_dead = len(held) > 1, all(len(members) < 2 for members in held)

    @staticmethod
    def settled(cluster):
        """The nodes that are active and not in doubt."""
        return [node for node in cluster.nodes if node.phase == "active" and node.ack in (None, "first")]
