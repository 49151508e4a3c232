"""How an entry of a run came about: a second reading, from the page of `ttplab why` and from rules.py alone.

`story_of` writes what `ttplab why` does, for a list and a script that are taken for right ones.
"""

from functools import cached_property, lru_cache

from rules import (
    BAD, COLD_START, NOISE, OTHER, SILENCE, Cluster, List, Script, flipped, frame, heard_by, joinable, on_channel,
    outcome_by_numbers,
)

OWN = ("start", "join", "send")
MISSES = ("null", "invalid", "incorrect")
JUDGED = ("correct", "tentative", *MISSES)
DEPARTURES = ("denied", "unacknowledged", "clique")
FAULTS = ("send", "receive", "flip", "jump")


class Line:
    """A line of a script, with its number in the file."""

    def __init__(self, number, words):
        self.number, self.word = number, words[0]
        is_payload = [words[0] == "write" and place == 3 for place in range(len(words))]
        self.words = [
            str(int(word)) if word.lstrip("-").isdigit() and not kept else word
            for word, kept in zip(words, is_payload)
        ]

    def __str__(self):
        return " ".join(self.words)

    def is_of(self, word, node):
        return self.word == word and self.words[1] == str(node)

    @cached_property
    def value(self):
        return int(self.words[2])

    def has_slot(self, slot):
        """Whether the span or the slot at its end has this one."""
        first = int(self.words[-2]) if self.word in ("send", "receive", "error") else int(self.words[-1])
        return first <= slot <= int(self.words[-1])

    def covers(self, word, node, channel, kind, slot):
        """Whether it is a fault of a node's frames on each of these channels in a slot."""
        return (
            self.is_of(word, node) and self.words[3] == kind and set(channel) <= set(self.words[2]) and self.has_slot(slot)
        )


def script_lines(text):
    lines = []
    for number, line in enumerate(text.split("\n"), 1):
        words = [word for word in line.rstrip("\r").replace("\t", " ").split(" ") if word]
        if words and words[0][0] != "#":
            lines.append(Line(number, words))
    return lines


class Row:
    """One slot of a run: the nodes as they began it and as they are after it, words, peers, frames as sent."""

    def __init__(self, cluster, medl, script, t):
        for node in cluster.nodes:
            node.begin(medl, script, t)
        acts = [node.act(medl) for node in cluster.nodes]
        after = outcome_by_numbers(cluster, medl, script, t, acts, {
            k: 0 for k, act in enumerate(acts)
            if act == "send" and medl.payload(medl.header(cluster.nodes[k].cstate.round, k), k) > 0
        })
        self.before, self.after = cluster.nodes, after.nodes
        said = [line.split(" ") for line in after.lines]
        self.words = [words[4] for words in said]
        self.peers = [None if words[6] == "-" else int(words[6]) for words in said]
        self.is_corrected = [after.messages[k, "status"][15] & 128 != 0 for k in range(medl.nodes)]
        self.frames = {}
        for node, word in zip(after.nodes, self.words):
            k = node.number
            if word == "start":
                self.frames[k] = frame(medl, COLD_START, node.own_cstate(), b"")
            elif word == "send":
                header = medl.header(node.cstate.round, k)
                self.frames[k] = frame(medl, header, node.own_cstate(), bytes(medl.payload(header, k)))
        cluster.nodes = after.nodes


def rows_of(medl, script, count):
    cluster = Cluster(medl)
    return [Row(cluster, medl, script, t) for t in range(count)]


def reduced(lines, kept):
    """A script's text with those of its fault lines alone whose numbers are kept."""
    return "\n".join(str(line) for line in lines if line.word not in FAULTS or line.number in kept)


class Cause:
    """Lines and entries, a text, whether a clock is past the window, the nodes that a sender holds and this does not."""

    def __init__(self, text, lines=(), entries=(), clock=False, lacked=()):
        self.text, self.lines, self.entries = text, set(lines), set(entries)
        self.clock, self.lacked = clock, set(lacked)

    def with_causes(self, *others):
        for other in others:
            self.lines |= other.lines
            self.entries |= other.entries
        return self


def listed(numbers):
    return ",".join(str(number) for number in numbers)


class Causes:
    """The causes of the entries of a run. An entry is a pair of slot and node."""

    def __init__(self, medl, script, lines, rows):
        self.medl, self.script, self.lines, self.rows = medl, script, lines, rows
        self.known = {}

    def word(self, entry):
        return self.rows[entry[0]].words[entry[1]]

    def peer(self, entry):
        return self.rows[entry[0]].peers[entry[1]]

    def before(self, k, t):
        return self.rows[t].before[k]

    def doubted(self, k, t):
        """The node about which a node is in doubt as a slot begins, or None."""
        ack = self.before(k, t).ack
        return None if ack in (None, "first") else ack

    def newest(self, k, t, words):
        """The slot of the newest entry with one of these words before a slot, or None."""
        return next((u for u in range(t - 1, -1, -1) if self.rows[u].words[k] in words), None)

    def newest_departure(self, k, t):
        return (self.newest(k, t + 1, DEPARTURES), k)

    def since_own(self, k, t, words):
        return [(u, k) for u in range(self.newest(k, t, OWN) + 1, t) if self.rows[u].words[k] in words]

    # What nodes hear.

    def arriving(self, t, channel):
        return on_channel(self.script, t, channel, self.rows[t].frames)

    def heard(self, k, t, channel):
        return heard_by(self.script, t, channel, k, self.arriving(t, channel))

    def changed(self, t, channel, p):
        """The lines of flips that change the frame of a node on a channel."""
        bits = self.rows[t].frames[p]
        turned = {}
        for line in self.lines:
            if line.is_of("flip", p) and channel in line.words[2] and line.has_slot(t) and int(line.words[3]) < 8 * len(bits):
                turned.setdefault(int(line.words[3]), []).append(line.number)
        return sorted(numbers[0] for numbers in turned.values() if len(numbers) % 2)

    def remaining(self, t, channel):
        return [p for p in self.rows[t].frames if SILENCE not in self.script.send[p, channel, t]]

    def first_line(self, word, nodes, channel, kind, t):
        found = [line for line in self.lines if any(line.covers(w, p, channel, kind, t) for w, p in nodes)]
        wide = [line for line in found if line.words[2] == "AB"]
        return (wide or found or [None])[0]

    def of_one(self, k, t, channel, kind, sent):
        places = [("receive", k)] + ([("send", sent[0])] if len(sent) == 1 else [])
        return self.first_line(None, places, channel, kind, t)

    def silencing(self, k, t, channel):
        sent = list(self.rows[t].frames)
        line = self.of_one(k, t, channel, SILENCE, sent)
        if line is not None:
            return [line.number]
        found = [self.first_line(None, [("send", p)], channel, SILENCE, t) for p in sent]
        return [line.number for line in found if line is not None]

    def noisy(self, k, t, channel):
        line = self.of_one(k, t, channel, NOISE, self.remaining(t, channel))
        return None if line is None else line.number

    def spoils(self, k, t):
        """What spoils both channels to a node in a slot."""
        cause = Cause("")
        for channel in "AB" if self.rows[t].frames else "":
            heard = self.heard(k, t, channel)
            if heard == SILENCE:
                cause.lines.update(self.silencing(k, t, channel))
            elif heard == NOISE:
                line = self.noisy(k, t, channel)
                if line is not None:
                    cause.lines.add(line)
                else:
                    cause.entries.update((t, p) for p in self.remaining(t, channel))
            else:
                cause.lines.update(self.changed(t, channel, heard[0]))
        return cause

    def joined_on(self, k, t):
        """The node on whose frame a node joins, and whether it was as it was sent."""
        for channel in "AB":
            heard = self.heard(k, t, channel)
            if isinstance(heard, tuple) and joinable(self.medl, heard[1]) is not None:
                return heard[0], heard[1] == self.rows[t].frames[heard[0]]
        raise AssertionError("no frame to join on")

    def is_deaf(self, k, t):
        return all(any(line.covers("receive", k, channel, SILENCE, t) for line in self.lines) for channel in "AB")

    # What nodes say, and where they come from.

    def speaks_of(self, entry, j):
        word = self.word(entry)
        if word in ("start", "join"):
            return True
        if word == "send":
            return entry[1] == j
        if word not in JUDGED:
            return False
        return self.peer(entry) == j or (word == "correct" and self.doubted(entry[1], entry[0]) == j)

    def said(self, x, j, t):
        u = next(u for u in range(t - 1, -1, -1) if self.speaks_of((u, x), j))
        if self.word((u, x)) == "join":
            p, as_sent = self.joined_on(x, u)
            if as_sent:
                return (u, p) if self.word((u, p)) == "start" else self.said(p, j, u)
        return (u, x)

    def path(self, x, t):
        """The root of a node, and then the joins on the way to it."""
        u = self.newest(x, t, ("start", "join"))
        if self.word((u, x)) == "join":
            p, as_sent = self.joined_on(x, u)
            if as_sent:
                return ([(u, p)] if self.word((u, p)) == "start" else self.path(p, u)) + [(u, x)]
        return [(u, x)]

    # Own slots and listening.

    def listens(self, k, t):
        """The first slot of a node's listening, and the causes."""
        u = next((u for u in range(t - 1, -1, -1) if self.rows[u].words[k] != "wait"), None)
        if u is None:
            return 0, Cause("")
        word = self.rows[u].words[k]
        if word == "retry":
            return u + 1, Cause("", entries=[(u, k)])
        if word in DEPARTURES or word == "gone":
            arms = [line.number for line in self.lines if line.is_of("arm", k) and line.has_slot(u + 1)]
            return u + 1, Cause("", arms[:1], [self.newest_departure(k, u)])
        return u + 1, Cause("")

    def on_line(self, k):
        return [line.number for line in self.lines if line.is_of("on", k)]

    def off(self, k, t):
        if k in self.script.on:
            return Cause(f"it is switched on in slot {self.script.on[k]}", self.on_line(k))
        return Cause("it is never switched on")

    def wait(self, k, t):
        first, causes = self.listens(k, t)
        causes.text = f"no frame to join on since slot {first}"
        for u in range(first, t + 1):
            if any(joinable(self.medl, bits) is not None for bits in self.rows[u].frames.values()):
                causes.with_causes(self.spoils(k, u))
        return causes

    def join(self, k, t):
        p, as_sent = self.joined_on(k, t)
        cause = Cause(f"it takes over the C-state of node {p}")
        if t > 0 and self.word((t - 1, k)) == "wait":
            cause.with_causes(self.wait(k, t - 1))
        else:
            cause.with_causes(self.listens(k, t)[1])
        return cause if as_sent else cause.with_causes(self.spoils(k, t))

    def start(self, k, t):
        limit = self.before(k, t).limit
        cause = Cause(f"silence in {limit} slots").with_causes(self.wait(k, t - 1))
        if not self.listens(k, t)[1].entries:
            cause.lines.update(self.on_line(k))
        before = range(t - limit, t)
        for u in before:
            if self.rows[u].frames:
                for channel in "AB":
                    cause.lines.update(self.silencing(k, u, channel))
        hears = [u for u in before if not self.is_deaf(k, u)]
        for q in range(self.medl.nodes):
            if q == k:
                continue
            if self.word((t, q)) == "gone":
                left = self.newest_departure(q, t)
                place = self.before(q, left[0]).cstate.slot
                if any(u >= left[0] and (place + u - left[0]) % self.medl.nodes == q for u in hears):
                    cause.entries.add(left)
            if self.word((t - 1, q)) in ("wait", "retry") and hears:
                cause.entries.add((t - 1, q))
        return cause

    def send(self, k, t):
        return Cause("its own slot")

    def retry(self, k, t):
        s = self.newest(k, t, OWN)
        cause = Cause(f"no frame accepted since its cold start in slot {s}")
        cause.entries.update(self.since_own(k, t, (*MISSES, "tentative")))
        if self.listens(k, s)[1].entries:
            cause.entries.add((s, k))
        return cause

    def gone(self, k, t):
        left = self.newest_departure(k, t)
        return Cause(f"it left in slot {left[0]}", entries=[left])

    def unacknowledged(self, k, t):
        s = self.newest(k, t, OWN)
        return Cause(
            f"no frame accepted since its own in slot {s}", entries=self.since_own(k, t, (*MISSES, "tentative"))
        )

    def clique(self, k, t):
        s, node = self.newest(k, t, OWN), self.before(k, t)
        cause = Cause(f"accepted {node.accepted} and rejected {node.rejected} since slot {s}")
        corrects = self.since_own(k, t, ("correct",))
        cause.entries.update(self.since_own(k, t, ("invalid", "incorrect")))
        cause.entries.update((u, k) for u, _ in corrects if self.doubted(k, u) is not None)
        quiet = self.since_own(k, t, ("null", "tentative"))
        if node.accepted + len(quiet) > node.rejected:
            cause.entries.update(quiet)
        if self.word((s, k)) == "join" or not corrects:
            return cause
        u = corrects[0][0]
        p = self.peer((u, k))
        if self.doubted(k, u) is not None or self.word((u, p)) != "send":
            return cause
        shared = {self.peer(e) for e in self.since_own(k, t, ("invalid", "incorrect")) if e[0] < u}
        for e in self.since_own(k, t, ("incorrect",)):
            shared |= self.of(e).lacked
        lacked = [j for j in sorted(shared) if j not in self.rows[u].after[p].members]
        cause.entries.update(self.said(p, j, u) for j in lacked)
        if lacked:
            cause.text += f", node {p} lacks {listed(lacked)} too"
        return cause

    # Frames of other nodes.

    def in_doubt(self, k, t):
        """The causes of a doubt: what made it, and the frames after that."""
        u = self.since_own(k, t, ("tentative",))[0][0]
        return [(u, k)] + [entry for entry in self.since_own(k, t, MISSES) if entry[0] > u]

    def correct(self, k, t):
        x = self.doubted(k, t)
        if x is None:
            return Cause("the frame that is due")
        return Cause(f"node {self.peer((t, k))} holds node {k} and not node {x}", entries=self.in_doubt(k, t))

    def view(self, k, t, channel, as_sent=False):
        """What a channel tells the node, with what was sent in place of what flips made of it where asked for."""
        heard = self.heard(k, t, channel)
        deviation = 0
        if isinstance(heard, tuple):
            deviation = self.deviation(k, t, heard[0])
            if as_sent:
                heard = heard[0], self.rows[t].frames[heard[0]]
        return self.before(k, t).view(self.medl, heard, deviation)

    def deviation(self, k, t, p):
        return self.before(p, t).clock - self.before(k, t).clock + self.script.errors[k, t]

    def against(self, k, t):
        """The node whose frame was that of the second candidate, and what it said of this one, or what flips did."""
        channel = next(channel for channel in "AB" if self.view(k, t, channel) == 1)
        p = self.heard(k, t, channel)[0]
        if self.changed(t, channel, p):
            return p, self.spoils(k, t)
        return p, Cause("", entries=[self.said(p, k, t)])

    def tentative(self, k, t):
        p, causes = self.against(k, t)
        causes.text = f"node {p} does not hold node {k}"
        causes.entries.update(self.since_own(k, t, MISSES))
        return causes

    def denied(self, k, t):
        p, causes = self.against(k, t)
        causes.text = f"node {p} holds node {self.doubted(k, t)} and not node {k}"
        causes.entries.update(self.in_doubt(k, t))
        return causes

    def missed(self, k, t):
        seen = {"invalid": BAD, "incorrect": OTHER}.get(self.word((t, k)))
        for channel in "AB":
            is_frame = isinstance(self.heard(k, t, channel), tuple)
            if is_frame and self.view(k, t, channel) == seen and self.view(k, t, channel, True) == seen:
                return self.reason(k, t, channel)
        if not self.rows[t].frames:
            return self.nobody(k, t)
        reasons = [self.reason(k, t, channel) for channel in "AB"]
        texts = [reason.text for reason in reasons]
        text = f"AB {texts[0]}" if texts[0] == texts[1] else f"A {texts[0]}, B {texts[1]}"
        return Cause(
            text, clock=any(reason.clock for reason in reasons), lacked=set().union(*(r.lacked for r in reasons))
        ).with_causes(*reasons)

    null = invalid = incorrect = missed

    def nobody(self, k, t):
        """The reason of both channels where nobody sent."""
        for line in self.lines:
            if line.covers("receive", k, "AB", SILENCE, t):
                return Cause(f"AB silence of line {line.number}", [line.number])
        p = self.peer((t, k))
        word = self.word((t, p))
        if word == "off":
            return Cause(f"node {p} is off")
        if word in ("gone", "unacknowledged", "clique"):
            left = self.newest_departure(p, t)
            return Cause(f"node {p} left in slot {left[0]}", entries=[left])
        if word == "wait":
            return Cause(f"node {p} listens", entries=[(t, p)])
        if word == "retry":
            return Cause(f"node {p} retries", entries=[(t, p)])
        return self.elsewhere(k, p, t)

    def elsewhere(self, k, p, t):
        return Cause(f"node {p} is at another place", entries=self.path(k, t) + self.path(p, t))

    def reason(self, k, t, channel):
        """The reason of a channel on which somebody sent."""
        heard = self.heard(k, t, channel)
        if heard == SILENCE:
            lines = self.silencing(k, t, channel)
            return Cause(f"silence of line {listed(lines)}", lines)
        if heard == NOISE:
            line = self.noisy(k, t, channel)
            if line is not None:
                return Cause(f"noise of line {line}", [line])
            remain = self.remaining(t, channel)
            return Cause(f"collision of nodes {listed(remain)}", entries=[(t, p) for p in remain])
        p = heard[0]
        flips = self.changed(t, channel, p)
        if flips and self.view(k, t, channel) != self.view(k, t, channel, True):
            return Cause(f"flips of line {listed(flips)}", flips)
        if self.word((t, p)) == "start":
            return Cause(f"cold start of node {p}", entries=[(t, p)])
        if abs(self.deviation(k, t, p)) > self.medl.window:
            return self.clocks(k, t, p)
        sent, own = self.before(p, t).cstate, self.before(k, t).cstate
        if (sent.time, sent.round, sent.slot) != (own.time, own.round, own.slot):
            return self.elsewhere(k, p, t)
        return self.other_members(k, t, p)

    def jumps_borne(self, x, t):
        lines, averages = [], 0
        for u in range(t, -1, -1):
            if u < t and self.rows[u].is_corrected[x]:
                averages += 1
                if averages == 2:
                    break
            if u < t and self.word((u, x)) == "join":
                x = self.joined_on(x, u)[0]
            lines += [
                line.number for line in self.lines if line.is_of("jump", x) and line.has_slot(u) and line.value != 0
            ]
            if u == self.script.on[x]:
                break
        return lines

    def clocks(self, k, t, p):
        cause = Cause(f"clock {self.deviation(k, t, p)} past window {self.medl.window}", clock=True)
        jumps = self.jumps_borne(p, t) + self.jumps_borne(k, t)
        cause.lines.update(jumps)
        if abs(self.script.errors[k, t]) > self.medl.error:
            cause.lines.update(
                line.number for line in self.lines if line.is_of("error", k) and line.has_slot(t) and line.value != 0
            )
        cause.lines.update(
            line.number for line in self.lines for x in (p, k)
            if line.is_of("drift", x) and abs(line.value) > self.medl.drift
        )
        for x in sorted((p, k)) if not jumps else ():
            stint = self.newest(x, t, ("start", "join"))
            last = t - self.before(x, t).cstate.slot - 1
            if last >= stint and not self.rows[last].is_corrected[x]:
                missed = [
                    (u, x) for u in range(max(stint + 1, last - self.medl.nodes + 1), last + 1)
                    if self.word((u, x)) in (*MISSES, "tentative") and self.medl.slots[self.peer((u, x))].sync
                ]
                cause.entries.update(missed)
                if missed:
                    cause.text += f", node {x} not corrected"
            if self.word((stint, x)) == "join" and (self.of((stint, x)).lines or self.of((stint, x)).entries):
                cause.entries.add((stint, x))
                cause.text += f", node {x} joined in slot {stint}"
        return cause

    def other_members(self, k, t, p):
        node, sent = self.before(k, t), self.rows[t].after[p].members
        own = node.candidates(self.peer((t, k)))[0]
        x = self.doubted(k, t)
        differing = sent ^ own
        told = differing - {k, x}
        if differing == {k} and node.ack is None:
            told = {k}
        if told:
            found = []
            for j in told:
                lacks, holds = (k, p) if j in sent else (p, k)
                u, who = self.said(lacks, j, t)
                found.append((u, who, j, lacks, holds))
            u, who, j, lacks, holds = min(found)
            cause = Cause(f"node {holds} holds node {j} and node {lacks} does not", entries=[(u, who)])
            also = self.said(holds, j, t)
            if self.word(also) == "join":
                cause.entries.add(also)
            if lacks == k:
                cause.lacked.add(j)
            return cause
        if k in sent:
            return Cause(f"node {p} holds node {k} and node {x}", entries=self.since_own(k, t, ("tentative",)))
        return Cause(
            f"node {p} holds neither node {k} nor node {x}", entries=[self.said(p, k, t), self.said(p, x, t)]
        )

    def of(self, entry):
        if entry not in self.known:
            t, k = entry
            self.known[entry] = getattr(self, self.word(entry))(k, t)
        return self.known[entry]

    # The story.

    def order(self, entry):
        word = self.word(entry)
        rank = 1 if word in ("wait", "join") else 2 if word in JUDGED or word == "denied" else 0
        return entry[0], rank, entry[1]

    def reached(self, entry):
        seen, left = {entry}, [entry]
        while left:
            for other in self.of(left.pop()).entries - seen:
                assert self.order(other) < self.order(max(seen, key=self.order)), (other, seen)
                seen.add(other)
                left.append(other)
        for one in seen:
            assert all(self.order(other) < self.order(one) for other in self.of(one).entries), one
        return sorted(seen, key=self.order)

    def story(self, asked):
        """The entries of the story with what each names, in the order in which they happened."""
        t, k = asked
        cause = self.of(asked)
        if t > 0 and self.word((t - 1, k)) in (*OWN, *JUDGED):
            root = self.path(k, t)[0]
            faults = {line.number for line in self.lines if line.word in FAULTS}
            if root not in cause.entries and any(self.of(entry).lines & faults for entry in self.reached(root)):
                self.known[asked] = Cause(
                    f"{cause.text}, by the {self.word(root)} of slot {root[0]}", cause.lines, cause.entries | {root},
                    cause.clock, cause.lacked,
                )
        back = set()
        for entry in self.reached(asked):
            cause = self.of(entry)
            if cause.lines or cause.clock or cause.entries & back:
                back.add(entry)
        told, wanted = [], {asked}
        for entry in reversed(self.reached(asked)):
            if entry in wanted:
                named = sorted(self.of(entry).entries & back, key=self.order)
                wanted.update(named)
                told.append((entry, named))
        return told[::-1]


def entry_line(causes, entry, named):
    (t, k), cause = entry, causes.of(entry)
    peer = causes.peer(entry)
    return (
        f"slot {t} node {k} {causes.word(entry)} peer {'-' if peer is None else peer}"
        f" lines {listed(sorted(cause.lines)) or '-'} entries {listed(f'{u}:{x}' for u, x in named) or '-'}"
        f" because {cause.text}"
    )


@lru_cache(maxsize=8)
def run_of(list_text, script_text):
    """A right list and script, the lines of the script, and the rows of its run."""
    medl, script = List(list_text), Script(script_text)
    return medl, script, script_lines(script_text), rows_of(medl, script, script.slots)


def story_of(list_text, script_text, node, slot=None):
    """The status and the lines of `ttplab why` on a right list and script."""
    medl, script, lines, rows = run_of(list_text, script_text)
    if node >= medl.nodes:
        return 3, [f"list: nodes 0 to {medl.nodes - 1}"]
    if slot is not None and slot >= script.slots:
        return 4, [f"script: slots 0 to {script.slots - 1}"]
    if slot is None:
        slot = Causes(medl, script, lines, rows).newest_departure(node, script.slots - 1)[0]
        if slot is None:
            return 1, [f"node {node} does not leave"]
    # Nothing is looked at that comes later.
    causes = Causes(medl, script, lines, rows[:slot + 1])
    asked = (slot, node)
    word, told = causes.word(asked), causes.story(asked)
    named = set().union(*(causes.of(entry).lines for entry, _ in told))

    def word_with(kept):
        return rows_of(medl, Script(reduced(lines, kept)), slot + 1)[slot].words[node]

    alone = word_with(named)
    out = [f"ttplab why 1 nodes {medl.nodes} slots {script.slots} node {node} slot {slot}"]
    for line in lines:
        if line.number in named:
            needed = "-"
            if line.word in FAULTS and alone == word:
                needed = "no" if word_with(named - {line.number}) == word else "yes"
            out.append(f"line {line.number} needed {needed} {line}")
    out += [entry_line(causes, entry, others) for entry, others in told]
    return 0, out + ["alone yes" if alone == word else f"alone no {alone}"]
