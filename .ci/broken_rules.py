#!/usr/bin/env python3
"""The rules that a script breaks, read a second time: from the page of the command and from docs/, never from crates/.

`broken_rules.py LIST SCRIPT` prints a line for each rule that is not kept, with its place in LIST or SCRIPT, and then the
answer of the test, for a list and a script without an error.
"""

import os
import re
import sys

from rules import List, Script
from script_tests import Walk, hypothesis_line, is_deaf, is_forgiven, returns_line, start_of


def lines_of(text):
    """The lines that say something: their number, the column of the first word, and their words."""
    for number, line in enumerate(text.split("\n"), 1):
        words = line.rstrip("\r").replace("\t", " ").split(" ")
        words = [word for word in words if word]
        if words and words[0][0] != "#":
            yield number, len(line) - len(line.lstrip(" \t")) + 1, words


def joined(numbers):
    return ", ".join(str(number) for number in sorted(numbers)) or "none"


class Fault:
    """A node that became faulty in a slot: by a jump, or by the loss of the sender's frame to these nodes."""

    def __init__(self, node, slot, sender=None, lost=()):
        self.node, self.slot, self.sender, self.lost = node, slot, sender, lost


class Rules:
    def __init__(self, list_name, list_text, script_name, script_text):
        self.list_name, self.list_text, self.script_name = list_name, list_text, script_name
        self.medl, self.script = List(list_text), Script(script_text)
        self.lines = list(lines_of(script_text))
        self.armed = any(words[0] == "arm" for _, _, words in self.lines)
        self.told = []

    # Places and lines.

    def first_line(self, test):
        return next((line for line in self.lines if test(line[2])), None)

    def at_line(self, line, rule, text):
        self.told.append(("%s:%d:%d" % (self.script_name, line[0], line[1]), rule, text))

    def at_slots(self, rule, text):
        self.at_line(self.first_line(lambda words: words[0] == "slots"), rule, text)

    def at_key(self, key, rule, text):
        pattern = r"[ \t]*(\[\[[ \t]*)?%s\b" % key
        for number, line in enumerate(self.list_text.split("\n"), 1):
            found = re.match(pattern, line)
            if found:
                column = len(line) - len(line.lstrip(" \t")) + 1
                self.told.append(("%s:%d:%d" % (self.list_name, number, column), rule, text))
                return

    # Clocks and the window.

    def clocks(self):
        bound = self.medl.drift
        line = self.first_line(lambda words: words[0] == "drift" and abs(int(words[2])) > bound)
        if line:
            node, value = int(line[2][1]), int(line[2][2])
            self.at_line(line, "1", "drift of node %d is %d, past drift = %d of the list" % (node, value, bound))
            return
        past = [(slot, node) for (node, slot), total in self.script.errors.items() if abs(total) > self.medl.error]
        if past:
            slot, node = min(past)
            line = self.first_line(
                lambda words: words[0] == "error" and int(words[1]) == node and int(words[3]) <= slot <= int(words[4]))
            self.at_line(line, "1 slot %d" % slot, "error lines of node %d add up to %d, past error = %d of the list" % (
                node, self.script.errors[node, slot], self.medl.error))

    def window(self):
        d, n, e = self.medl.drift, self.medl.nodes, self.medl.error
        drifts, errors, one = (8, 6, 2) if self.armed else (4, 3, 1)
        need = drifts * d * n + errors * e + one
        if self.medl.window < need:
            self.at_key("window", "2", "window is %d, wanted %d or more: %d * drift %d * nodes %d + %d * error %d + %d" % (
                self.medl.window, need, drifts, d, n, errors, e, one))

    # Flipped bits and jumps.

    def wrong_in(self, words):
        """The slot of a line that disturbs, and the text."""
        far = 4 * self.medl.window
        if words[0] == "flip":
            return int(words[4]), "a bit of the frame of node %s is flipped" % int(words[1])
        if words[0] == "jump":
            node, slot = int(words[1]), int(words[3])
            earliest = min(at for k, at in self.script.jumps if k == node)
            if earliest < slot:
                return slot, "node %d jumps again, after slot %d" % (node, earliest)
            total = self.script.jumps[node, slot]
            if abs(total) < far:
                return slot, "jumps of node %d add up to %d, wanted %d or more, ahead or back" % (node, total, far)
        return None

    def disturbed(self):
        wrong = [(found, line) for line in self.lines for found in [self.wrong_in(line[2])] if found]
        if wrong:
            (slot, text), line = min(wrong, key=lambda pair: (pair[0][0], pair[1][0]))
            self.at_line(line, "3 slot %d" % slot, text)

    # The start.

    def no_start(self):
        """Whether there is no start, which is told."""
        on, n = self.script.on, self.medl.nodes
        may = [k for k in range(n) if self.medl.slots[k].start]
        if not may:
            self.at_key("slot", "4", "no slot has start = true, wanted one or more")
        elif not on:
            self.at_slots("4", "no node is on, wanted a line on NODE SLOT for each")
        elif not any(k in on for k in may):
            self.at_slots("4", "no node that may start is on, wanted one of: %s" % joined(may))
        else:
            due = sorted((on[k] + 2 * n + k, k) for k in may if k in on)
            slot = due[0][0]
            first = sorted(k for at, k in due if at == slot)
            late = {k for k in on if on[k] > slot}
            if len(first) > 1:
                line = self.first_line(lambda words: words[0] == "on" and int(words[1]) == first[1])
                self.at_line(line, "4", "nodes %d and %d would both start in slot %d, wanted one alone" % (
                    first[0], first[1], slot))
            elif late:
                line = self.first_line(lambda words: words[0] == "on" and int(words[1]) in late)
                node = int(line[2][1])
                self.at_line(line, "4", "node %d is on from slot %d, wanted slot %d or earlier, the slot of the start" % (
                    node, on[node], slot))
            else:
                return False
        return True

    # Faulty nodes.

    def loss(self, walk, slot):
        """Who lost the frame of a slot, and who else was to hear it, where its sender is on and not faulty."""
        on = [k for k in sorted(self.script.on) if self.script.on[k] <= slot]
        away = {k for k in on if (k, slot) in self.script.jumps} | set(walk.at[slot])
        sender = walk.sender(slot)
        others = [k for k in on if k not in away and k != sender]
        lost = [k for k in others if all(
            self.script.send[sender, c, slot] or self.script.receive[k, c, slot] for c in "AB")]
        return sender, lost, [k for k in others if k not in lost]

    def faults(self, walk):
        """All faults in order."""
        found = []
        for slot in range(min(self.script.slots, len(walk.after))):
            new = [k for k in walk.after[slot] if walk.after[slot][k] == slot and k not in walk.at[slot]]
            by_jump = sorted(k for k in new if (k, slot) in self.script.jumps and self.script.on[k] <= slot)
            found += [Fault(k, slot) for k in by_jump]
            for k in new:
                if k not in by_jump:
                    sender, lost, _ = self.loss(walk, slot)
                    found.append(Fault(k, slot, sender, lost))
        return found

    def covers(self, words, slot):
        return int(words[4]) <= slot <= int(words[5])

    def cause_of_loss(self, slot, sender, lost):
        return self.first_line(lambda words: self.covers(words, slot) and (
            words[0] == "send" and int(words[1]) == sender or words[0] == "receive" and int(words[1]) in lost)
            if words[0] in ("send", "receive") else False)

    def cause(self, fault):
        if fault.sender is None:
            return self.first_line(
                lambda words: words[0] == "jump" and int(words[1]) == fault.node and int(words[3]) == fault.slot)
        return self.cause_of_loss(fault.slot, fault.sender, fault.lost)

    def lost_frame(self, walk):
        slot = walk.broken
        sender, lost, heard = self.loss(walk, slot)
        self.at_line(self.cause_of_loss(slot, sender, lost), "5 slot %d" % slot, (
            "the frame of node %d is lost to nodes %s, but not to %s: wanted lost to one node or to all" % (
                sender, joined(lost), joined(heard))))

    def too_early(self, walk, faults):
        gap = 2 * self.medl.nodes
        earliest, since = walk.start + gap, "the start in slot %d" % walk.start
        for fault in faults:
            if fault.slot < earliest:
                self.at_line(self.cause(fault), "6 slot %d" % fault.slot, (
                    "node %d becomes faulty, wanted slot %d or later, two rounds after %s" % (
                        fault.node, earliest, since)))
                return
            earliest, since = fault.slot + gap, "node %d did in slot %d" % (fault.node, fault.slot)

    def too_few(self, walk, faults):
        def left(faulty):
            return [k for k in self.script.on if self.medl.slots[k].sync and k not in faulty]

        slot, nodes, before = walk.start, left(walk.after[walk.start - 1]), walk.start
        if len(nodes) >= 4:
            slot = walk.too_few()
            if slot is None:
                return
            nodes, before = left(walk.after[slot]), slot + 1
        earlier = [fault for fault in faults if fault.slot < before]
        text = "wanted four or more correct nodes with sync = true, left: %s" % joined(nodes)
        if earlier:
            self.at_line(self.cause(earlier[-1]), "7 slot %d" % slot, text)
        else:
            self.at_slots("7 slot %d" % slot, text)

    # Armed nodes.

    def not_owed(self, walk, faults, node, slot):
        """Why an arm line does not give its node its place, if it does not."""
        n, slots = self.medl.nodes, self.script.slots
        last = min(slot + 4 * n - 1, slots - 1)
        near = range(slot, last + 1)
        if node not in walk.at[slot]:
            return "it is not faulty before"
        since = walk.at[slot][node]
        if since + 2 * n > slot:
            return "it is faulty since slot %d, wanted an arm line in slot %d or later" % (since, since + 2 * n)
        for fault in faults:
            if slot - 2 * n < fault.slot <= last:
                return "node %d becomes faulty in slot %d, wanted none from slot %d to %d" % (
                    fault.node, fault.slot, max(slot - 2 * n + 1, 0), last)
        if sum(slot <= at <= last for _, at in self.script.armed) > 1:
            return "another arm line, wanted none from slot %d to %d" % (slot, last)
        for at in near:
            if (node, at) in self.script.jumps or any(
                    (node, c, at) in kept for kept in (self.script.send, self.script.receive) for c in "AB"):
                return "it has a send, receive or jump line in slot %d, wanted none to slot %d" % (at, last)
        for at in near:
            if walk.sender(at) == node:
                deaf = [k for k in walk.sound(at) if is_deaf(self.script, k, at)]
                if deaf:
                    return "node %d does not hear its slot %d" % (deaf[0], at)
        if slot + 2 * n <= slots and not any(
                walk.sender(at) != node and walk.sender(at) in walk.sound(at)
                and self.medl.slots[walk.sender(at)].kinds[walk.round(at)] in "IX" for at in range(slot, slot + 2 * n)):
            return "no frame of kind I or X in slots %d to %d" % (slot, slot + 2 * n - 1)
        return None

    def arms(self, walk, faults):
        wrong = []
        for line in self.lines:
            if line[2][0] == "arm":
                node, slot = int(line[2][1]), int(line[2][2])
                why = self.not_owed(walk, faults, node, slot)
                if why:
                    wrong.append((slot, line[0], line, node, why))
        if wrong:
            slot, _, line, node, why = min(wrong)
            self.at_line(line, "8 slot %d" % slot, "node %d is not owed its place: %s" % (node, why))

    def warnings(self):
        self.clocks()
        self.window()
        self.disturbed()
        if not self.no_start():
            start, first, _ = start_of(self.medl, self.script)
            walk = Walk(self.medl, self.script, start, first[0], *([is_forgiven] if self.armed else []))
            if walk.broken is not None:
                self.lost_frame(walk)
            else:
                faults = self.faults(walk)
                self.too_early(walk, faults)
                self.too_few(walk, faults)
                if self.armed:
                    self.arms(walk, faults)
        letter = "Q" if self.armed else "H"
        return ["%s: warning: %s%s: %s" % (place, letter, rule, text) for place, rule, text in self.told]

    def answer(self):
        return (returns_line if self.armed else hypothesis_line)(self.medl, self.script)


def rules_of(list_name, script_name):
    with open(list_name, encoding="utf-8-sig") as file:
        list_text = file.read()
    # A comment may have any bytes.
    with open(script_name, encoding="latin-1", newline="") as file:
        script_text = file.read()
    return Rules(os.path.basename(list_name), list_text, os.path.basename(script_name), script_text)


if __name__ == "__main__":
    read = rules_of(sys.argv[1], sys.argv[2])
    for line in read.warnings():
        print(line)
    print(read.answer())
