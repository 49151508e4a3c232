"""What is wrong with a script, read from docs/FORMATS.md as rules.py reads the rules."""

import re

LARGEST = 1_048_576
NUMBER, VALUE, HEX = "[0-9]{1,9}", "-?[0-9]{1,9}", "[0-9a-fA-F]+"
# What stands behind the first word of a line.
FORMS = {
    "slots": ["COUNT"],
    "on": ["NODE", "SLOT"],
    "drift": ["NODE", "DRIFT"],
    "send": ["NODE", "CHANNELS", "FAULT", "FROM", "TO"],
    "receive": ["NODE", "CHANNELS", "FAULT", "FROM", "TO"],
    "flip": ["NODE", "CHANNELS", "BIT", "SLOT"],
    "error": ["NODE", "ERROR", "FROM", "TO"],
    "jump": ["NODE", "JUMP", "SLOT"],
    "arm": ["NODE", "SLOT"],
    "write": ["NODE", "SLOT", "HEX"],
    "read": ["NODE", "SLOT", "SOURCE"],
}
SPELLED = {"CHANNELS": "A|B|AB", "FAULT": "silence|noise"}
NUMBERS = {
    "COUNT": NUMBER, "NODE": NUMBER, "SLOT": NUMBER, "FROM": NUMBER, "TO": NUMBER, "BIT": NUMBER, "DRIFT": VALUE,
    "ERROR": VALUE, "JUMP": VALUE, "HEX": HEX, "SOURCE": f"status|{NUMBER}",
}
RANGES = {"COUNT": (1, 20_000), "BIT": (8, 2047), "DRIFT": (-1000, 1000), "ERROR": (-10_000, 10_000),
          "JUMP": (-1_000_000, 1_000_000)}


def lines_in(text):
    """The lines of a script, without their ends. The text has a character for each byte."""
    lines = [re.sub("\r$", "", line) for line in text.split("\n")]
    return lines if lines[-1] else lines[:-1]


def words_in(line):
    words = re.findall("[^ \t]+", line)
    return [] if words and words[0][0] == "#" else words


class Script:
    """What the lines of a script have said so far."""

    def __init__(self, medl):
        self.medl = medl
        self.slots = None
        self.once, self.writes = set(), {}

    def data_of(self, node):
        return self.medl.slots[node].data

    def fault_of(self, words):
        """The first fault of a line with words, or None."""
        form = FORMS.get(words[0])
        if form is None or len(form) != len(words) - 1:
            return "word"
        said = dict(zip(form, words[1:]))
        if any(not re.fullmatch(SPELLED[name], said[name]) for name in said.keys() & SPELLED.keys()):
            return "word"
        if words[0] != "slots" and self.slots is None:
            return "no slots"
        if any(not re.fullmatch(NUMBERS[name], said[name]) for name in said.keys() & NUMBERS.keys()):
            return "number"
        numbers = {name: int(word) for name, word in said.items() if re.fullmatch(VALUE, word) and name != "HEX"}
        node, source = numbers.get("NODE"), numbers.get("SOURCE")
        if any(k is not None and k >= self.medl.nodes for k in (node, source)):
            return "no node"
        if words[0] == "write" and self.data_of(node) == 0 or source is not None and self.data_of(source) == 0:
            return "no data"
        if self.is_out_of_range(said, numbers):
            return "range"
        if words[0] in ("slots", "on", "drift") and (words[0], node) in self.once:
            return "repeat"
        if words[0] == "write" and self.medl.buffers == 1:
            return "no buffer"
        if words[0] == "write" and self.writes.get((node, numbers["SLOT"]), 0) + 1 == self.medl.buffers:
            return "too many"
        return None

    def is_out_of_range(self, said, numbers):
        if any(not low <= numbers[name] <= high for name, (low, high) in RANGES.items() if name in numbers):
            return True
        if any(numbers[name] >= self.slots for name in ("SLOT", "FROM", "TO") if name in numbers):
            return True
        if numbers.get("FROM", 0) > numbers.get("TO", numbers.get("FROM", 0)):
            return True
        if "HEX" in said and len(said["HEX"]) != 2 * self.data_of(numbers["NODE"]):
            return True
        return "SOURCE" in numbers and numbers["SOURCE"] == numbers["NODE"]

    def say(self, words):
        """Takes a line without a fault."""
        node = None if words[0] == "slots" else int(words[1])
        self.once.add((words[0], node))
        if words[0] == "slots":
            self.slots = int(words[1])
        elif words[0] == "write":
            place = node, int(words[2])
            self.writes[place] = self.writes.get(place, 0) + 1


def refusal(medl, text):
    """The line by which a script is refused, or None."""
    if len(text) > LARGEST:
        return "script: too large"
    script, lines = Script(medl), lines_in(text)
    for number, line in enumerate(lines, 1):
        words = words_in(line)
        fault = script.fault_of(words) if words else None
        if fault is not None:
            return f"script: line {number} {fault}"
        if words:
            script.say(words)
    return f"script: line {len(lines) + 1} no slots" if script.slots is None else None
