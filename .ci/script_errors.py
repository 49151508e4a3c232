#!/usr/bin/env python3
"""A second reading of what is wrong with a script, from docs/FORMATS.md and the page of `check` alone.

`script_errors.py NODES BUFFERS PAYLOADS FILE` prints the lines of the script FILE for a list of these numbers, with PAYLOADS
joined by commas; NODES 0 stands for a list that is at fault. With --raw each line is the line's number, the places of its
word and the fault's name, as the tests of the crate print them.
"""

import re
import sys

WORDS = ["slots", "on", "drift", "send", "receive", "flip", "error", "jump", "arm", "write", "read"]
FORMS = {
    "slots": ["T"], "on": ["NODE", "SLOT"], "drift": ["NODE", "VALUE"],
    "send": ["NODE", "CHANNELS", "FAULT", "FROM", "TO"], "receive": ["NODE", "CHANNELS", "FAULT", "FROM", "TO"],
    "flip": ["NODE", "CHANNELS", "BIT", "SLOT"], "error": ["NODE", "VALUE", "FROM", "TO"],
    "jump": ["NODE", "VALUE", "SLOT"], "arm": ["NODE", "SLOT"], "write": ["NODE", "SLOT", "HEX"],
    "read": ["NODE", "SLOT", "SOURCE"],
}
BOUNDS = {"drift": 1000, "error": 10000, "jump": 1000000}
MARK = b"\xef\xbb\xbf"


def shown(word):
    text = "".join(chr(b) if 32 <= b <= 126 and b not in b'"\\' else "\\x%02x" % b for b in word[:40])
    return '"%s"%s' % (text, "..." if 40 < len(word) else "")


def distance(a, b):
    row = list(range(len(b) + 1))
    for i, x in enumerate(a, 1):
        last, row[0] = row[0], i
        for j, y in enumerate(b, 1):
            last, row[j] = row[j], min(row[j] + 1, row[j - 1] + 1, last + (x != y))
    return row[-1]


def joined(words):
    return words[0] if len(words) == 1 else ", ".join(words[:-1]) + " or " + words[-1]


def meant(word, words):
    small = bytes(b + 32 if 65 <= b <= 90 else b for b in word)
    near = [(distance(small, w.encode()), i) for i, w in enumerate(words)]
    near = [(d, i) for d, i in near if d <= 2 and d < len(words[i])]
    if near:
        return "%s, nearest %s" % (shown(word), words[min(near)[1]])
    return "%s, wanted %s" % (shown(word), joined(words))


def number(word):
    return int(word) if re.fullmatch(rb"[0-9]{1,9}", word) else None


def value(word):
    return int(word) if re.fullmatch(rb"-?[0-9]{1,9}", word) else None


def lines_of(text):
    pieces = text.split(b"\n")
    pieces = [p[:-1] if p.endswith(b"\r") else p for p in pieces]
    return pieces if pieces[-1] else pieces[:-1]


def words_of(line):
    return [(m.start(), m.group()) for m in re.finditer(rb"[^ \t]+", line)]


class Reader:
    """What lines say, one after another. `list` is None where it is at fault, else (buffers, payloads)."""

    def __init__(self, of):
        self.of = of
        self.nodes = len(of[1]) if of else 24
        self.slots, self.slots_line = 20000, None
        self.named = False
        self.on, self.drift, self.writes = {}, {}, {}

    def of_number(self, part, word, low, high):
        v = number(word)
        if v is None:
            return "number: %s is %s, wanted a number %d to %d" % (part, shown(word), low, high)
        if not low <= v <= high:
            return "range: %s is %d, wanted %d to %d" % (part, v, low, high)

    def of_word(self, form, part, word, node):
        last = self.slots - 1
        payloads = self.of and self.of[1]
        if part == "T":
            return self.of_number(part, word, 1, 20000)
        if part in ("SLOT", "FROM", "TO"):
            return self.of_number(part, word, 0, last)
        if part == "BIT":
            return self.of_number(part, word, 8, 2047)
        if part == "VALUE":
            bound, v = BOUNDS[form], value(word)
            if v is None:
                return "number: VALUE is %s, wanted a number %d to %d" % (shown(word), -bound, bound)
            if bound < abs(v):
                return "range: VALUE is %d, wanted %d to %d" % (v, -bound, bound)
        if part == "CHANNELS" and word not in (b"A", b"B", b"AB"):
            return "word: CHANNELS is %s, wanted A, B or AB" % shown(word)
        if part == "FAULT" and word not in (b"silence", b"noise"):
            return "word: FAULT is %s, wanted silence or noise" % shown(word)
        if part == "NODE":
            v = number(word)
            if v is None:
                return "number: NODE is %s, wanted a number 0 to %d" % (shown(word), self.nodes - 1)
            if self.nodes <= v:
                return "no node: NODE is %d, wanted 0 to %d" % (v, self.nodes - 1)
            if form == "write" and payloads and payloads[v] == 0:
                return "no data: NODE is %d, whose data is 0 in the list" % v
        if part == "SOURCE" and word != b"status":
            v = number(word)
            if v is None:
                return "number: SOURCE is %s, wanted status or a number 0 to %d" % (shown(word), self.nodes - 1)
            if self.nodes <= v:
                return "no node: SOURCE is %d, wanted status or 0 to %d" % (v, self.nodes - 1)
            if payloads and payloads[v] == 0:
                return "no data: SOURCE is %d, whose data is 0 in the list" % v
            if node == v:
                return "range: SOURCE is %d, the node itself, wanted status or another node" % v
        if part == "HEX":
            if not re.fullmatch(rb"[0-9a-fA-F]*", word):
                return "number: HEX is %s, wanted hexadecimal digits, two for each byte" % shown(word)
            if payloads and node is not None and len(word) != 2 * payloads[node]:
                return "range: HEX has digits %d, wanted %d for data = %d of node %d" % (
                    len(word), 2 * payloads[node], payloads[node], node)

    def line(self, count, line):
        """The faults of a line: the place in it and the text."""
        words = words_of(line)
        if not words or words[0][1][:1] == b"#":
            return []
        found = []
        if count == 1 and words[0][1].startswith(MARK):
            found.append((words[0][0], "word: a byte order mark, save the file without one"))
            words[0] = (words[0][0] + 3, words[0][1][3:])
            words = [w for w in words if w[1]]
            if not words or words[0][1][:1] == b"#":
                return found
        at, first = words[0]
        if first.decode("latin-1") not in WORDS:
            return found + [(at, "word: " + meant(first, WORDS))]
        form = first.decode()
        if form != "slots" and not self.named:
            found.append((at, "no slots: wanted a line slots T before this one"))
        self.named = True
        parts = FORMS[form]
        rest = words[1:]
        if len(rest) != len(parts):
            comments = [i for i, w in enumerate(rest) if w[1][:1] == b"#"]
            if not comments:
                return found + [(at, "word: words %d, wanted %d: %s" % (
                    len(words), len(parts) + 1, " ".join([form] + parts)))]
            found.append((rest[comments[0]][0], "word: %s, a comment has a line of its own" % shown(rest[comments[0]][1])))
            rest = rest[:comments[0]]
            if len(rest) != len(parts):
                return found
        told = []
        node = None
        if parts[0] == "NODE" and self.of_word(form, "NODE", rest[0][1], None) is None:
            node = number(rest[0][1])
        for part, (place, word) in zip(parts, rest):
            fault = self.of_word(form, part, word, node)
            if fault:
                told.append((place, fault))
        if "FROM" in parts:
            i = parts.index("FROM")
            a, b = number(rest[i][1]), number(rest[i + 1][1])
            if a is not None and b is not None and b < a < self.slots:
                told.append((rest[i + 1][0], "range: TO is %d, wanted %d or more, since FROM is %d" % (b, a, a)))
        if not told:
            told = [(at, text) for text in self.stated(count, form, [w[1] for w in rest])]
        return found + told

    def stated(self, count, form, words):
        if form == "slots":
            if self.slots_line:
                return ["repeat: slots stands in line %d" % self.slots_line]
            self.slots, self.slots_line = number(words[0]), count
        if form in ("on", "drift"):
            node, kept = number(words[0]), getattr(self, form)
            if node in kept:
                return ["repeat: %s %d stands in line %d" % (form, node, kept[node])]
            kept[node] = count
        if form == "write" and self.of:
            node, slot = number(words[0]), number(words[1])
            if self.of[0] == 1:
                return ["no buffer: buffers is 1 in the list, wanted 2 or more"]
            if self.of[0] <= self.writes.get((node, slot), 0) + 1:
                return ["too many: writes of node %d in slot %d reach buffers, wanted at most %d" % (
                    node, slot, self.of[0] - 1)]
            self.writes[node, slot] = self.writes.get((node, slot), 0) + 1
        return []


def errors(text, of, is_toml=False):
    """All errors: line and column, from 1, and the text."""
    if 1048576 < len(text):
        return [(1, 1, "too large: wanted at most 1048576 bytes")]
    if text[:2] in (b"\xff\xfe", b"\xfe\xff"):
        return [(1, 1, "word: the file is UTF-16, save it as UTF-8")]
    lines = lines_of(text)
    said = [(i, words_of(l)[0]) for i, l in enumerate(lines, 1) if words_of(l) and words_of(l)[0][1][:1] != b"#"]
    if is_toml and said and said[0][1][1].decode("latin-1") not in WORDS:
        return [(said[0][0], said[0][1][0] + 1, "word: this file is a list, the script comes second")]
    reader = Reader(of)
    found = [(i, at + 1, text) for i, line in enumerate(lines, 1) for at, text in reader.line(i, line)]
    if not said:
        found.append((len(lines) + 1, 1, "no slots: no line says anything, wanted slots T"))
    return found


if __name__ == "__main__":
    nodes, buffers, payloads, name = sys.argv[1:5]
    of = (int(buffers), [int(p) for p in payloads.split(",")]) if int(nodes) else None
    for line, column, text in errors(open(name, "rb").read(), of, "--toml" in sys.argv):
        print("%s:%d:%d: error: %s" % (name, line, column, text))
