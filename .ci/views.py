"""A second reading of docs/VIEWS.md: which texts are traces, and what the views of a trace must say.

A waveform is read by the rules of VCD, a picture by Python's reader of XML, and what they say is compared with the lines of the
trace: the values of all variables after each slot; titles, classes and letters of cells, marks, names, the key and its colours. A
cell must stand where the names of its row and its column say, and nothing outside the page. Other looks are the definitions'
alone, which the program follows to the byte.

Nothing here is shared with the program; words, letters, colours and what they mean are those of the page's tables.
"""
import itertools
import os
import re
import xml.etree.ElementTree as xml

from counted import TOP


def rows_of(page, head):
    """The rows of the table of a page that has this head, without the marks of code."""
    with open(os.path.join(TOP, "docs", page), encoding="utf-8") as file:
        rows = file.read().split(f"| {head} |\n")[1].split("\n\n")[0].replace("`", "").split("\n")[1:]
    return [row.strip("| ").split(" | ") for row in rows]


WORDS = {word: rest for word, *rest in rows_of("VIEWS.md", "word | letter | cell | letter's colour | meaning")}
KEY = rows_of("VIEWS.md", "class | shown | text")
ACTIVE = ("start", "join", "send", "correct", "tentative", "incorrect", "invalid", "null")
LEFT = ("denied", "unacknowledged", "clique")
STRANGE = ("tentative", "incorrect", "invalid") + LEFT
MEANINGS = {
    "keeps": "from slot {} on the correct nodes agree and stay; a faulty one may differ until it leaves",
    "H1": "a drift or a reading error is past the list's",
    "H2": "the window is narrower than clocks of this list need",
    "H3": "a bit is flipped, a node is armed, or a clock jumps a second time or by less than four windows",
    "H4": "no node would start, two would in the same slot, or one comes on after the start",
    "H5": "two or more nodes lost a frame, but not all",
    "H6": "a fault comes too soon after the start or another fault",
    "H7": "fewer than four correct nodes are left to measure clocks by",
    "returns": "each armed node is owed its place",
    "Q1": "a drift or a reading error is past the list's",
    "Q2": "the window is narrower than clocks need of which one came back",
    "Q3": "a bit is flipped, or a clock jumps a second time or by less than four windows",
    "Q4": "no node would start, two would in the same slot, or one comes on after the start",
    "Q5": "two or more nodes lost a frame, but not all",
    "Q6": "a fault comes too soon after the start or another fault",
    "Q7": "fewer than four correct nodes are left to measure clocks by",
    "Q8": "the node armed in this slot is not owed its place",
}


# What is taken for a trace.

BYTE, SLOT, MESSAGE = r"(?:0|[1-9]\d{0,2})", r"(?:0|[1-9]\d{0,4})", r"(?:0|[1-9]\d{0,5})"
FIRST_DUE = re.compile(rf"ttpbench trace ({BYTE}) nodes ({BYTE}) rounds ({BYTE}) slots ({SLOT}) schedule [0-9a-f]{{6}}")
NODE_DUE = re.compile(rf"slot ({SLOT}) node ({BYTE}) (\w+) peer (-|{BYTE}) msg (-|{MESSAGE}) mem ([0-9a-f]+) acc ({BYTE}) rej ({BYTE})"
                      rf" ack (?:none|first|doubt:({BYTE})) clock (?:0|-?[1-9]\d{{0,17}})", re.ASCII)
WRITE_DUE = re.compile(rf"slot ({SLOT}) host ({BYTE}) write {MESSAGE}")
READ_DUE = re.compile(rf"slot ({SLOT}) host ({BYTE}) read (status|{BYTE}) {MESSAGE} ((?:[0-9a-f][0-9a-f]){{1,240}})")
KEEPS_DUE = re.compile(rf"keeps (?:yes start|no H[1-7]) {SLOT}")
RETURNS_DUE = re.compile(rf"returns (?:yes start|no Q[1-8]) {SLOT}")


def is_node_due(line, version, n, t, k):
    found = NODE_DUE.fullmatch(line)
    if not found or found[3] not in WORDS:
        return False
    slot, node, word, peer, message, members, accepted, rejected, doubted = found.groups()
    return (
        (int(slot), int(node)) == (t, k) and (peer == "-") == (word in ("off", "wait", "retry", "gone"))
        and (message == "-" or word in ("send", "correct")) and len(members) == (6 if version == 2 else 4)
        and int(members, 16) < 2 ** n and max(int(accepted), int(rejected)) < 256
        and all(x in ("-", None) or int(x) < n for x in (peer, doubted))
    )


def is_host_due(line, kind, n, t):
    found = (WRITE_DUE if kind == "write" else READ_DUE).fullmatch(line)
    if not found or (int(found[1]), int(found[2]) < n) != (t, True):
        return False
    return kind == "write" or (len(found[4]) == 64 if found[3] == "status" else int(found[3]) < n)


def first_not_due(text):
    """The number of the first line of a text that is not due, is missing or has no line feed, or None."""
    *lines, rest = text.split("\n")
    lines.append(None)
    found = FIRST_DUE.fullmatch(lines[0] or "")
    version, n, rounds, slots = map(int, found.groups()) if found else (0, 0, 0, 0)
    if not 4 <= n <= {1: 16, 2: 24}.get(version, 0) or not 1 <= rounds <= 64 or not 1 <= slots <= 20000:
        return 1
    at = 1
    for t in range(slots):
        for k in range(n):
            if not is_node_due(lines[at] or "", version, n, t, k):
                return at + 1
            at += 1
        for kind in ("write", "read"):
            while is_host_due(lines[at] or "", kind, n, t):
                at += 1
    if not KEEPS_DUE.fullmatch(lines[at] or ""):
        return at + 1
    at += 2 if RETURNS_DUE.fullmatch(lines[at + 1] or "") else 1
    return None if lines[at] is None and not rest else at + 1


class Node:
    def __init__(self, line):
        self.line = line
        *_, self.word, _, self.peer, _, self.msg, _, self.mem, _, acc, _, rej, _, self.ack, _, clock = line.split()
        self.acc, self.rej, self.clock = int(acc), int(rej), int(clock)
        self.active = self.word in ACTIVE
        self.left = self.word in LEFT
        self.holder = self.active and not self.ack.startswith("doubt:")
        self.sends = self.word in ("start", "send")
        self.phase = {"off": "off", "wait": "listening", "retry": "listening"}.get(self.word, "active" if self.active else "left")


class Host:
    """What a host wrote (`what` is None) or read."""

    def __init__(self, line):
        self.line = line
        words = line.split()
        self.host, self.kind = int(words[3]), words[4]
        self.what, number, self.data = (None, words[5], "") if self.kind == "write" else words[5:]
        self.number = int(number)
        if self.what == "status":
            self.kind = "status"


class Slot:
    def __init__(self, nodes, hosts):
        self.nodes, self.hosts = nodes, hosts
        self.holders = [node for node in nodes if node.holder]
        self.held = list(dict.fromkeys(node.mem for node in self.holders))
        self.clocks = [node.clock for node in nodes if node.active]
        self.spread = max(self.clocks) - min(self.clocks) if self.clocks else None
        self.strange = len(self.held) > 1 or any(node.word in STRANGE for node in nodes)
        self.quiet = all(node.word in ("off", "wait") for node in nodes)
        self.round = any(node.active and node.peer == "0" for node in nodes)
        words = [node.word for node in nodes]
        self.refused = sum(map(words.count, ("incorrect", "invalid", "null"))) > sum(map(words.count, ("join", "correct", "tentative")))

    def apart(self):
        """The node whose clock is far from most: the other end of the range of clocks is nearer to more of them."""
        if not self.clocks:
            return None
        lowest, highest = min(self.clocks), max(self.clocks)
        twice = [2 * clock - lowest - highest for clock in self.clocks]
        lean = sum(x > 0 for x in twice) - sum(x < 0 for x in twice)
        if lean == 0:
            return None
        end = highest if lean < 0 else lowest
        return next(k for k, node in enumerate(self.nodes) if node.active and node.clock == end)

    def most(self):
        """The members that most holders hold."""
        return max(self.held, key=lambda mem: sum(node.mem == mem for node in self.holders))


class Trace:
    def __init__(self, text):
        lines = text.split("\n")[:-1]
        self.first = lines[0]
        words = lines[0].split()
        self.version, self.n, self.t = int(words[2]), int(words[4]), int(words[8])
        self.width = 24 if self.version == 2 else 16
        self.slots, at = [], 1
        for _ in range(self.t):
            nodes = [Node(line) for line in lines[at:at + self.n]]
            at += self.n
            hosts = []
            while " host " in lines[at]:
                hosts.append(Host(lines[at]))
                at += 1
            self.slots.append(Slot(nodes, hosts))
        self.tests = lines[at:]
        self.hosted = {}
        for line in (line for slot in self.slots for line in slot.hosts):
            self.hosted[line.host, line.what] = max(4 * len(line.data), self.hosted.get((line.host, line.what), 0))


# The waveform.

def read_wave(text):
    """What a waveform says by the rules of VCD: its commands, its variables, and the values of all of them at each time."""
    said, variables, codes, path, times, now = [], [], {}, [], [], {}
    tokens = iter(text.split())
    for token in tokens:
        if token in ("$dumpvars", "$end"):
            continue
        if token[0] == "$":
            words = list(iter(lambda: next(tokens), "$end"))
            if token == "$scope":
                path.append(words[1])
            elif token == "$upscope":
                path.pop()
            elif token == "$var":
                kind, size, code, name, *span = words
                assert code not in codes, f"{code} is declared twice"
                assert span == ([f"[{int(size) - 1}:0]"] if kind == "wire" and size != "1" else []), f"{name} has {span}"
                codes[code] = (".".join(path), name, kind, int(size))
                variables.append(codes[code])
            else:
                said.append(" ".join([token, *words]))
        elif token[0] == "#":
            assert token == f"#{len(times)}", f"{token} is time {len(times)}"
            now, changed = dict(now), set()
            times.append(now)
        else:
            sort, value, code = (None, token[0], token[1:]) if token[0] in "01xz" else (token[0], token[1:], next(tokens))
            scope, name, kind, size = codes[code]
            assert sort == {"wire": None if size == 1 else "b", "integer": "b", "string": "s", "real": "r"}[kind], token
            assert kind in ("string", "real") or len(value) <= size, f"{token} is wider than {size}"
            if kind != "string" and value not in ("x", "z"):
                value = int(value, 10 if kind == "real" else 2)
            assert now.get((scope, name)) != value and code not in changed, f"{token} changes nothing, or is not the only change"
            now[scope, name] = value
            changed.add(code)
    assert not path, f"{path} does not end"
    return said, variables, times


def variables_of(trace, slot):
    """Each variable with its value after a slot: its scope, its name, its type, its size, and the value."""
    senders = [k for k, node in enumerate(slot.nodes) if node.sends]
    yield "cluster", "agree", "wire", 1, int(len(slot.held) == 1) if slot.held else "z"
    yield "cluster", "sender", "integer", 32, "z" if not senders else senders[0] if len(senders) == 1 else "x"
    yield "cluster", "active", "wire", trace.width, sum(node.active << k for k, node in enumerate(slot.nodes))
    yield "cluster", "leaving", "wire", trace.width, sum(node.left << k for k, node in enumerate(slot.nodes))
    yield "cluster", "spread", "integer", 64, "z" if slot.spread is None else slot.spread
    for k, node in enumerate(slot.nodes):
        scope, absent = f"cluster.node{k}", "x" if node.word == "off" else "z"
        yield scope, "sends", "wire", 1, int(node.sends)
        yield scope, "phase", "string", 1, node.phase
        yield scope, "word", "string", 1, node.word
        yield scope, "peer", "integer", 32, absent if node.peer == "-" else int(node.peer)
        yield scope, "msg", "integer", 32, absent if node.msg == "-" else int(node.msg)
        yield scope, "mem", "wire", trace.width, int(node.mem, 16) if node.active else absent
        yield scope, "acc", "integer", 32, node.acc if node.active else absent
        yield scope, "rej", "integer", 32, node.rej if node.active else absent
        yield scope, "ack", "string", 1, node.ack
        yield scope, "clock", "real", 64, node.clock
        for what in (None, "status", *map(str, range(trace.n))):
            if (k, what) in trace.hosted:
                line = next((line for line in reversed(slot.hosts) if (line.host, line.what) == (k, what)), None)
                yield f"{scope}.host", f"read_{what}" if what else "write", "integer", 32, line.number if line else "z"
                if what:
                    yield f"{scope}.host", f"data_{what}", "wire", trace.hosted[k, what], int(line.data, 16) if line else "z"


def wave_faults(trace, text):
    """What a waveform says that the trace does not, or the other way round."""
    said, variables, times = read_wave(text)
    due = [list(variables_of(trace, slot)) for slot in trace.slots]
    comments = [f"$comment {line}" for line in (trace.first, *trace.tests)]
    yield from differences("command", said, ["$version ttplab wave", *comments, "$timescale 1 s", "$enddefinitions"])
    yield from differences("variable", variables, [one[:4] for one in due[0]])
    for t, (told, right) in enumerate(itertools.zip_longest(times, due + due[-1:], fillvalue=())):
        right = {one[:2]: one[4] for one in right}
        if told != right:
            yield f"time {t}: {sorted(dict(told).items() ^ right.items(), key=str)[:4]}"


# Any drawing.

SVG = "{http://www.w3.org/2000/svg}"


def box_of(shape):
    """The left, upper, right and lower end of what a shape takes of the page; of a text the place where it is put."""
    if shape.tag != SVG + "path":
        x, y, wide, high = (int(shape.get(name, 0)) for name in ("x", "y", "width", "height"))
        return x, y, x + wide, y + high
    points = []
    for letter, words in re.findall("([A-Za-z])([^A-Za-z]*)", shape.get("d")):
        numbers = [int(word) for word in re.findall(r"-?\d+", words)]
        right, down = {"h": (*numbers, 0), "v": (0, *numbers), "z": (0, 0)}.get(letter, numbers)
        points.append((right, down) if letter == "M" else (points[-1][0] + right, points[-1][1] + down))
    (left, *_, right), (top, *_, bottom) = map(sorted, zip(*points))
    return left, top, right, bottom


class Drawing:
    """A picture as Python's reader of XML reads it: cells, texts and other shapes in their order, each with its class and its box."""

    def __init__(self, text):
        self.root = xml.fromstring(text)
        self.cells, self.texts, self.shapes = [], [], []
        for element in self.root:
            style, title = element.get("class"), element.findtext(SVG + "title", "")
            if element.tag == SVG + "g":
                self.cells.append((style, title, element.findtext(SVG + "text"), box_of(element.find(SVG + "rect"))))
            elif element.tag == SVG + "text":
                self.texts.append((style, "".join(element.itertext()), box_of(element)))
            elif element.tag not in (SVG + "title", SVG + "style"):
                self.shapes.append((style, title, box_of(element)))

    def faults(self, title, colours, due):
        """What is wrong with the title, the colours, the words of each cell, text and shape, and what stands outside the page."""
        wide, high = int(self.root.get("width")), int(self.root.get("height"))
        yield from differences("title", [self.root.findtext(SVG + "title")], [title])
        yield from differences("page", [self.root.get("viewBox")], [f"0 0 {wide} {high}"])
        yield from (f"not in the styles: {colour}" for colour in colours if colour not in self.root.findtext(SVG + "style"))
        for shape in self.root.iter():
            assert shape.tag.removeprefix(SVG) in ("svg", "title", "style", "g", "rect", "text", "path"), shape.tag
            left, top, right, bottom = box_of(shape)
            if not (0 <= left <= right <= wide and 0 <= top <= bottom <= high):
                yield f"outside the page: {xml.tostring(shape)}"
        yield from differences("cell", [cell[:3] for cell in self.cells], due["cells"])
        for kind, told in (("texts", self.texts), ("shapes", self.shapes)):
            for style in {style for style, *_ in told} | due[kind].keys():
                yield from differences(f"{kind}, {style}", [words for other, words, _ in told if other == style], due[kind].get(style, []))


def boxes(told, *styles):
    """The boxes of those of these classes."""
    return [box for style, *_, box in told if style in styles]


def differences(what, told, due):
    """Where two lists differ first; None is due where anything is right."""
    pairs = enumerate(itertools.zip_longest(told, due, fillvalue="nothing"))
    return [f"{what} {at}: {one!r} for {other!r}" for at, (one, other) in pairs if one != other and other is not None][:1]


def is_in(box, left, top, right, bottom):
    """Whether a box, or a point, is within these ends."""
    return left <= box[0] <= box[2] <= right and top <= box[1] <= box[3] <= bottom


def beside_faults(shapes, texts):
    """Texts that do not stand directly at the right of their shapes."""
    for (_, top, right, bottom), text in zip(shapes, texts):
        if not is_in(text, right, top, right + 15, bottom + 4):
            yield f"a text at {text} is not beside its shape, which ends at {right}, {bottom}"


def grid_faults(columns, names, across, numbers, edges):
    """What stands beside no name of its row, or not below the rest of its column.

    `columns` are the boxes of each column's cells by their rows, `names` those of the rows' names, all of one band and then of the
    next; a band has `across` columns. `numbers` are columns with the box of the number above them, `edges` with that of a line at
    their left.
    """
    rows = len(names) // -(-len(columns) // across)
    bands = [names[rows * (c // across):] for c in range(len(columns))]
    ends = [max((box[0], box[2]) for box in cells.values()) for cells in columns]
    yield from (f"a row's name at {other} is not below {one}" for one, other in zip(names, names[1:]) if one[1] >= other[1])
    for c, cells in enumerate(columns):
        for r, box in cells.items():
            if box[::2] != ends[c] or not is_in(bands[c][r], 0, box[1], box[0], box[3]) or c % across and ends[c - 1][1] > box[0]:
                yield f"column {c} has its cell {r} at {box}"
    for c, box in numbers:
        above = names[rows * (c // across) - 1][1] if c >= across else 0
        if not is_in(box, ends[c][0], above, ends[c][1], bands[c][0][1]):
            yield f"column {c} has a number at {box}"
    for c, box in edges:
        if not (ends[c][0] - 9 < box[0] <= box[2] <= ends[c][0] and box[1] <= bands[c][0][1] <= box[3]):
            yield f"column {c} has a line at {box}"


def faults_of(reading, *words):
    """The first faults that a reading tells of a view; that it can't be read is one."""
    found = []
    try:
        for fault in itertools.islice(reading(*words), 5):
            found.append(fault)
    except Exception as fault:
        found.append(repr(fault))
    return found


# The picture.

def meaning(test):
    words = test.split()
    return MEANINGS[words[0]].format(words[3]) if words[1] == "yes" else MEANINGS[words[2]]


def cells_of(t, slot):
    """The class, the title and the letters of each cell of a slot."""
    for node in slot.nodes:
        style = node.word + (" doubt" if node.ack.startswith("doubt:") else "")
        style += " other" if node.holder and node.mem != slot.most() else ""
        style += " data" if node.msg != "-" else ""
        yield style + (" refused" if node.sends and slot.refused else ""), node.line, WORDS[node.word][0]
    title = f"slot {t} members" + ("" if slot.held else " -")
    for mem in slot.held:
        title += f" {mem} of " + " ".join(str(k) for k, node in enumerate(slot.nodes) if node.holder and node.mem == mem)
    many = str(int(slot.held[0], 16).bit_count()) if slot.held else "-"
    yield "differ" if len(slot.held) > 1 else "agree" if slot.held else "none", title, "!" if len(slot.held) > 1 else many
    spread = "-" if slot.spread is None else str(slot.spread)
    yield "none", f"slot {t} clocks apart {spread}", spread if len(spread) < 5 else f"{spread[:-3]}k" if len(spread) < 7 else "1M+"
    k = slot.apart()
    yield "apart", f"slot {t} clock apart from most {'-' if k is None else f'node {k}'}", "-" if k is None else str(k)


def quiet_slots(trace):
    """How many slots are quiet before the first one that is not, or 0 without one."""
    return next((t for t, slot in enumerate(trace.slots) if not slot.quiet), 0)


def window(trace, columns):
    quiet, many = quiet_slots(trace), 4 * columns
    strange = next((t for t, slot in enumerate(trace.slots) if slot.strange), 0)
    rounds = 0
    if trace.t > quiet + many:
        to_trouble = max(strange - quiet - 2 * trace.n, 0) // trace.n
        to_end = -(-(trace.t - quiet - many) // trace.n)
        rounds = min(to_trouble, to_end)
    first = quiet + rounds * trace.n
    return first, min(first + many, trace.t) - 1


def shown_text(trace, first, last):
    yield f"shown: slots {first} to {last} of 0 to {trace.t - 1}"
    if first and first <= quiet_slots(trace):
        yield "before: all nodes off or listening"
    elif first:
        yield f"before: ttplab picture TRACE 0 {first - 1}"
    if last < trace.t - 1:
        yield f"behind: ttplab picture TRACE {last + 1} {trace.t - 1}"
    for t in range(last + 1, trace.t):
        if trace.slots[t].strange:
            yield f"more happens in slot {t}"
            break


def picture_faults(trace, asked, text):
    """What the picture of the slots that are asked for, or else chosen, says that the trace does not, or the other way round."""
    drawing, n = Drawing(text), trace.n
    across = n * (48 // n)
    first, last = window(trace, across) if asked is None else (asked[0], min(asked[1], trace.t - 1))
    slots = [(t, trace.slots[t]) for t in range(first, last + 1)]
    cells = [cell for t, slot in slots for cell in cells_of(t, slot)]
    numbered = [t for t, _ in slots if t % 5 == 0]
    rounds = [t for t, slot in slots if slot.round]
    left = [(t, k, node.word) for t, slot in slots for k, node in enumerate(slot.nodes) if node.left]
    hosts = [(t, host) for t, slot in slots for host in slot.hosts]
    flags = [test.split() for test in trace.tests if first <= int(test.split()[3]) <= last]
    texts = {
        None: [trace.first, "; ".join(shown_text(trace, first, last)), *(f"{word}: {row[3]}" for word, row in WORDS.items()),
               *(what for _, _, what in KEY)],
        "said": [f"{test}: {meaning(test)}" for test in trace.tests],
        "row": -(-len(slots) // across) * [*(f"node {k}" for k in range(n)), "members", "clocks", "apart"],
        "slot": [str(t) for t in numbered],
        "why": [word for _, _, word in left],
        **{style: ["start" if words[1] == "yes" else words[2] for words in flags if words[0] == name]
           for style, name in (("keep", "keeps"), ("back", "returns"))},
    }
    shapes = {None: [""], "round": (len(rounds) + 1) * [""], "why": len(left) * [""], "flag": len(flags) * [""]}
    for style in ("write", "read", "status"):
        shapes[style] = [host.line for _, host in hosts if host.kind == style] + [what for other, _, what in KEY if other == style]
    key = [(word, word, row[0]) for word, row in WORDS.items()]
    key += [(style, what, shown) for style, shown, what in KEY if style not in shapes]
    yield from drawing.faults(trace.first, (f".{word} rect{{fill:{row[1]}}}.{word} text{{fill:{row[2]}}}" for word, row in WORDS.items()),
                              {"cells": cells + key, "texts": texts, "shapes": shapes})
    columns = [dict(enumerate(box for *_, box in drawing.cells[at:at + n + 3])) for at in range(0, len(cells), n + 3)]
    numbers = zip(numbered, boxes(drawing.texts, "slot"))
    edges = [*zip(rounds, boxes(drawing.shapes, "round")), *zip((int(words[3]) for words in flags), boxes(drawing.shapes, "flag"))]
    yield from grid_faults(columns, boxes(drawing.texts, "row"), across, [(t - first, box) for t, box in numbers],
                           [(t - first, box) for t, box in edges])
    yield from beside_faults((columns[t - first][k] for t, k, _ in left), boxes(drawing.texts, "why"))
    at_key = iter(drawing.cells[len(cells):])
    entries = [boxes(drawing.shapes, style)[-1] if style in shapes else next(at_key)[3] for style, *_ in [*WORDS.items(), *KEY]]
    yield from beside_faults(entries, boxes(drawing.texts, None)[2:])
    for (t, host), box in zip(hosts, boxes(drawing.shapes, "write", "read", "status")):
        if not is_in(box, *columns[t - first][host.host]):
            yield f"not in its cell: {host.line}"
