#!/usr/bin/env python3
"""Asks the real programs what was worked out by hand from docs/FORMATS.md, docs/PROTOCOL.md and docs/VIEWS.md: one call for each row
of the tables in .ci/calls, and some whose files are made here. Nothing in them comes from a run.

A table is cut into sections. `[ttpbench run LIST SCRIPT]` is a command, in which each word in capitals is a column of the rows
below: a file with that text, or a word where it names none of FILES. The last field of a row is the answer, of which several may
be right, with ` || ` between them; `as SCRIPT` is the trace that the second reading writes for another script. A row without an
answer stands before lines of a trace, of which the last ones are those that `keeps` writes; or before the first lines of a view
and, behind `..`, a part of it. `LIST = text` is that column for the whole section, and `name := text` a text that `{name}` stands
for, as `{plain FSSS}` does for a text and one for each letter, and `{on 4}` for four nodes that are on from slot 0. Texts have the
escapes of Python, a character for each byte, and `""` is empty.
"""

import os
import re
import shlex
import sys
import tempfile

import rules
import samples
import traces
from counted import TOP, UNPROVED, Counted, answer, text_of, unasked

FOLDER = os.path.join(TOP, ".ci", "calls")
# The texts that all tables use come first.
TABLES = ("texts", "lists", "scripts", "keeps", "runs", "hosts", "verify", "others", "ttplab")
FILES = ("LIST", "SCRIPT", "TRACE", "CAMPAIGN")
STATUSES = {"differs ": 1, "node ": 1, "usage: ": 2, "list: ": 3, "script: ": 4, "trace: ": 4, "campaign: ": 4, "load: ": 5}
LARGEST = 1_048_576
# A program that is not proved takes long for the largest files where others run beside it.
SECONDS = 600
# The run of eight nodes whose hosts are at work in slots 100 to 119: what node 5's status shows by the slot of the round, flags and
# the frames that it accepted.
FLAGS, ACCEPTED = (1, 17, 17, 1, 17, 41, 17, 145), (3, 4, 5, 5, 6, 1, 2, 3)


class Texts:
    """The texts that names stand for."""

    def __init__(self):
        self.named = {}

    def part(self, words):
        """What words in braces stand for."""
        name, *rest = words.split(" ")
        if name == "on":
            return "".join(f"on {node} 0\n" for node in range(int(rest[0])))
        if name in self.named:
            return self.named[name] + "".join(map(self.part, rest))
        return "".join(self.named[letter] for letter in name)

    def text(self, field):
        """The text of a field."""
        whole = "" if field == '""' else field.encode("latin-1").decode("unicode_escape")
        return re.sub(r"\{(\w+(?: \w+)*)\}", lambda found: self.part(found[1]), whole)


def rows_in(lines):
    """The lines of a table that say something, each with its number and the indented lines behind it."""
    row = None
    for number, line in enumerate(lines, 1):
        if line.startswith("  ") or not line and row:
            row[2].append(line[2:])
        elif line and line[0] != "#":
            if row:
                yield row
            row = (number, line, [])
    yield row


def block(lines):
    """The text of indented lines."""
    return "".join(f"{line}\n" for line in lines).rstrip("\n") + "\n"


def without_front(found, right):
    """Two answers without the lines that both begin with, where they are not equal."""
    if found == right or len(found) < 2:
        return found, right
    at = os.path.commonprefix([found[1], right[1]]).rfind("\n") + 1
    return tuple((answer[0], answer[1][at:at + 500], *answer[2:]) for answer in (found, right))


class Case:
    """A call: the program, its words, the files that they name, how often it is made, and which answers are right."""

    def __init__(self, what, words, files, times=1):
        self.what, (self.program, *self.words), self.files, self.times = what, words, files, times
        self.right, self.lines = (), ()

    def asked(self, place, words=None):
        status, text, said = answer(self.words if words is None else words, name=self.program, cwd=place, seconds=SECONDS)
        return (status, text, *filter(None, [unasked(said, status, self.program)]))

    def check(self, counted):
        with tempfile.TemporaryDirectory() as place:
            for name, text in self.files.items():
                traces.written(place, name, text)
            for _ in range(self.times):
                found = self.asked(place)
                right = (0, found[1]) if self.lines else found if found in self.right else self.right[-1]
                if not counted.check(self.what, *without_front(found, right)):
                    return
            if ".." in self.lines:
                self.check_view(counted, found[1])
            elif self.lines:
                self.check_lines(counted, place, found[1])

    def check_view(self, counted, text):
        """The text begins with some lines, and has a part."""
        at = self.lines.index("..")
        first, part = block(self.lines[:at]), "\n".join(self.lines[at + 1:])
        counted.check(f"{self.what}: the first lines", text[:len(first)], first)
        counted.check(f"{self.what}: {part}", part in text, True)

    def check_lines(self, counted, place, text):
        """The text has the lines, and ends with the last ones, which `keeps` writes."""
        found = text.splitlines()
        for line in self.lines:
            counted.check(f"{self.what}: {line}", line in found, True)
        last = block(line for line in self.lines if line.startswith(("keeps ", "returns ")))
        counted.check(f"{self.what}: the last lines", text[-len(last):], last)
        counted.check(f"{self.what}: keeps", self.asked(place, ["keeps", *self.words[1:]]), (0, last))


def right_for(text):
    """The status and the bytes of an answer."""
    status = next((status for begin, status in STATUSES.items() if text.startswith(begin)), 0)
    return status, text if text.endswith("\n") else text + "\n"


def as_second_reading(files, script):
    """The trace of a script by the second reading."""
    return 0, traces.trace(rules.List(files["list"]), rules.Script(script), traces.oldest)


class Section:
    """A command, and the columns of its rows."""

    def __init__(self, head):
        times, self.command = re.fullmatch(r"\[(?:(\d+) times )?(.*)\]", head).groups()
        self.times = int(times or 1)
        self.columns = [word for word in self.command.split(" ") if word.isupper()]
        self.fixed = {}

    def case(self, what, texts, fields, lines):
        open_columns = [column for column in self.columns if column not in self.fixed]
        given = {**self.fixed, **dict(zip(open_columns, map(texts.text, fields)))}
        words = []
        for word in self.command.split(" "):
            if word == "WORDS":
                words += shlex.split(given[word])
            else:
                words.append(word.lower() if word in FILES else given.get(word, word))
        files = {column.lower(): text for column, text in given.items() if column in FILES}
        case = Case(what, words, files, self.times)
        if len(fields) == len(open_columns):
            case.lines = [line for line in lines if line]
        elif fields[-1].startswith("as "):
            case.right = (as_second_reading(files, texts.text(fields[-1][3:])),)
        else:
            case.right = [right_for(texts.text(field)) for field in fields[-1].split(" || ")]
        return case


def cases_in(name, texts):
    """The cases of a table."""
    section = None
    for number, line, lines in rows_in(text_of(os.path.join(FOLDER, name)).splitlines()):
        named = re.fullmatch(r"(\w+) :=(?: (.*))?", line)
        column = re.fullmatch(r"([A-Z]+) = (.*)", line)
        if line.startswith("["):
            section = Section(line)
        elif named:
            texts.named[named[1]] = block(lines) if named[2] is None else texts.text(named[2])
        elif column:
            section.fixed[column[1]] = texts.text(column[2])
        else:
            fields = re.split(r" +\| +", line)
            yield section.case(f"{name}:{number}", texts, fields, lines)


def one(what, words, files, right):
    """A case whose files are made here."""
    case = Case(what, words.split(" "), files)
    case.right = (right_for(right),)
    return case


def of_sizes(texts):
    """Files at the limit and past it, and as many lines as there is room for."""
    listed, script = texts.text("{plain FSSS}"), texts.text("slots 15\n{on 5}")
    for size, right in ((LARGEST, texts.named["table"]), (LARGEST + 1, "list: too large")):
        yield one(f"a list of {size} bytes", "ttpbench schedule list", {"list": listed.ljust(size)}, right)
    five = texts.text("{plain FSSSS}")
    for size, right in ((LARGEST, texts.named["fault_free"]), (LARGEST + 1, "script: too large")):
        files = {"list": five, "script": script.ljust(size, "\n")}
        yield one(f"a script of {size} bytes", "ttpbench run list script", files, right)
    four = texts.text("{plain FTSS}")
    read = as_second_reading({"list": four}, "slots 20\non 2 19\n")[1]
    for front, byte, right in (
        ("slots 20\non 2 19\n#", "x", read), ("slots 20\non 2 19", " ", read),
        ("slots 20\non 2 ", "1", "script: line 2 number"), ("slots 20\non 2 20", "\n", "script: line 2 range"),
    ):
        files = {"list": four, "script": front.ljust(LARGEST, byte)}
        yield one(f"{front!r}, and then {byte!r} up to the limit", "ttpbench run list script", files, right)
    files = {"list": four, "script": "\n" * 1_000_000}
    yield one("a million blank lines", "ttpbench run list script", files, "script: line 1000001 no slots")
    digits, large = bytes(range(240)).hex(), texts.text("{many}{F}{Y}{XS}")
    mixed = "".join(digit.upper() if at % 2 else digit for at, digit in enumerate(digits))
    # Node 1 sends in slots 9, 13, 17 and 21, and node 0's host reads its fourth message.
    script = texts.text("slots 24\n{on 4}") + 15 * f"write 1 10 {mixed}\n" + "read 0 23 1\n"
    case = Case("messages of 240 bytes", ["ttpbench", "run", "list", "script"], {"list": large, "script": script})
    case.lines = [*(f"slot 10 host 1 write {number + 1}" for number in range(15)), f"slot 23 host 0 read 1 4 {digits}", "keeps yes start 8"]
    yield case
    long = "slots 20\n" + 15 * f"write 1 3 {mixed}\n"
    for last, right in (("0", "script: line 17 too many"), ("-", "script: line 17 number")):
        files = {"list": large, "script": f"{long}write 1 3 {479 * '0'}{last}"}
        yield one(f"a sixteenth message of 240 bytes that ends with {last!r}", "ttpbench run list script", files, right)
    quiet = texts.named["quiet"] + 32_768 * "# thirty-two bytes with its end\n"
    files = {"list": texts.named["five"], "script": quiet}
    yield one("a campaign of a script that is too large", "ttplab campaign list script 45 45", files, "script: too large")
    writes = "slots 20000\n" + "".join(f"write 1 {slot} {slot % 256:02x}\nwrite 1 {slot} 0A\n" for slot in range(20_000))
    files = {"list": texts.text("{three}{F}{B}{XS}"), "script": writes + "write 1 9999 00\n"}
    yield one("a write too many behind two in each slot", "ttpbench run list script", files, "script: line 40002 too many")


def of_letters(texts):
    """`live` of each length and letter."""
    letters = ["ynynynyny"[:length] for length in range(10)]
    rows = [(modes, f'live = "{live}"', len(live) == modes) for modes in range(1, 9) for live in letters]
    rows += [(3, f"live = 'y{letter}n'", letter in "yn") for letter in map(chr, range(32, 127)) if letter != "'"]
    for modes, keys, is_right in rows:
        files = {"list": texts.named["keyed"].replace("TOP", f"modes = {modes}").replace("KEYS", keys)}
        right = texts.named["shown"] if is_right else "list: live of slot 1"
        yield one(f"{modes} modes and {keys}", "ttpbench schedule list", files, right)
    # A quote ends the text, and what follows it is no TOML.
    files = {"list": texts.named["keyed"].replace("TOP", "modes = 3").replace("KEYS", "live = 'y'n'")}
    yield one("live with a quote", "ttpbench schedule list", files, "list: not toml")


def run_of(texts, listed, script):
    """The trace that the program writes."""
    with tempfile.TemporaryDirectory() as place:
        traces.written(place, "list", texts.text(listed))
        traces.written(place, "script", texts.text(script))
        return answer(["run", "list", "script"], cwd=place)[:2]


def equal_traces(counted, texts):
    """A frame that is bad on one channel is as good as any, and a fault that is split over both channels is one on both."""
    for listed, one_script, other in (
        ("{plain FSSSSS}", r"slots 48\n{on 6}send 2 A noise 26 26\nreceive 3 B noise 26 26\n",
         r"slots 48\n{on 6}receive 3 AB noise 26 26\n"),
        ("{plain FSSSS}", r"slots 40\n{on 5}send 0 A noise 0 39\n", r"slots 40\n{on 5}"),
    ):
        found = run_of(texts, listed, one_script)
        counted.check(f"the traces of {one_script} and {other}", found, run_of(texts, listed, other))
    # All five nodes are members on each node line from slot 14 on, and never before.
    counted.check("how often all five are members", found[1].count(" mem 001f "), 130)


def modes(counted, texts):
    """Which mode each node runs, by the trace of a run; all nodes switch at the cycle's end."""
    listed, script = "{plain}modes = 2\n{F}{asking}{SS}", r"slots 20\n{on 4}write 1 10 02\n"
    _, trace = run_of(texts, listed.replace("\n", "\\n"), script)
    files = {"list": texts.text(listed.replace("\n", "\\n")), "script": texts.text(script)}
    with tempfile.TemporaryDirectory() as place:
        for name, text in {**files, "trace": trace, "short": trace.removesuffix("keeps yes start 8\n")}.items():
            traces.written(place, name, text)
        status, text, _ = answer(["modes", "list", "script", "trace"], cwd=place)
        counted.check("the status of modes", status, 0)
        for at, line in (
            (0, "ttpbench modes 1 nodes 4 slots 20"), (37, "slot 9 node 0 mode 0 next - live yes"),
            (53, "slot 13 node 0 mode 0 next 1 live yes"), (54, "slot 13 node 1 mode 0 next 1 live -"),
            (61, "slot 15 node 0 mode 1 next - live -"), (69, "slot 17 node 0 mode 1 next 1 live no"),
        ):
            counted.check(f"line {at + 1} of modes", text.split("\n")[at:at + 1], [line])
        counted.check("modes of a trace without its last line", answer(["modes", "list", "script", "short"], cwd=place)[:2],
                      (1, "differs at line 83\n"))


# The keys for modes at the top and in slot 1, the modes that there are, and a letter for each that says whether slot 1 is live in it.
LIVE = (
    ("", "", "y"), ("", "requests = false\n", "y"), ("", 'live = "n"\n', "n"), ("modes = 1\n", "", "y"), ("modes = 3\n", "", "yyy"),
    ("modes = 8\n", "", "yyyyyyyy"), ("modes = 3\n", 'live = "yyn"\n', "yyn"), ("modes = 3\n", 'live = "yny"\n', "yny"),
    ("modes = 3\n", 'live = "nny"\nrequests = false\n', "nny"), ("modes = 8\n", 'live = "nnnnnnny"\n', "nnnnnnny"),
    ("modes = 8\n", 'live = "nnnnnnnn"\n', "nnnnnnnn"),
)


def live_in(counted, texts):
    """Whether a slot is live in each mode: node 2 asks for the mode, and what node 0 gets from node 1 afterwards is live or not."""
    asking = texts.named["B"] + "requests = true\n"
    for top, keys, letters in LIVE:
        listed = texts.named["plain"] + top + texts.named["F"] + texts.named["B"] + keys + asking + texts.named["S"]
        for mode, letter in enumerate(letters):
            files = {"list": listed, "script": f"slots 40\n{texts.part('on 4')}write 2 11 {mode + 1:02x}\n"}
            with tempfile.TemporaryDirectory() as place:
                for name, text in files.items():
                    traces.written(place, name, text)
                traces.written(place, "trace", answer(["run", "list", "script"], cwd=place)[1])
                _, text, _ = answer(["modes", "list", "script", "trace"], cwd=place)
            found = re.findall("^slot 37 node 0 mode ([0-9]*) next [-0-9]* live (.*)$", text, re.M)
            counted.check(f"mode {mode} of {top!r} and {keys!r}", found, [(str(mode), "yes" if letter == "y" else "no")])


# The events of a generated script, worked out by a program of its own.
GENERATED = """\
error 0 0 0 59
error 1 4 0 59
error 2 5 0 59
error 3 5 0 59
error 4 -5 0 59
error 5 -2 0 59
send 1 AB noise 25 25
receive 4 AB noise 39 39
write 0 0 0000
read 1 0 status
read 1 0 0
read 2 1 status
read 3 2 status
read 4 3 status
write 4 4 040404
read 5 4 status
read 5 4 4
read 0 5 status
write 0 6 0606
"""
DRIFTS = "drift 0 -3\ndrift 1 1\ndrift 2 2\ndrift 3 0\ndrift 4 2\ndrift 5 -2\n"


def generated(counted, texts):
    """The script of six nodes for 60 slots and the number 5 by the second reading, and what `sample` says of its run."""
    data = {0: 2, 4: 3}
    slots = "".join(
        f'[[slot]]\nkinds = "{"N" if k in data else "I"}"\ndata = {data.get(k, 0)}\nsync = true\nstart = {str(k == 1).lower()}\n'
        for k in range(6)
    )
    listed = "version = 1\nrounds = 1\nschedule = 0\nbuffers = 2\ndrift = 3\nerror = 5\nwindow = 88\n" + slots
    medl = rules.List(listed)
    lines = samples.script_text(medl, 60, 5).splitlines(keepends=True)
    counted.check("the first lines of a generated script", "".join(lines[:7]), f"slots 60\n{texts.part('on 6')}")
    counted.check("the drifts of a generated script", "".join(line for line in lines if line.startswith("drift ")), DRIFTS)
    events = "".join(line for line in lines[7:] if not line.startswith("drift "))
    counted.check("the events of a generated script", events[:len(GENERATED)], GENERATED)
    with tempfile.TemporaryDirectory() as place:
        traces.written(place, "list", listed)
        counted.check("its run", answer(["sample", "list", "60", "5"], cwd=place)[:2], (0, samples.lines_of(medl, 60, 5)))


# A trace of two slots, of which the second one has the rule that its script breaks.
TWO_SLOTS = """\
ttpbench trace 1 nodes 4 rounds 1 slots 2 schedule 00000a
slot 0 node 0 wait peer - msg - mem 0000 acc 0 rej 0 ack none clock 0
slot 0 node 1 wait peer - msg - mem 0000 acc 0 rej 0 ack none clock 0
slot 0 node 2 wait peer - msg - mem 0000 acc 0 rej 0 ack none clock 0
slot 0 node 3 off peer - msg - mem 0000 acc 0 rej 0 ack none clock -5
slot 0 host 2 write 1
slot 0 host 1 read 2 0 00
slot 1 node 0 start peer 0 msg - mem 0001 acc 1 rej 0 ack first clock 0
slot 1 node 1 join peer 0 msg - mem 0003 acc 1 rej 0 ack none clock 0
slot 1 node 2 join peer 0 msg - mem 0001 acc 1 rej 0 ack none clock 0
slot 1 node 3 denied peer 0 msg - mem 0000 acc 0 rej 0 ack none clock -9
keeps no H6 1
returns yes start 1
"""


def shown_slots(counted, texts):
    """A picture of one slot shows that more happens in the other one, and no more of that; a campaign of one slot has no other one."""
    kept, broken = "kept {} same 8 hurt 0 split 0 torn 0 dead 0\n", "broken 2 same 2 hurt 0 split 0 torn 0 dead 0\n"
    # The faults of node 0 alone.
    front = "".join(text_of(os.path.join(TOP, ".ci", "campaigns", "quiet.22.txt")).splitlines(keepends=True)[:18])
    files = {"trace": TWO_SLOTS, "campaign": front + kept.format(14) + broken, "counted": front + kept.format(15) + broken}
    with tempfile.TemporaryDirectory() as place:
        for name, text in files.items():
            traces.written(place, name, text)
        status, text, _ = answer(["picture", "trace", "0", "0"], name="ttplab", cwd=place)
        found = (status, ">shown: slots 0 to 0 of 0 to 1; behind: ttplab picture TRACE 1 1; more happens in slot 1</text>" in text, "H6</text>" in text)
        counted.check("a picture of one slot", found, (0, True, False))
        rows = (
            (["chart", "campaign", "23", "30"], "campaign: no slot to show\n"), (["chart", "counted"], "campaign: line 19\n"),
        )
        for words, right in rows:
            counted.check(" ".join(words), answer(words, name="ttplab", cwd=place)[:2], (4, right))


def status_after(slot):
    """The words of node 5's status after a slot of the loaded run; nodes 0 and 3 have left."""
    time, place = slot - 16, slot % 8
    return f"{slot:016x}{FLAGS[place]:016x}0000{time:04x}{time // 8 % 4:02x}{place:02x}00f6{256 * ACCEPTED[place]:016x}"


def got_by(slot):
    """The number of the newest message that node 5 got from node 1 by the end of a slot of the loaded run."""
    return 11 if slot < 105 else 12 if slot < 113 else 13


def loaded_slot(slot, early, late):
    """The host lines of a slot of the loaded run that are legal, where node 1's frames of slots 105 and 113 carry the messages that
    its host wrote in these slots: the status before the slot or of it, and of node 1 the newest message before or after it."""
    for status in (slot, slot + 1):
        for number in (got_by(slot - 1), got_by(slot)):
            byte = 0 if number < 12 else early if number < 13 else late
            yield (f"slot {slot} host 1 write {slot - 99}\nslot {slot} host 5 read status {status} {status_after(status - 1)}\n"
                   f"slot {slot} host 5 read 1 {number} {16 * f'{byte:02x}'}\n")


def carried(text, slot):
    """The slot in which the message was written that node 1 sends in this one."""
    return next((at for at in (slot, slot - 1) if f"\nslot {slot} node 1 send peer 1 msg {at - 99} mem 00f6 " in text), 0)


def loaded(counted, texts):
    """Eight nodes with payload in four rounds; in slots 100 to 119 host 1 writes 16 times the slot's number, and host 5 reads."""
    hosts = "".join(f"write 1 {slot} {16 * f'{slot:02x}'}\nread 5 {slot} status\nread 5 {slot} 1\n" for slot in range(100, 120))
    for number in range(20):
        status, text = run_of(texts, "{loaded GGLLLLLL}", r"slots 400\n{on 8}{faults}" + hosts.replace("\n", "\\n"))
        frames = [carried(text, slot) for slot in (105, 113)]
        busy = text[text.find("\nslot 100 node 0 "):text.find("\nslot 120 node 0 ")] + "\n"
        wrong = [slot for slot in range(100, 120) if not any(lines in busy for lines in loaded_slot(slot, *frames))]
        counted.check(f"run {number} of a loaded cluster", (status, 0 in frames, wrong, text[-19:]), (0, False, [], "keeps yes start 16\n"))
        if number == 0:
            for line in texts.named["loaded_lines"].splitlines():
                counted.check(f"a loaded cluster: {line}", f"\n{line}" in text, True)


def writes(counted, texts):
    """Two writes in each of 20,000 slots; a program that is not proved is too slow for them."""
    if UNPROVED:
        counted.leave(1)
        return
    lines = "".join(rf"write 1 {slot} {slot % 256:02x}\nwrite 1 {slot} 0A\n" for slot in range(20_000))
    _, text = run_of(texts, "{three}{F}{B}{XS}", rf"slots 20000\n{lines}")
    right = [f"slot {number // 2} host 1 write {number + 1}" for number in range(40_000)]
    counted.check("two writes in each slot", re.findall("^slot [0-9]* host .*", text, re.M) == right, True)


def main():
    counted, texts = Counted("calls"), Texts()
    texts.named["quiet_11"] = text_of(os.path.join(TOP, ".ci", "campaigns", "quiet.11.txt"))
    counted.check("the tables", sorted(os.listdir(FOLDER)), sorted(TABLES))
    cases = [case for name in TABLES for case in cases_in(name, texts)]
    cases += [*of_sizes(texts), *of_letters(texts)]
    tasks = [(case.what, lambda case=case: case.check(counted)) for case in cases]
    more = (writes, loaded, equal_traces, modes, live_in, generated, shown_slots)
    tasks += [(task.__name__, lambda task=task: task(counted, texts)) for task in more]
    counted.side_by_side(tasks)
    return counted.end()


if __name__ == "__main__":
    sys.exit(main())
