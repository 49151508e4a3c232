#!/usr/bin/env python3
"""A second reading of what is wrong with a list, from docs/FORMATS.md, the page of `check` and the grammar of TOML 1.1 alone.

`list_errors.py FILE` prints the lines of the list FILE as `check` does, without the file's name. With --raw each line is the
place, the fault and its values, as the tests of the crates print them.
"""

import datetime
import re
import sys

LIMIT = 1048576
TOP = {"version": (1, 2), "rounds": (1, 64), "schedule": (0, 16777215), "buffers": (1, 16), "drift": (0, 1000),
       "error": (0, 1000), "window": (1, 1000000), "slot": None, "modes": (1, 8)}
SLOT = ["kinds", "data", "sync", "start", "requests", "live"]
WORD = re.compile(rb"[A-Za-z0-9\-_+.:]*")
BARE = re.compile(rb"[A-Za-z0-9\-_]+")
DEEP = 80


def shown(word):
    text = "".join(chr(b) if 32 <= b <= 126 and b not in b'"\\' else "\\x%02x" % b for b in word[:40])
    return '"%s"%s' % (text, "..." if 40 < len(word) else "")


def distance(a, b):
    row = list(range(len(b) + 1))
    for i, x in enumerate(a, 1):
        last, row[0] = row[0], i
        for j, y in enumerate(b, 1):
            last, row[j] = row[j], min(row[j] + 1, row[j - 1] + 1, last + (x != y))
    return row[-1]


def meant(word, words):
    small = bytes(b + 32 if 65 <= b <= 90 else b for b in word)
    if len(small) <= 12:
        near = [(distance(small, w.encode()), i) for i, w in enumerate(words)]
        near = [(d, i) for d, i in near if d <= 2 and d < len(words[i])]
        if near:
            return "%s, nearest %s" % (shown(word), words[min(near)[1]])
    return "%s, wanted %s or %s" % (shown(word), ", ".join(words[:-1]), words[-1])


class Stop(Exception):
    """Where a text stops being TOML: the place, the raw words and the text."""

    def __init__(self, at, raw, text):
        self.at, self.raw, self.text = at, raw, text


class Name:
    """What a key holds while a text is read: a value, a table with its origin, or an array of tables with its last one."""

    def __init__(self, kind, value=None, origin=None):
        self.kind, self.value, self.origin = kind, value, origin


class Reader:
    def __init__(self, text):
        self.text = text
        self.root = {}
        self.section = self.root
        self.below = None
        self.headers = False
        self.top = {}
        self.slots = []

    def byte(self, at):
        return self.text[at:at + 1]

    def white(self, at):
        while self.byte(at) in (b" ", b"\t") and self.byte(at):
            at += 1
        return at

    def newline(self, at):
        return 1 if self.byte(at) == b"\n" else 2 if self.text[at:at + 2] == b"\r\n" else 0

    def blank(self, at):
        inside = False
        while at < len(self.text):
            b = self.text[at]
            if self.newline(at):
                inside = False
            elif inside and (b == 9 or (32 <= b and b != 127)) or not inside and b in b" \t":
                pass
            elif not inside and b == 35:
                inside = True
            else:
                break
            at += 1
        return at

    def token(self, at):
        word = WORD.match(self.text, at).group()
        if word:
            return ("x" + word.hex(), shown(word))
        if at == len(self.text):
            return ("file end", "the end of the file")
        if self.newline(at):
            return ("line end", "the end of the line")
        if self.byte(at) == b'"':
            return ("quote", "a double quote")
        return ("x" + self.byte(at).hex(), shown(self.byte(at)))

    def due(self, at, raw, what):
        token = self.token(at)
        raise Stop(at, "due %s: %s" % (raw, token[0]), "%s is due, not %s" % (what, token[1]))

    # Keys and strings. Each gives the value and the place behind, or None.

    def escape(self, at):
        letter = self.byte(at)
        simple = {b"b": 8, b"e": 27, b"f": 12, b"n": 10, b"r": 13, b"t": 9, b'"': 34, b"\\": 92}
        if letter in simple and letter:
            return bytes([simple[letter]]), at + 1
        count = {b"x": 2, b"u": 4, b"U": 8}.get(letter)
        digits = self.text[at + 1:at + 1 + count] if count else b""
        if not count or not re.fullmatch(rb"[0-9A-Fa-f]{%d}" % count, digits):
            return None
        code = int(digits, 16)
        if 0xD800 <= code < 0xE000 or 0x10FFFF < code:
            return None
        return chr(code).encode(), at + 1 + count

    def one_line(self, at):
        mark, found = self.text[at], b""
        at += 1
        while at < len(self.text):
            b = self.text[at]
            if b == mark:
                return found, at + 1
            if b == 92 and mark == 34:
                escaped = self.escape(at + 1)
                if escaped is None:
                    return None
                found, at = found + escaped[0], escaped[1]
            elif b == 9 or (32 <= b and b != 127):
                found, at = found + bytes([b]), at + 1
            else:
                return None
        return None

    def many_lines(self, at):
        mark, found = self.text[at], b""
        at += 3
        at += self.newline(at)
        while at < len(self.text):
            b = self.text[at]
            if b == mark:
                count = 0
                while self.byte(at + count) == bytes([mark]):
                    count += 1
                if 6 <= count:
                    return None
                if 3 <= count:
                    return found + bytes([mark]) * (count - 3), at + count
                found, at = found + bytes([mark]) * count, at + count
            elif b == 92 and mark == 34:
                behind = self.white(at + 1)
                if self.newline(behind):
                    at = behind
                    while self.newline(at) or (self.byte(at) in (b" ", b"\t") and self.byte(at)):
                        at += 1
                else:
                    escaped = self.escape(at + 1)
                    if escaped is None:
                        return None
                    found, at = found + escaped[0], escaped[1]
            elif self.newline(at):
                found, at = found + self.text[at:at + self.newline(at)], at + self.newline(at)
            elif b == 9 or (32 <= b and b != 127):
                found, at = found + bytes([b]), at + 1
            else:
                return None
        return None

    def string(self, at):
        if self.text[at:at + 3] in (b'"""', b"'''"):
            return self.many_lines(at)
        return self.one_line(at)

    def key(self, at):
        parts = []
        for _ in range(DEEP):
            if self.byte(at) in (b'"', b"'") and self.byte(at):
                part = self.one_line(at)
            else:
                bare = BARE.match(self.text, at)
                part = bare and (bare.group(), bare.end())
            if not part:
                return None
            parts.append(part[0])
            at = self.white(part[1])
            if self.byte(at) != b".":
                return parts, at
            at = self.white(at + 1)
        return None

    # Values. Each gives the value and the place behind.

    def scalar(self, word):
        if word in (b"true", b"false"):
            return word == b"true"
        text = word.decode()
        if re.match(r"[0-9]+[-:]", text):
            return self.moment(text)
        plain = text.replace("_", "")
        digits = r"[0-9](_?[0-9])*"
        whole = r"(0|[1-9](_?[0-9])*)"
        if re.fullmatch(r"0x[0-9A-Fa-f](_?[0-9A-Fa-f])*", text):
            number = int(plain, 16)
            return number if number < 2 ** 63 else None
        if re.fullmatch(r"0o[0-7](_?[0-7])*", text):
            number = int(plain, 8)
            return number if number < 2 ** 63 else None
        if re.fullmatch(r"0b[01](_?[01])*", text):
            number = int(plain, 2)
            return number if number < 2 ** 63 else None
        if re.fullmatch(r"[-+]?" + whole, text):
            number = int(plain)
            return number if -2 ** 63 <= number < 2 ** 63 else None
        if re.fullmatch(r"[-+]?(inf|nan)", text):
            return float(text)
        if re.fullmatch(r"[-+]?" + whole + r"(\." + digits + r")?([eE][-+]?" + digits + r")?", text):
            number = float(plain)
            return number if abs(number) != float("inf") else None
        return None

    def moment(self, text):
        date = r"(\d{4})-(\d{2})-(\d{2})"
        time = r"(\d{2}):(\d{2})(?::(\d{2})(?:\.\d+)?)?"
        zone = r"([zZ]|[+-](\d{2}):(\d{2}))"
        form = re.fullmatch(r"(?:%s(?:[tT ]%s%s?)?|%s)" % (date, time, zone, time), text)
        if not form:
            return None
        year, month, day, hour, minute, second, _, far, near, hour2, minute2, second2 = form.groups()
        if year:
            leap = int(year) % 4 == 0 and (int(year) % 100 != 0 or int(year) % 400 == 0)
            days = [31, 29 if leap else 28, 31, 30, 31, 30, 31, 31, 30, 31, 30, 31]
            if not 1 <= int(month) <= 12 or not 1 <= int(day) <= days[int(month) - 1]:
                return None
        hour, minute, second = hour or hour2 or "0", minute or minute2 or "0", second or second2 or "0"
        if 23 < int(hour) or 59 < int(minute) or 60 < int(second) or (far and (23 < int(far) or 59 < int(near))):
            return None
        return datetime.date

    def value(self, at, depth):
        first = self.byte(at)
        if first == b"[" and depth:
            return self.array(at + 1, depth - 1)
        if first == b"{" and depth:
            return self.inline(at + 1, depth - 1)
        if first in (b'"', b"'") and first:
            found = self.string(at)
            if found is None:
                raise Stop(at, "no string", "the string that begins here has no end or a wrong character")
            return found
        word = WORD.match(self.text, at).group()
        end = at + len(word)
        if re.match(rb" [0-9]", self.text[end:end + 2]):
            end += 1 + len(WORD.match(self.text, end + 1).group())
            word = self.text[at:end]
        if not word:
            self.due(at, "value", "a value")
        found = self.scalar(word)
        if found is None:
            self.no_value(at, word)
        return found, end

    def no_value(self, at, word):
        small = word.lower()
        if small in (b"true", b"false"):
            raise Stop(at, "no value %s x%s" % (small.decode(), word.hex()),
                       "%s is no value, nearest %s" % (shown(word), small.decode()))
        if re.fullmatch(rb"[1-9][0-9]*", word):
            raise Stop(at, "no value large x" + word.hex(), "%s is no value, the number is too large" % shown(word))
        if re.match(rb"[0-9]", word):
            raise Stop(at, "no value digits x" + word.hex(),
                       "%s is no value, wanted digits with no unit and no leading zero" % shown(word))
        raise Stop(at, "no value word x" + word.hex(),
                   "%s is no value, wanted a number, true, false or a text in quotes" % shown(word))

    def behind(self, at, closing, raw, what):
        at = self.blank(at)
        if self.byte(at) == b",":
            return at + 1
        if self.byte(at) == closing:
            return at
        self.due(at, raw, what)

    def array(self, at, depth):
        found = []
        while True:
            at = self.blank(at)
            if self.byte(at) == b"]":
                return found, at + 1
            start = at
            item, at = self.value(at, depth)
            found.append((item, start))
            at = self.behind(at, b"]", "element end", ", or ]")

    def inline(self, at, depth):
        names, marks = {}, {}
        while True:
            at = self.blank(at)
            if self.byte(at) == b"}":
                return (closed(names), marks), at + 1
            start = at
            parts, at = self.pair_key(at)
            value, at = self.value(at, depth)
            if not put(names, parts, value):
                self.defined(start, parts, False)
            marks.setdefault(parts[0], start)
            at = self.behind(at, b"}", "member end", ", or }")

    def pair_key(self, at):
        key = self.key(at)
        if key is None:
            self.due(at, "key", "a key")
        if self.byte(key[1]) != b"=":
            self.due(key[1], "equals", "=")
        return key[0], self.white(key[1] + 1)

    def defined(self, at, parts, brackets):
        name = b".".join(parts)
        raise Stop(at, "defined %s x%s" % ("true" if brackets else "false", name.hex()), "%s is defined already%s"
                   % (shown(name), ", elements of an array take double brackets" if brackets else ""))

    # Statements.

    def statement(self, start):
        brackets = 2 if self.text[start:start + 2] == b"[[" else 1 if self.byte(start) == b"[" else 0
        if not brackets:
            parts, at = self.pair_key(start)
            value, at = self.value(at, DEEP)
        else:
            at = self.white(start + brackets)
            key = self.key(at)
            if key is None:
                self.due(at, "key", "a key")
            parts, at = key
            for _ in range(brackets):
                if self.byte(at) != b"]":
                    self.due(at, "header end", "]")
                at += 1
        end = self.white(at)
        if self.byte(end) not in (b"", b"\n", b"\r", b"#"):
            self.due(end, "line end", "the end of the line")
        if not brackets:
            if not put(self.section, parts, value):
                self.defined(start, parts, False)
            self.mark_pair(start, parts, value)
        else:
            table = header(self.root, parts, brackets == 2)
            if table is None:
                self.defined(start, parts, brackets == 1)
            self.section = table
            self.mark_header(start, parts, brackets)
        return at

    def mark_pair(self, start, parts, value):
        if not self.headers:
            self.top.setdefault(parts[0], start)
            if parts == [b"slot"] and isinstance(value, list):
                for item, at in value:
                    self.slots.append((at, item[1] if isinstance(item, tuple) else {}))
        elif self.below:
            self.slots[-1][1].setdefault(parts[0], start)

    def mark_header(self, start, parts, brackets):
        self.headers = True
        self.top.setdefault(parts[0], start)
        self.below = brackets == 2 and parts == [b"slot"]
        if self.below:
            self.slots.append((start, {}))
        elif parts[0] == b"slot" and len(parts) > 1 and self.slots:
            self.slots[-1][1].setdefault(parts[1], start)

    def document(self):
        at = 3 if self.text[:3] == b"\xef\xbb\xbf" else 0
        while True:
            at = self.blank(at)
            if at == len(self.text):
                return closed(self.root)
            at = self.statement(at)


def put(table, parts, value):
    for part in parts[:-1]:
        name = table.get(part)
        if name is None:
            name = table[part] = Name("table", {}, "dotted")
        elif name.kind != "table" or name.origin == "header":
            return False
        name.origin = "dotted"
        table = name.value
    if parts[-1] in table:
        return False
    table[parts[-1]] = Name("value", value)
    return True


def header(table, parts, double):
    for part in parts[:-1]:
        name = table.get(part)
        if name is None:
            name = table[part] = Name("table", {}, "implicit")
        if name.kind == "value":
            return None
        table = name.value if name.kind == "table" else name.value[-1]
    name = table.get(parts[-1])
    if double:
        if name is None:
            name = table[parts[-1]] = Name("array", [])
        elif name.kind != "array":
            return None
        name.value.append({})
        return name.value[-1]
    if name is None:
        name = table[parts[-1]] = Name("table", {}, "header")
    elif name.kind != "table" or name.origin != "implicit":
        return None
    name.origin = "header"
    return name.value


def plain(value):
    if isinstance(value, list):
        return [plain(item) for item, _ in value]
    return value[0] if isinstance(value, tuple) else value


def closed(names):
    out = {}
    for key, name in names.items():
        out[key] = (plain(name.value) if name.kind == "value" else closed(name.value) if name.kind == "table"
                    else [closed(item) for item in name.value])
    return out


def type_of(value):
    if value is datetime.date:
        return "datetime"
    return {bytes: "string", bool: "boolean", int: "integer", float: "float", list: "array", dict: "table"}[type(value)]


class List:
    """The faults of a table, each with its place, its raw words and its text."""

    def __init__(self, reader, file):
        self.reader, self.file, self.found = reader, file, []
        self.rounds = self.modes = None
        self.check()

    def tell(self, at, raw, text):
        self.found.append((at, raw, text))

    def at_top(self, key):
        return self.reader.top[key.encode()]

    def number(self, key, absent=False):
        low, high = TOP[key]
        wanted = "integer %d to %d" % (low, high)
        value = self.file.get(key.encode())
        if value is None:
            if absent:
                return 1
            self.tell(0, "missing " + key, "missing %s: wanted %s" % (key, wanted))
        elif type_of(value) != "integer":
            self.tell(self.at_top(key), "wrong kind %s %s" % (key, type_of(value)),
                      "wrong kind %s: %s, wanted %s" % (key, type_of(value), wanted))
        elif not low <= value <= high:
            self.tell(self.at_top(key), "out of range %s %d %d %d" % (key, value, low, high),
                      "out of range %s %d: wanted %d to %d" % (key, value, low, high))
        else:
            return value
        return None

    def array(self):
        wanted = "array of tables, each [[slot]]"
        value = self.file.get(b"slot")
        if value is None:
            self.tell(0, "missing slot", "missing slot: wanted " + wanted)
        elif type_of(value) != "array" or any(type_of(item) != "table" for item in value):
            self.tell(self.at_top("slot"), "wrong kind slot " + type_of(value),
                      "wrong kind slot: %s, wanted %s" % (type_of(value), wanted))
        else:
            return value
        return None

    def check(self):
        version = self.number("version")
        self.rounds = self.number("rounds")
        for key in ["schedule", "buffers", "drift", "error", "window"]:
            self.number(key)
        slots = self.array()
        self.modes = self.number("modes", True)
        if slots is not None:
            most = 16 if version == 1 else 24
            if not 4 <= len(slots) <= most:
                self.tell(self.at_top("slot"), "slot count %d" % len(slots),
                          "slot count %d: wanted 4 to 16 for version 1, 4 to 24 for version 2" % len(slots))
        seen = (slots or [])[:24]
        syncs = [Slot(self, k, table).sync for k, table in enumerate(seen)]
        for key in sorted(set(self.file) - {name.encode() for name in TOP}):
            self.tell(self.reader.top[key], "unknown top x" + key.hex(), "unknown key at top: "
                      + (shown(key) + " is a key of a slot" if key.decode() in SLOT else meant(key, list(TOP))))
        for k, table in enumerate(seen):
            for key in sorted(set(table) - {name.encode() for name in SLOT}):
                said = shown(key) + " is a key of the top, before the first [[slot]]"
                self.tell(self.reader.slots[k][1][key], "unknown slot %d x%s" % (k, key.hex()),
                          "unknown key in slot %d: %s" % (k, said if key.decode() in TOP else meant(key, SLOT)))
        if slots is not None and 4 <= len(slots) <= 24 and None not in syncs and sum(syncs) < 4:
            self.tell(self.at_top("slot"), "sync %d" % sum(syncs),
                      "sync slots %d: wanted 4 or more slots with sync = true" % sum(syncs))


class Slot:
    def __init__(self, found, k, table):
        self.found, self.k, self.table = found, k, table
        letters = "one letter I, N or X for each round" + (", %d in all" % found.rounds if found.rounds else "")
        kinds = self.typed("kinds", "string", letters)
        if kinds is not None and not (set(kinds) <= set(b"INX") and found.rounds in (None, len(kinds))):
            self.wrong("kinds", "kinds %d x%s" % (k, kinds.hex()), "kinds of slot %d: %s, wanted %s"
                       % (k, shown(kinds), letters))
            kinds = None
        high = 0 if kinds is not None and set(kinds) <= set(b"I") else 240
        data = self.typed("data", "integer", "integer 0 to 240")
        if data is not None and not 0 <= data <= high:
            self.wrong("data", "out of range slot %d data %d 0 %d" % (k, data, high),
                       "out of range slot %d data %d: wanted %s"
                       % (k, data, "0 to 240" if high else "0, since kinds has I alone"))
            data = None
        self.sync = self.typed("sync", "boolean", "true or false")
        self.typed("start", "boolean", "true or false")
        if self.typed("requests", "boolean", "true or false", True) and data == 0:
            self.wrong("requests", "no data %d" % k,
                       "no data for requests of slot %d: requests is true and data is 0" % k)
        letters = "one letter y or n for each mode" + (", %d in all" % found.modes if found.modes else "")
        live = self.typed("live", "string", letters, True)
        if live is not None and not (set(live) <= set(b"yn") and found.modes in (None, len(live))):
            self.wrong("live", "live %d x%s" % (k, live.hex()), "live of slot %d: %s, wanted %s"
                       % (k, shown(live), letters))

    def wrong(self, key, raw, text):
        self.found.tell(self.found.reader.slots[self.k][1][key.encode()], raw, text)

    def typed(self, key, kind, wanted, absent=False):
        value = self.table.get(key.encode())
        if value is None:
            if not absent:
                self.found.tell(self.found.reader.slots[self.k][0], "missing slot %d %s" % (self.k, key),
                                "missing slot %d %s: wanted %s" % (self.k, key, wanted))
        elif type_of(value) != kind:
            self.wrong(key, "wrong kind slot %d %s %s" % (self.k, key, type_of(value)),
                       "wrong kind slot %d %s: %s, wanted %s" % (self.k, key, type_of(value), wanted))
        else:
            return value
        return None


def script_word(text):
    """Where the first word of the first line of a script that says something stands, and the word."""
    at = 0
    for line in text.split(b"\n"):
        cut = line[:-1] if line.endswith(b"\r") else line
        word = re.search(rb"[^ \t]+", cut)
        if word and not word.group().startswith(b"#"):
            return at + word.start(), word.group()
        at += len(line) + 1
    return 0, b""


def errors(text):
    """What is wrong, and the rounds and the modes where they are right."""
    if LIMIT < len(text):
        return [(0, "too large", "too large: wanted at most 1048576 bytes")], None, None
    if text[:2] in (b"\xff\xfe", b"\xfe\xff"):
        return [(0, "utf16", "not toml: the file is UTF-16, save it as UTF-8")], None, None
    valid = len(text)
    stop = None
    try:
        text.decode()
    except UnicodeDecodeError as error:
        valid = error.start
    if valid == len(text):
        reader = Reader(text)
        try:
            found = List(reader, reader.document())
            return found.found, found.rounds, found.modes
        except Stop as why:
            stop = why
    at, word = script_word(text)
    if word == b"slots":
        return [(at, "is script", "not toml: this file is a script, the list comes first")], None, None
    if stop is None:
        return [(valid, "not utf8 %02x" % text[valid], "not toml: byte \\x%02x is no UTF-8" % text[valid])], None, None
    return [(stop.at, "not toml " + stop.raw, "not toml: " + stop.text)], None, None


def main(words):
    raw = words[:1] == ["--raw"]
    sys.setrecursionlimit(10000)
    text = open(words[-1], "rb").read()
    found, rounds, modes = errors(text)
    for at, told, said in found:
        place = "%d:%d" % (text.count(b"\n", 0, at) + 1, at - text.rfind(b"\n", 0, at))
        print("%s %s" % (place, told) if raw else "%s: error: %s" % (place, said))
    if raw and not found:
        print("right")
    if raw:
        print("rounds %s\nmodes %s" % (rounds or "-", modes or "-"))


if __name__ == "__main__":
    main(sys.argv[1:])
