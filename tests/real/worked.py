"""Reads the worked cases of crates/hg_cases/data: their lines and tokens, the bytes that they lay out, and bytes as they are printed there."""

import re

from dirstate import docket, record

TOKEN = re.compile(r'(?:"(?:[^"\\]|\\.)*"(?:\*\d+)?|[^" ])+')
PART = re.compile(r'"((?:[^"\\]|\\.)*)"(?:\*(\d+))?|([^"]+)')
ESCAPE = re.compile(rb'\\(x[0-9A-Fa-f]{2}|.)', re.DOTALL)
ESCAPES = {b"n": b"\n", b"0": b"\0", b"t": b"\t", b"r": b"\r", b"\\": b"\\", b'"': b'"'}
MARKS = {"w": 1, "p1": 2, "p2": 4, "exec": 8, "link": 16, "changed": 512, "sized": 1024, "timed": 2048, "ambiguous": 4096, "dir": 8192, "seen": 16384}
HAS_ENTRY = 7
ZEROS = b"0" * 16


class Line:
    """A line that says or asks something, and the lines that are expected below it."""

    def __init__(self, number, text):
        self.number, self.wanted = number, []
        self.tokens = [bytes_of(it) for it in TOKEN.findall(text)]
        self.word = self.tokens[0].decode()


def bytes_of(token):
    """The bytes of a token: bare characters, and texts that are taken as often as they say."""
    whole = b""
    for text, times, bare in PART.findall(token):
        whole += bare.encode() if bare else ESCAPE.sub(lambda it: escaped(it[1]), text.encode()) * int(times or 1)
    return whole


def escaped(code):
    return bytes([int(code[1:], 16)]) if code[:1] == b"x" else ESCAPES[code]


def lines_of(text):
    """The lines of a file of cases."""
    found = []
    for number, text in enumerate(text.split("\n"), 1):
        if text.startswith("  "):
            found[-1].wanted.append(text[2:])
        elif text and not text.startswith("#"):
            found.append(Line(number, text))
    return found


def printed(content):
    """Bytes as lines."""
    rows = content.split(b"\n")
    last = rows.pop()
    return [shown(it) for it in rows] + [shown(last) + " (no end)"] * bool(last)


def shown(row):
    """The bytes of a line: more than 64 times the same one as how often it stands there."""
    return "".join(f"{{{letter(it[1])}*{len(it[0])}}}" if len(it[0]) > 64 else letter(it[1]) * len(it[0]) for it in re.finditer(rb"(.)\1*", row, re.DOTALL))


def letter(byte):
    if byte == b"\\":
        return r"\\"
    return byte.decode() if b" " <= byte <= b"~" else f"\\x{byte[0]:02X}"


def pair(text):
    """`7+2`."""
    first, second = text.split(b"+")
    return int(first), int(second)


class Data:
    """The texts and records of a data file, and the docket that names them."""

    def __init__(self):
        self.begin()

    def begin(self):
        self.bytes, self.first, self.nodes, self.entries, self.is_ended = b"", 0, 0, 0, False

    def end(self):
        """What is put behind this begins anew."""
        self.is_ended = True

    def put(self, content):
        if self.is_ended:
            self.begin()
        self.bytes += content

    def put_node(self, flags, **fields):
        self.put(b"")
        self.first = self.first if self.nodes else len(self.bytes)
        self.nodes += 1
        self.entries += bool(flags & HAS_ENTRY)
        self.put(record(flags=flags, **fields))

    def place(self, text):
        """Where a text stands, and how long it is: `0+1`, or the text itself."""
        return pair(text) if re.fullmatch(rb"\d+\+\d+", text) else (self.bytes.index(text), len(text))

    def node(self, path, words):
        self.put(b"")
        (start, length), flags = self.place(path), 0
        fields = {"start": start, "length": length, "base": path.rfind(b"/") + 1}
        for word in words:
            key, given, value = word.partition(b"=")
            if not given:
                flags |= MARKS[word.decode()]
            elif key == b"flags":
                flags |= int(value, 0)
            elif key == b"time":
                fields["seconds"], fields["nanos"] = (int(it) for it in value.split(b"."))
            elif key == b"from":
                fields["copy"] = self.place(value)
            elif key in (b"kids", b"below"):
                fields[{b"kids": "children", b"below": "below"}[key]] = pair(value)
            elif key in (b"base", b"size"):
                fields[key.decode()] = int(value)
            else:
                raise ValueError(word)
        self.put_node(flags, **fields)

    def tower(self, levels):
        """`a`, `a/a` and so on, each the only child of the one before."""
        self.put(b"a/" * levels)
        for level in range(levels):
            below = 1 if level + 1 < levels else 0
            self.put_node(1, start=0, length=2 * level + 1, base=2 * level, children=(len(self.bytes) + 44, below))
        self.nodes = 1

    def docket(self, words):
        """The docket, the identifier, and whether the data file isn't there."""
        root, entries, counts, used, ends = (self.first, self.nodes), self.entries, {}, len(self.bytes), {"identifier": ZEROS}
        is_alone = False
        for word in words:
            key, given, value = word.partition(b"=")
            if word == b"alone":
                is_alone = True
            elif key in (b"p1", b"p2"):
                ends[key.decode()] = bytes.fromhex(value.decode()) * 20
            elif key == b"spare":
                ends["spare"] = int(value, 16)
            elif key == b"root":
                root = pair(value)
            elif key == b"entries":
                entries = int(value)
            elif key in (b"copies", b"lost"):
                counts[key] = int(value)
            elif key == b"used":
                used = int(value)
            elif key == b"id":
                ends["identifier"] = value
            else:
                raise ValueError(word)
        made = docket(used, root, counts=(entries, counts.get(b"copies", 0), counts.get(b"lost", 0)), **ends)
        return made, ends["identifier"].decode(), is_alone


def manifest(rows):
    """The bytes of a manifest whose rows are each a path, `=`, a digit that stands forty times, and perhaps a flag."""
    whole = b""
    for row in rows:
        path, _, value = row.partition(b"=")
        whole += path + b"\0" + value[:1] * 40 + value[1:] + b"\n"
    return whole
