"""Dirstates that are damaged or odd, each with the line that has to be printed."""

import resource

from dirstate import (ALL_UNKNOWN_RECORDED, DIRECTORY, EXPECTED_STATE_IS_MODIFIED, HAS_MODE_AND_SIZE, HAS_MTIME, IDENTIFIER,
                      P1_TRACKED, P2_INFO, WDIR_TRACKED, docket, record, written)
from folder import aborted, lay_out, limited, lines, put_record

GOOD, DATA = written([b"a"])
PARENT = b"\x11" * 20
GONE = "dirstate data gone: 0000000000000000"
LONGEST = b"k" * 255

# what is wrong, the docket, whether the good data file is there, the line
DOCKETS = [
    ("the marker's first byte", b"D" + GOOD[1:], True, "dirstate: marker differs at byte 0"),
    ("the marker's last byte", GOOD[:11] + b"\r" + GOOD[12:], True, "dirstate: marker differs at byte 11"),
    ("another version's marker", b"dirstate-v1", True, "dirstate: marker differs at byte 10"),
    ("a file of the first version", bytes(40) + b"n" + bytes(16) + b"a", True, "dirstate: marker differs at byte 0"),
    ("part of the marker", b"dirst", True, "dirstate: 5 bytes where 125 are needed"),
    ("no length of the identifier", GOOD[:124], True, "dirstate: 124 bytes where 125 are needed"),
    ("no identifier", GOOD[:125], True, "dirstate: 125 bytes where 141 are needed"),
    ("a byte short", GOOD[:-1], True, "dirstate: 140 bytes where 141 are needed"),
    ("the longest identifier, a byte short", docket(45, (1, 1), identifier=LONGEST)[:-1], True, "dirstate: 379 bytes where 380 are needed"),
    ("a slash in the identifier", docket(45, (1, 1), identifier=b"a/b"), True, "dirstate: identifier byte 126"),
    ("a NUL in the identifier", docket(45, (1, 1), identifier=b"\0"), True, "dirstate: identifier byte 125"),
    ("a dot in the identifier", docket(45, (1, 1), identifier=b"abc."), True, "dirstate: identifier byte 128"),
    ("bytes used and no identifier", docket(45, (1, 1), identifier=b""), True, "dirstate: no identifier for 45 bytes"),
    ("marker before length", b"Dirstate", True, "dirstate: marker differs at byte 0"),
    ("length before identifier", docket(45, (1, 1), identifier=b"a/b")[:-1], True, "dirstate: 127 bytes where 128 are needed"),
    ("docket before parents", docket(45, (1, 1), p1=PARENT, identifier=b"/"), True, "dirstate: identifier byte 125"),
    ("the data file before parents", docket(45, (1, 1), p1=PARENT), False, GONE),
    ("the data before parents", docket(46, (1, 1), p1=PARENT), True, "dirstate data: 45 bytes where 46 are used"),
    ("no data file", GOOD, False, GONE),
    ("no data file under another name", docket(45, (1, 1), identifier=b"Az-_9"), True, "dirstate data gone: Az-_9"),
    ("a name too long for a file", docket(45, (1, 1), identifier=LONGEST), True, f"dirstate data gone: {LONGEST.decode()}"),
    ("nodes in no bytes", docket(0, (0, 1)), True, "dirstate data: list at 0 of 1 nodes"),
    ("nodes in no bytes and no identifier", docket(0, (0, 1), identifier=b""), True, "dirstate data: list at 0 of 1 nodes"),
]

TIMED = WDIR_TRACKED | HAS_MTIME

# what is wrong, the data, the place and the number of the root list, the line; all bytes are used
NODES = [
    ("a list that begins one byte late", DATA, (2, 1), "list at 2 of 1 nodes"),
    ("a list of too many nodes", DATA, (1, 2), "list at 1 of 2 nodes"),
    ("a list of the most nodes", DATA, (1, 4294967295), "list at 1 of 4294967295 nodes"),
    ("a list at the last place", DATA, (4294967295, 1), "list at 4294967295 of 1 nodes"),
    ("a child list past the end", b"a" + record(0, 1, children=(2, 1)), (1, 1), "list at 2 of 1 nodes"),
    ("a path past the end", b"a" + record(1, 45), (1, 1), "node 1: text"),
    ("a path from the last place", b"a" + record(4294967295, 65535), (1, 1), "node 1: text"),
    ("a path that is not text", b"\xff" + record(0, 1), (1, 1), "node 1: text"),
    ("half a character", "\u00e4".encode() + record(0, 1), (2, 1), "node 2: text"),
    ("an empty path", record(0, 0), (0, 1), "node 0: name"),
    ("a dot", b"." + record(0, 1), (1, 1), "node 1: name"),
    ("two dots", b".." + record(0, 2), (2, 1), "node 2: name"),
    ("a leading slash", b"/a" + record(0, 2, 1), (2, 1), "node 2: name"),
    ("a slash at the end", b"a/" + record(0, 2, 2), (2, 1), "node 2: name"),
    ("two slashes", b"a//b" + record(0, 4, 3), (4, 1), "node 4: name"),
    ("a NUL", b"a\0" + record(0, 2), (2, 1), "node 2: name"),
    ("the name .hg", b".hg" + record(0, 3), (3, 1), "node 3: name"),
    ("name before base", b".hg" + record(0, 3, 9), (3, 1), "node 3: name"),
    ("a base behind the path", b"a" + record(0, 1, 1), (1, 1), "node 1: base"),
    ("a base inside the last component", b"ab" + record(0, 2, 1), (2, 1), "node 2: base"),
    ("base before parent", b"x/b" + record(0, 3, 0), (3, 1), "node 3: base"),
    ("a path of two components at the root", b"x/b" + record(0, 3, 2), (3, 1), "node 3: parent"),
    ("another parent's child", b"ax/b" + record(1, 3, 2) + record(0, 1, children=(4, 1)), (48, 1), "node 4: parent"),
    ("a child of one component", b"ab" + record(1, 1) + record(0, 1, children=(2, 1)), (46, 1), "node 2: parent"),
    ("siblings out of order", b"ba" + record(0, 1) + record(1, 1), (2, 2), "node 46: order"),
    ("a sibling twice", b"a" + record(0, 1) + record(0, 1), (1, 2), "node 45: order"),
    ("parent before order", b"bx/a" + record(0, 1) + record(1, 3, 2), (4, 2), "node 48: parent"),
    ("a copy source past the end", b"a" + record(0, 1, copy=(45, 1)), (1, 1), "node 1: copy"),
    ("a copy source that is not text", b"a\xff" + record(0, 1, copy=(1, 1)), (2, 1), "node 2: copy"),
    ("an empty copy source", b"a" + record(0, 1, copy=(1, 0)), (1, 1), "node 1: copy"),
    ("a copy source that is no path", b"a.hg" + record(0, 1, copy=(1, 3)), (4, 1), "node 4: copy"),
    ("order before copy", b"ba" + record(0, 1) + record(1, 1, copy=(90, 1)), (2, 2), "node 46: order"),
    ("a second of nanoseconds", b"a" + record(0, 1, flags=TIMED, nanos=10**9), (1, 1), "node 1: time"),
    ("seconds past 31 bits", b"a" + record(0, 1, flags=TIMED, seconds=2**31), (1, 1), "node 1: time"),
    ("copy before time", b"a" + record(0, 1, copy=(45, 1), flags=TIMED, nanos=10**9), (1, 1), "node 1: copy"),
    ("a time where nothing is tracked", b"a" + record(0, 1, flags=HAS_MTIME, nanos=10**9), (1, 1), "node 1: time"),
    ("a node before its children", b"a" + record(0, 1, 1, children=(2, 1)), (1, 1), "node 1: base"),
    ("children before the next sibling", b"ac" + record(0, 1, children=(90, 1)) + record(1, 1, 1), (2, 2), "list at 90 of 1 nodes"),
]

# what is taken all the same, the docket, the data, the lines with the file `a` and those without it
TAKEN = [
    ("an empty docket", b"", None, ["? a"], []),
    ("padding that is not zero", docket(45, (1, 1), spare=0xFF), DATA, ["A a"], ["! a"]),
    ("bytes behind the identifier", GOOD + b"\0 more", DATA, ["A a"], ["! a"]),
    ("a docket of more than 512 bytes", GOOD + b"x" * 1000, DATA, ["A a"], ["! a"]),
    ("the longest identifier of nothing", docket(0, (7, 0), identifier=LONGEST), None, ["? a"], []),
    ("wrong counts", docket(45, (1, 1), counts=(9, 8, 4294967295)), b"a" + record(0, 1, below=(5, 6)), ["A a"], ["! a"]),
    ("a longer data file", GOOD, DATA + b"\xff" * 15, ["A a"], ["! a"]),
    ("an empty list at any place", docket(45, (4294967295, 0)), DATA, ["? a"], []),
    ("an empty child list at any place", GOOD, b"a" + record(0, 1, children=(4294967295, 0)), ["A a"], ["! a"]),
    ("a node of nothing", GOOD, b"a" + record(0, 1, flags=0), ["? a"], []),
    ("a cached directory of nothing", GOOD, b"a" + record(0, 1, flags=DIRECTORY | ALL_UNKNOWN_RECORDED | HAS_MTIME, nanos=999999999), ["? a"], []),
    ("a time without its flag", GOOD, b"a" + record(0, 1, seconds=4294967295, nanos=4294967295), ["A a"], ["! a"]),
    ("a size and a mode", GOOD, b"a" + record(0, 1, flags=WDIR_TRACKED | HAS_MODE_AND_SIZE | 24, size=4294967295), ["A a"], ["! a"]),
    ("bits without a meaning", GOOD, b"a" + record(0, 1, flags=WDIR_TRACKED | EXPECTED_STATE_IS_MODIFIED | 0xF1E0), ["A a"], ["! a"]),
    ("a copy source", docket(46, (2, 1)), b"ab" + record(0, 1, copy=(1, 1)), ["A a"], ["! a"]),
    ("a copy source of nothing", docket(46, (2, 1)), b"ab" + record(0, 1, copy=(1, 1), flags=0), ["? a"], []),
    ("a first parent", docket(45, (1, 1), p1=PARENT), DATA, ["A a"], ["! a"]),
    ("a second parent", docket(45, (1, 1), p2=PARENT), DATA, ["A a"], ["! a"]),
    ("of a first parent that is null", GOOD, b"a" + record(0, 1, flags=WDIR_TRACKED | P1_TRACKED), ["M a"], ["! a"]),
    ("removed", GOOD, b"a" + record(0, 1, flags=P1_TRACKED), ["R a"], ["R a"]),
    ("of a merge", GOOD, b"a" + record(0, 1, flags=WDIR_TRACKED | P2_INFO), ["M a"], ["! a"]),
    ("of both parents", docket(45, (1, 1), p1=PARENT, p2=PARENT), b"a" + record(0, 1, flags=WDIR_TRACKED | P1_TRACKED | P2_INFO), ["M a"], ["! a"]),
    ("copied", docket(46, (2, 1), p1=PARENT), b"ab" + record(0, 1, copy=(1, 1), flags=WDIR_TRACKED | P1_TRACKED), ["M a"], ["! a"]),
    ("removed below a directory", docket(91, (47, 1)), b"a/b" + record(0, 3, 2, flags=P2_INFO) + record(0, 1, children=(3, 1), flags=0), ["R a/b", "? a"], ["R a/b"]),
    ("texts that share bytes", docket(91, (47, 1)), b"a/b" + record(0, 3, 2) + record(0, 1, children=(3, 1)), ["A a", "! a/b"], ["! a", "! a/b"]),
]


def check(tests, what, docket_bytes, data, err=b"", things=("a",), out=b""):
    with tests.working_copy() as root:
        lay_out(root, things)
        put_record(root, docket_bytes, data)
        tests.check(what, root, out, err)


def run_depth(tests):
    """The most components, and one more: its node stands right behind its path, which is the first text of the file."""
    path = "/".join(["a"] * 2048)
    deepest = written([path.encode()])
    check(tests, "2,048 components", *deepest, things=(), out=lines(f"! {path}"))
    check(tests, "2,049 components", *written([f"{path}/a".encode()]), aborted("dirstate data: node 4097: depth"))


# All the memory that a run may take where a count is wrong.
SOME_MEMORY = 48 * 1024 * 1024


def limited_memory():
    limited()
    resource.setrlimit(resource.RLIMIT_AS, (SOME_MEMORY, SOME_MEMORY))


def run_counts(tests):
    """The greatest counts of a docket, over two nodes, take no memory for what isn't there."""
    data = b"ab" + record(0, 1) + record(1, 1)
    for count in (0, 2, 4294967295):
        for words, told in ((["status"], lines("A a", "! b", "? c")), (["debugdirstate"], None)):
            with tests.working_copy() as root:
                lay_out(root, ["a", "c"])
                put_record(root, docket(len(data), (2, 2), counts=(count, count, count)), data)
                status, out, err = tests.run(root, words, preexec_fn=limited_memory)
                tests.compare(f"{count:,} entries over two nodes, within {SOME_MEMORY:,} bytes: {words[0]}", (status, told is None or out == told, err), (0, True, b""))
                added = tests.run(root, ("add", "c"), preexec_fn=limited_memory), tests.run(root)
                tests.compare(f"{count:,} entries over two nodes: add", added, ((0, b"", b""), (0, lines("A a", "A c", "! b"), b"")))


def run(tests):
    for what, docket_bytes, has_data, line in DOCKETS:
        check(tests, f"docket: {what}", docket_bytes, DATA if has_data else None, aborted(line))
    short = "dirstate data: {} bytes where 45 are used"
    check(tests, "data: a byte short", GOOD, DATA[:-1], aborted(short.format(44)))
    check(tests, "data: an empty file", GOOD, b"", aborted(short.format(0)))
    for what, data, root_list, line in NODES:
        check(tests, f"data: {what}", docket(len(data), root_list), data, aborted(f"dirstate data: {line}"))
    late = b"ab" + record(0, 1, flags=P1_TRACKED) + record(1, 1, flags=TIMED, nanos=10**9)
    check(tests, "damage behind a removed file", docket(len(late), (2, 2)), late, aborted("dirstate data: node 46: time"))
    # (a file that lay_out makes holds its own name, which is a regexp of an ignore text here)
    for words, told in ((["status"], ["A a"]), (["status", "-m", "-a"], ["A a"]), (["status", "-A"], ["A a", "I .hgignore"])):
        with tests.working_copy() as root:
            lay_out(root, ["a", ".hgignore"])
            put_record(root, GOOD, DATA)
            tests.check(f"a file .hgignore and {words}", root, lines(*told), b"", words)
    check(tests, "damage before .hgignore", GOOD, DATA[:-1], aborted(short.format(44)), ("a", ".hgignore"))
    for what, docket_bytes, data, with_file, without in TAKEN:
        identifier = IDENTIFIER.decode()
        for things, told in ((("a",), with_file), ((), without)):
            with tests.working_copy() as root:
                lay_out(root, things)
                put_record(root, docket_bytes, data, identifier)
                tests.check(f"taken: {what}", root, lines(*told))
    run_depth(tests)
    run_counts(tests)
