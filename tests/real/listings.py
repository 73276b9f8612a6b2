"""What stands in a working copy, what its dirstate tracks, and the lines of its status."""

import os

from dirstate import written
from folder import lay_out, lines, put_record

LONG = "n" * 255
DEEP = "/".join(["deep"] * 400)
UTF8 = "\u00e4\u20ac\U0001f600"

# what the case shows, what stands there (folder.lay_out says how it is written), the tracked paths (None: no dirstate), the lines
CASES = [
    ("an empty folder", [], None, []),
    ("an empty .hg", [".hg/"], None, []),
    ("a file", ["a"], None, ["? a"]),
    ("a file beside an empty .hg", [".hg/", "a"], None, ["? a"]),
    (".hg is a file", [".hg", "a"], None, ["? a"]),
    (".hg is a link to nothing", [".hg -> gone", "a"], None, ["? a"]),
    ("files in .hg", [".hg/x", ".hg/sub/y", "a"], None, ["? a"]),
    ("no paths in the dirstate", ["a"], [], ["? a"]),
    ("tracked and there", ["a"], ["a"], ["A a"]),
    ("tracked and missing", [], ["a"], ["! a"]),
    ("the three groups", ["a", "c"], ["a", "b"], ["A a", "! b", "? c"]),
    ("groups before paths", ["z", "a"], ["z", "m"], ["A z", "! m", "? a"]),
    ("a name that begins with .hg", [".hgx", ".hgtags"], [".hgx"], ["A .hgx", "? .hgtags"]),
    ("a file in a directory", ["d/x"], None, ["? d/x"]),
    ("nested directories", ["a", "d/e/f/g", "d/h"], ["d/h", "d/e/i"], ["A d/h", "! d/e/i", "? a", "? d/e/f/g"]),
    ("empty directories", ["d/", "e/f/"], None, []),
    ("a missing directory", ["a"], ["a", "d/e/f"], ["A a", "! d/e/f"]),
    ("by bytes and not by the tree", ["a.c", "a/b", "a0"], None, ["? a.c", "? a/b", "? a0"]),
    ("tracked, by bytes and not by the tree", ["a.c", "a/b"], ["a.c", "a/b", "a/c", "a-c"], ["A a.c", "A a/b", "! a-c", "! a/c"]),
    ("capitals first", ["b", "B", "a", "_"], None, ["? B", "? _", "? a", "? b"]),
    ("a directory where a file is tracked", ["a/x"], ["a"], ["! a", "? a/x"]),
    ("a file where a directory is tracked", ["d"], ["d/x"], ["! d/x", "? d"]),
    ("tracked with tracked below", ["a/b"], ["a", "a/b"], ["A a/b", "! a"]),
    ("a repository below the root", ["sub/.hg/", "sub/y", "sub/d/z", "x"], None, ["? x"]),
    ("tracked and missing in a repository below", ["sub/.hg/x", "sub/y"], ["sub/t"], ["! sub/t"]),
    ("tracked and there in a repository below", ["sub/.hg/x", "sub/t", "sub/y"], ["sub/t"], ["A sub/t"]),
    ("a repository further below", ["d/e/.hg/", "d/e/f", "d/g"], None, ["? d/g"]),
    ("a file .hg below the root", ["sub/.hg", "sub/y"], None, ["? sub/.hg", "? sub/y"]),
    ("a link .hg below the root", ["sub/.hg -> .", "sub/y"], None, ["? sub/.hg", "? sub/y"]),
    ("a link", ["l -> a", "a"], None, ["? a", "? l"]),
    ("a tracked link", ["l -> a", "a"], ["l"], ["A l", "? a"]),
    ("a dangling link", ["l -> gone"], ["m"], ["! m", "? l"]),
    ("a tracked dangling link", ["l -> gone"], ["l"], ["A l"]),
    ("a link to itself", ["l -> l"], ["l"], ["A l"]),
    ("a link to a directory", ["d/x", "l -> d"], None, ["? d/x", "? l"]),
    ("nothing behind a link", ["d/x", "l -> d"], ["l/x"], ["! l/x", "? d/x", "? l"]),
    ("a fifo", ["p |", "a"], None, ["? a"]),
    ("a tracked fifo", ["p |"], ["p"], ["! p"]),
    ("a link .hgignore", [".hgignore -> a", "a"], None, ["? .hgignore", "? a"]),
    ("a directory .hgignore", [".hgignore/x"], None, ["? .hgignore/x"]),
    ("a file .hgignore below the root", ["d/.hgignore"], None, ["? d/.hgignore"]),
    ("spaces", [" a", "b c ", "d e/f"], ["b c "], ["A b c ", "?  a", "? d e/f"]),
    ("line feeds", ["a\nb", "c\r"], ["a\nb"], ["A a\nb", "? c\r"]),
    ("names like options", ["-n", "--help", "status"], ["-n"], ["A -n", "? --help", "? status"]),
    ("backslashes, quotes and stars", ["a\\b", 'c"', "d*", "[e]", "#f"], ["a\\b"], ["A a\\b", "? #f", "? [e]", '? c"', "? d*"]),
    ("text beyond ASCII", [UTF8, "a", "\u00e4/\u00f6"], [UTF8], [f"A {UTF8}", "? a", "? \u00e4/\u00f6"]),
    ("a control byte", ["a\x01\x7f"], None, ["? a\x01\x7f"]),
    ("names of 255 bytes", [LONG, f"{LONG}d/x"[1:]], [LONG], [f"A {LONG}", f"? {LONG[1:]}d/x"]),
    ("a tracked name of 256 bytes", ["a"], [f"{LONG}n"], [f"! {LONG}n", "? a"]),
    ("a tracked path of 65,535 bytes", ["a"], ["a" + "/aaa" * 1_021 + "a" * 61_450], ["! a" + "/aaa" * 1_021 + "a" * 61_450, "? a"]),
    ("400 directories deep", [f"{DEEP}/x"], [f"{DEEP}/y"], [f"! {DEEP}/y", f"? {DEEP}/x"]),
    ("1,000 files", [f"f{i:03}" for i in range(1000)], [f"f{i:03}" for i in range(0, 1000, 2)],
     [f"A f{i:03}" for i in range(0, 1000, 2)] + [f"? f{i:03}" for i in range(1, 1000, 2)]),
    ("300 files in 30 directories", [f"d{i:02}/{j}" for i in range(30) for j in range(10)], [f"d{i:02}/{j}" for i in range(30) for j in range(1, 10)],
     [f"A d{i:02}/{j}" for i in range(30) for j in range(1, 10)] + [f"? d{i:02}/0" for i in range(30)]),
]


def run(tests):
    for what, things, tracked, told in CASES:
        with tests.working_copy() as root:
            lay_out(root, things)
            if tracked is not None:
                put_record(root, *written([os.fsencode(it) for it in tracked]))
            tests.check(what, root, lines(*told))
