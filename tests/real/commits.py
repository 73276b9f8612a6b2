"""Working copies of a commit that the plain store keeps, laid out by hand: each letter and flag, and each damage of the store by its line."""

import os

from dirstate import P1_TRACKED, P2_INFO, WDIR_TRACKED, docket, record
from folder import aborted, as_nobody, because, lay_out, lines, put, put_record

PARENT, NULL = b"\x1a" * 20, bytes(20)
HEX = PARENT.hex()
W, P1, P2 = WDIR_TRACKED, P1_TRACKED, P2_INFO
MOST = 67_108_864


def name_of(number):
    """An identifier of contents."""
    return f"{number:040x}"


def put_entries(root, entries, p1=PARENT, p2=NULL):
    """The record of these entries in the root folder: a path, its flags and its copy source."""
    data, records = bytearray(), b""
    for path, flags, source in sorted(entries):
        start = len(data)
        data += os.fsencode(path)
        copy = (len(data), len(source)) if source else (0, 0)
        data += os.fsencode(source)
        records += record(start, len(os.fsencode(path)), 0, copy, flags=flags)
    root_list = (len(data), len(entries))
    data += records
    put_record(root, docket(len(data), root_list, p1=p1, p2=p2), bytes(data))


def put_plain(root, name, content):
    os.makedirs(f"{root}/.hg/plain", exist_ok=True)
    put(f"{root}/.hg/plain/{name}", content)


def put_commit(root, files, node=HEX):
    """A commit of these files: path, contents and flag. The contents' identifiers are their places, counted from 1."""
    rows = b""
    for number, (path, content, flag) in enumerate(sorted(files), 1):
        put_plain(root, f"f-{name_of(number)}", content)
        rows += os.fsencode(path) + b"\0" + name_of(number).encode() + flag + b"\n"
    put_plain(root, f"m-{node}", rows)


def lay_out_letters(root):
    """A path of each letter, and of each way to it."""
    put_commit(root, [(name, b"one\n", b"") for name in ("a", "c", "copied", "gone", "link", "long", "r", "s", "second", "x")] + [("b", b"two\n", b""), ("l", b"a", b"l"), ("m", b"a", b"l"), ("y", b"one\n", b"x")])
    for name, text in (("a", b"one\n"), ("b", b"TWO\n"), ("copied", b"one\n"), ("n", b"one\n"), ("long", b"one\nmore\n"), ("s", b"one\n"), ("second", b"one\n"), ("x", b"one\n"), ("y", b"one\n"), ("z", b"one\n"), ("m", b"a"), ("none", b"one\n")):
        put(f"{root}/{name}", text)
    os.symlink("a", f"{root}/l")
    os.symlink("one\n", f"{root}/link")
    os.chmod(f"{root}/x", 0o755)
    os.chmod(f"{root}/y", 0o755)
    clean = [(name, W | P1, "") for name in ("a", "b", "c", "gone", "l", "link", "long", "m", "x", "y", "none")]
    put_entries(root, clean + [("copied", W | P1, "a"), ("n", W, "a"), ("r", P1, ""), ("s", P1, ""), ("second", W | P1 | P2, "")], p2=b"\x1b" * 20)


M = ["M b", "M copied", "M link", "M long", "M m", "M none", "M second", "M x"]
M_COPIES = ["M b", "M copied", "  a", "M link", "M long", "M m", "M none", "M second", "M x"]
A, A_COPIES, R, GONE, UNKNOWN, C = ["A n"], ["A n", "  a"], ["R r", "R s"], ["! c", "! gone"], ["? z"], ["C a", "C l", "C y"]


def names(rows):
    return [it[2:] for it in rows]


# words behind `status`, the lines, and what ends each name
LETTERS = [
    ([], M + A + R + GONE + UNKNOWN, b"\n"),
    (["-m"], M, b"\n"), (["--modified"], M, b"\n"), (["-a"], A, b"\n"), (["--added"], A, b"\n"), (["-r"], R, b"\n"), (["--removed"], R, b"\n"),
    (["-d"], GONE, b"\n"), (["--deleted"], GONE, b"\n"), (["-u"], UNKNOWN, b"\n"), (["--unknown"], UNKNOWN, b"\n"), (["-c"], C, b"\n"), (["--clean"], C, b"\n"),
    (["-i"], [], b"\n"), (["--ignored"], [], b"\n"),
    (["-A"], M_COPIES + A_COPIES + R + GONE + UNKNOWN + C, b"\n"), (["--all"], M_COPIES + A_COPIES + R + GONE + UNKNOWN + C, b"\n"),
    (["-C"], M_COPIES + A_COPIES + R + GONE + UNKNOWN, b"\n"), (["--copies", "-a"], A_COPIES, b"\n"),
    (["-n"], names(M + A + R + GONE + UNKNOWN), b"\n"), (["--no-status", "-C", "-a"], names(A), b"\n"), (["-A", "-n"], names(M + A + R + GONE + UNKNOWN + C), b"\n"),
    (["-0"], M + A + R + GONE + UNKNOWN, b"\0"), (["--print0", "-C", "-a"], A_COPIES, b"\0"), (["-0", "-n", "-d"], names(GONE), b"\0"),
    (["-c", "-a"], A + C, b"\n"), (["-a", "-c"], A + C, b"\n"), (["-m", "-m"], M, b"\n"), (["-u", "-i", "-r"], R + UNKNOWN, b"\n"),
]

ROW = b"a\0" + name_of(1).encode() + b"\n"

# what is wrong with a manifest, its text, the line
MANIFESTS = [
    ("39 digits", b"a\0" + name_of(1).encode()[1:] + b"\n", "manifest line 1"),
    ("no last line feed", ROW[:-1], "manifest line 1"),
    ("another flag", ROW[:-1] + b"X\n", "manifest line 1"),
    ("no path", ROW[1:], "manifest line 1"),
    ("a path that isn't text", b"\xff" + ROW, "manifest line 1"),
    ("a path below .hg", b".hg/" + ROW, "manifest line 1"),
    ("a path twice", ROW + ROW, "manifest order at line 2"),
    ("paths out of order", b"b" + ROW[1:] + ROW, "manifest order at line 2"),
    ("the form before the order", b"b" + ROW[1:] + ROW[:-1], "manifest line 2"),
    ("bytes behind the last line", ROW + b"\n", "manifest line 2"),
]


def lay_out_one(root, manifest=ROW, contents=b"a\n"):
    lay_out(root, ["a"])
    put_entries(root, [("a", W | P1, "")])
    if manifest is not None:
        put_plain(root, f"m-{HEX}", manifest)
    if contents is not None:
        put_plain(root, f"f-{name_of(1)}", contents)


def run_damage(tests):
    for what, text, line in MANIFESTS:
        with tests.working_copy() as root:
            lay_out_one(root, text)
            tests.check(f"manifest: {what}", root, b"", aborted(line))
            tests.check(f"manifest: {what}, which isn't asked for", root, b"", b"", ["status", "-a", "-u"])
    with tests.working_copy() as root:
        lay_out_one(root, None)
        tests.check("manifest: absent", root, b"", aborted(f"no manifest {HEX}"))
        os.remove(f"{root}/a")
        tests.check("manifest: absent, and nothing to compare", root, lines("! a"))
    with tests.working_copy() as root:
        lay_out_one(root, ROW)
        with open(f"{root}/.hg/plain/m-{HEX}", "r+b") as file:
            file.truncate(MOST + 1)
        tests.check("manifest: too large", root, b"", aborted(f"manifest of {MOST + 1} bytes"))
    with tests.working_copy() as root:
        lay_out_one(root, contents=None)
        tests.check("contents: absent", root, b"", aborted(f"no contents {name_of(1)}"))
        os.chmod(f"{root}/a", 0o755)
        tests.check("contents: absent, and another executable bit", root, lines("M a"))


def run_failing(tests):
    """What of the store is no file or may not be read is a failure of `.hg`, with its name."""
    for name in (f"m-{HEX}", f"f-{name_of(1)}"):
        with tests.working_copy() as root:
            lay_out_one(root)
            os.remove(f"{root}/.hg/plain/{name}")
            os.mkdir(f"{root}/.hg/plain/{name}")
            tests.check(f"store: {name[0]} is a folder", root, b"", aborted(".hg failed") + because(f".hg/plain/{name}", "not a regular file"))
        with tests.working_copy() as root:
            lay_out_one(root)
            os.chmod(f"{root}/.hg/plain/{name}", 0)
            tests.check(f"store: {name[0]} may not be read", root, b"", aborted(".hg failed") + because(f".hg/plain/{name}", "permission denied"), **as_nobody())
    with tests.working_copy() as root:
        lay_out_one(root)
        os.chmod(f"{root}/a", 0)
        tests.check("a file that has to be compared and may not be read", root, b"", aborted("working copy failed") + because("a", "permission denied"), **as_nobody())
        tests.check("the same file where nothing is compared", root, b"", b"", ["status", "-d"], **as_nobody())


def run(tests):
    for words, rows, end in LETTERS:
        with tests.working_copy() as root:
            lay_out_letters(root)
            tests.check(f"commit: status {' '.join(words)}", root, b"".join(os.fsencode(it) + end for it in rows), b"", ["status", *words])
    run_damage(tests)
    run_failing(tests)
