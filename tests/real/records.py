"""Records that Mercurial itself wrote: `hgtrack debugdirstate` names the same paths, states, modes, sizes, times and copies as `hg debugstate`,
and the parents that `hg parents` names."""

import calendar
import os
import re
import shutil
import time

from dirstate import written
from folder import lay_out, lines, put, put_record
from mercurial import hg, is_v2

NULL = "0" * 40
MANY = [f"d{i:02}/e{j}/f{k}" for i in range(20) for j in range(3) for k in range(5)]
TREE = ["a", "b.c", "b/c", "b/d/e", "b/d/f", "src/core/k0.c", "src/core/k1.c", "src/s 0.c", "z/\u00e4/\u00f6.txt"]

# What happens, and its steps, after each of which the two records are compared. In a step `hg ..` runs the command, `+name` makes what
# folder.lay_out reads, `*name` puts another text into a file, `!name` makes it executable, `@` gives each file a time of its own in the
# past, and `-name` takes a file away.
CASES = [
    ("nothing", [[]]),
    ("a file added", [["+a", "hg add a"], ["hg forget a"]]),
    ("nested files added", [[*(f"+{it}" for it in TREE), "hg add"]]),
    ("by bytes and not by the tree", [["+a.c", "+a/b", "+a0", "+a-b", "hg add"], ["hg commit -m one"]]),
    ("committed, and seen clean", [[*(f"+{it}" for it in TREE), "hg add"], ["hg commit -m one"], ["@", "hg status"], ["*a", "hg status"]]),
    ("executable and linked files", [["+a", "+x", "!x", "+d/y", "!d/y", "+l -> a", "+d/m -> gone", "hg add"], ["hg commit -m one", "@", "hg status"]]),
    ("removed", [[*(f"+{it}" for it in TREE), "hg add", "hg commit -m one"], ["hg remove a b/d/e"], ["hg forget b.c"], ["hg add b.c"]]),
    ("copied while added", [["+a", "+d/b", "hg add", "hg commit -m one"], ["hg copy a e/f/a"], ["hg copy d/b 0"], ["hg copy a d/c"]]),
    ("renamed", [["+a", "+d/b", "+d/c", "hg add", "hg commit -m one"], ["hg rename a z"], ["hg rename d e"], ["hg commit -m two"]]),
    ("300 files", [[*(f"+{it}" for it in MANY), "hg add"], ["hg commit -m one", "@", "hg status"], [f"hg remove {MANY[7]} {MANY[205]}"]]),
    ("odd names", [["+ a", "+b ", "+c'\"", "+\u20ac", "+-x", "+[y]", "hg add", "hg commit -m one"], ["hg copy \u20ac 0"]]),
    ("a large file", [["+a", "#a", "hg add a", "hg commit -m one", "@", "hg status"]]),
    (
        "a merge",
        [
            ["+a", "+b", "+d/c", "hg add", "hg commit -m one", "*a", "+d/n", "hg add d/n", "hg commit -m two"],
            ["hg update 0", "%a", "*b", "+m", "hg add m", "hg commit -m three", "@", "hg status"],
            ["hg merge --tool :local 1"],
            ["hg copy d/n d/o"],
            ["hg commit -m four", "@", "hg status"],
        ],
    ),
    ("a merge that takes the other side", [["+a", "hg add", "hg commit -m one", "+b", "hg add b", "hg commit -m two"], ["hg update 0", "+c", "hg add c", "hg commit -m three", "hg merge 1"]]),
]


def act(tests, root, what, action):
    """Does one action of a step; where `hg` refuses it, that is a failure of the case."""
    path = os.path.join(root, action[1:])
    if action.startswith("hg "):
        ran = hg(root, *action[3:].split(" "))
        if ran.returncode:
            tests.compare(f"record: {what}: {action}", ran.stderr, b"")
    elif action.startswith("+"):
        lay_out(root, [action[1:]])
    elif action.startswith("*"):
        put(path, b"another text\n")
    elif action.startswith("%"):
        put(path, b"a third text\n")
    elif action.startswith("#"):
        put(path, b"0123456789" * 123_456)
    elif action.startswith("!"):
        os.chmod(path, 0o755)
    elif action.startswith("@"):
        age(root)
    else:
        os.remove(path)


def age(root):
    """Gives each file below the root, links too, a time of its own in the past."""
    number = 0
    for at, folders, files in os.walk(root):
        if ".hg" in folders:
            folders.remove(".hg")
        for name in sorted(files):
            number += 1
            nanos = (1_600_000_000 + number) * 10**9 + 7 * number
            os.utime(os.path.join(at, name), ns=(nanos, nanos), follow_symlinks=False)


LINE = re.compile(r"(?P<state>[armn]) (?P<mode>[-fxl]) (?P<size>-|\d+) (?P<time>-|\d+\.\d{9}~?) (?P<path>.*)")
THEIRS = re.compile(r"(?P<state>[armn]) (?P<mode>lnk|[ 0-7]{3}) +(?P<size>-?\d+) (?P<time>unset {15}|\S+ \S+ )(?P<path>.*)")
MODES = {"lnk": "l", "755": "x", "644": "f"}


def ours(text):
    """The parents, the entries and the copies that this program prints; the times in whole seconds, and apart from them the whole times.
    A time that may be that of several contents is left out, as Mercurial shows it as unset."""
    parents, entries, copies, times = [], [], [], {}
    for line in text.decode().splitlines():
        if line[:3] in ("p1 ", "p2 "):
            parents.append(line[3:])
        elif line.startswith("copy: "):
            copies.append(line)
        elif not line.startswith("d "):
            it = LINE.fullmatch(line)
            if it is None:
                return line
            if it["time"] != "-":
                times[it["path"]] = it["time"]
            at = "-" if it["time"].endswith("~") else it["time"].split(".")[0]
            entries.append((it["state"], it["mode"], it["size"], at, it["path"]))
    return parents, entries, sorted(copies), times


def theirs(text):
    """The entries and the copies that Mercurial prints. It shows a removed file with zeros, and sizes below zero where it knows none."""
    entries, copies = [], []
    for line in text.decode().splitlines():
        if line.startswith("copy: "):
            copies.append(line)
            continue
        it = THEIRS.fullmatch(line)
        if it is None:
            return line
        known = it["state"] != "r" and int(it["size"]) >= 0
        at = "-"
        if it["state"] != "r" and it["time"].strip() != "unset":
            at = str(calendar.timegm(time.strptime(it["time"].strip(), "%Y-%m-%d %H:%M:%S")))
        entries.append((it["state"], MODES[it["mode"]] if known else "-", it["size"] if known else "-", at, it["path"]))
    return entries, sorted(copies)


def compare(tests, root, what):
    """The two records are the same, and a whole time is that of the file, where it has that second still."""
    status, out, err = tests.run(root, ["debugdirstate"])
    told = ours(out)
    wanted = theirs(hg(root, "debugstate").stdout)
    parents = hg(root, "parents", "--template", "{node}\n").stdout.decode().split()
    parents += [NULL] * (2 - len(parents))
    if isinstance(told, str) or isinstance(wanted, str):
        tests.compare(f"record: {what}: a line", (told, status, err), wanted)
        return
    tests.compare(f"record: {what}", (status, err, *told[:3], is_v2(root)), (0, b"", parents, *wanted, True))
    at, files = {}, {}
    for path, whole in told[3].items():
        nanos = os.lstat(os.path.join(root, path)).st_mtime_ns if os.path.lexists(os.path.join(root, path)) else 0
        if nanos // 10**9 == int(whole.split(".")[0]):
            at[path], files[path] = whole.rstrip("~"), f"{nanos // 10**9}.{nanos % 10**9:09}"
    tests.compare(f"record: {what}: times", at, files)
    return len(at)


def run_case(tests, what, steps):
    timed = 0
    with tests.working_copy() as root:
        made = hg(root, "init")
        if made.returncode:
            tests.compare(f"record: {what}: init", made.stderr, b"")
            return 0
        for number, step in enumerate(steps, 1):
            for action in step:
                act(tests, root, what, action)
            timed += compare(tests, root, f"{what}: step {number}") or 0
    return timed


def run_written(tests):
    """Records that no `hg` is needed for: the deepest path, and many."""
    deep = b"/".join([b"a"] * 2_048)
    many = sorted(b"d%03d/e%d/f%02d.c" % (i, j, k) for i in range(40) for j in range(5) for k in range(50))
    for what, paths in (("the deepest path", [deep]), ("10,000 files", many)):
        with tests.working_copy() as root:
            put_record(root, *written(paths))
            wanted = lines(f"p1 {NULL}", f"p2 {NULL}") + b"".join(b"a - - - %s\n" % it for it in paths)
            tests.check(f"record: {what}", root, wanted, b"", ["debugdirstate"])


def run(tests):
    run_written(tests)
    if shutil.which("hg") is None:
        tests.skip("the command hg is not installed, so no record of Mercurial's own was read")
        return
    os.environ["TZ"] = "UTC"
    timed = sum(run_case(tests, what, steps) for what, steps in CASES)
    # (that times were compared at all)
    tests.compare("record: some times were recorded", timed > 300, True)
