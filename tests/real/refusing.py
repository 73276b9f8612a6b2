"""What `add` and `forget` refuse over real files, each by its line, with the record as it was byte for byte; words from a folder below the
root; and the rights of what they write."""

import fcntl
import os
import resource
import shutil
import signal
import stat

from dirstate import written
from folder import OUTSIDE, aborted, as_nobody, because, further, holder, lay_out, lines, no_flag, ours, put, put_record, seen
from saving import told

GOOD, DATA = written([b"a", b"d/b"])
DATA_FILE, DATA_NEXT = (f"dirstate.{it:016x}" for it in (0, 1))
LOCKED = aborted("working copy is locked")

# the words, and what is said of them
WORDS = [
    (["add", "d"], "add d: not a file"),
    (["add", "gone"], "add gone: no such file"),
    (["add", "d/gone"], "add d/gone: no such file"),
    (["add", "new/below"], "add new/below: no such file"),
    (["add", "p"], "add p: not a file"),
    (["add", ".hg/dirstate"], "add .hg/dirstate: bad path"),
    (["add", "sub/.hg/x"], "add sub/.hg/x: no such file"),
    (["add", "a/below"], "add a/below: no such file"),
    (["forget", "new"], "forget new: not tracked"),
    (["forget", "d"], "forget d: not tracked"),
    (["forget", "gone"], "forget gone: not tracked"),
    (["forget", ".hg/dirstate"], "forget .hg/dirstate: bad path"),
]

NO_HELP = lines("abort: wrong arguments") + further("add --help takes no other word")

# what is wrong with the record, the docket, the data, the line
DAMAGED = [
    ("the docket's marker", b"D" + GOOD[1:], DATA, "dirstate: marker differs at byte 0"),
    ("a docket that is short", GOOD[:-1], DATA, "dirstate: 140 bytes where 141 are needed"),
    ("no data file", GOOD, None, f"dirstate data gone: {0:016x}"),
    ("data that are short", GOOD, DATA[:-1], f"dirstate data: {len(DATA) - 1} bytes where {len(DATA)} are used"),
]


def recorded(root):
    """All that stands in `.hg`: the bytes, rights and times of each file. (A folder's own time changes with the lock.)"""
    return {path: it for path, it in seen(f"{root}/.hg").items()}


def refused(tests, what, root, words, answer, **how):
    """One case: the program answers this, and leaves `.hg` as it was."""
    before = recorded(root)
    got = tests.run(root, words, **how)
    tests.compare(f"{what}: {' '.join(words)}", (*got, recorded(root) == before), (*answer, True))


def lay_some(root):
    lay_out(root, ["a", "d/b", "new", "p |", "sub/x", "l -> a"])
    put_record(root, GOOD, DATA)


def run_words(tests):
    for words, line in WORDS:
        with tests.working_copy() as root:
            lay_some(root)
            refused(tests, "refused", root, words, (1, b"", lines(line)))
    with tests.working_copy() as root:
        lay_some(root)
        refused(tests, "tracked already", root, ["add", "a", "d/b"], (0, b"", b""))
        refused(tests, "a path out of the root", root, ["add", "../x"], (1, b"", lines("add ../x: bad path") + further(OUTSIDE)))
        longest = "b" + "/aaa" * 1_021 + "a" * 61_450
        refused(tests, "the longest path", root, ["add", longest], (1, b"", lines(f"add {longest}: no such file")))
        refused(tests, "a byte longer", root, ["add", f"{longest}a"], (1, b"", lines(f"add {longest}a: bad path")))
        refused(tests, "a byte longer", root, ["forget", f"{longest}a"], (1, b"", lines(f"forget {longest}a: bad path")))
        os.remove(f"{root}/a")
        lay_out(root, ["a/below"])
        refused(tests, "below what is tracked", root, ["add", "a/below"], (1, b"", lines("add a/below: clashes with a")))
        shutil.rmtree(f"{root}/d")
        lay_out(root, ["d"])
        refused(tests, "above what is tracked", root, ["add", "d"], (1, b"", lines("add d: clashes with d/b")))
        answer = tests.run(root, ("add", "gone", "new", "d", "l"))
        now = tests.run(root, ("debugdirstate",))
        tests.compare("those that can be added are", (answer, now), ((1, b"", lines("add gone: no such file", "add d: clashes with d/b")), (0, told(dict.fromkeys(["a", "d/b", "l", "new"], "a")), b"")))


def run_locked(tests):
    """Another process has the lock of the system, or what stands at its name is no file."""
    with tests.working_copy() as root:
        lay_some(root)
        with open(f"{root}/.hg/wlock", "wb") as lock:
            fcntl.flock(lock, fcntl.LOCK_EX)
            refused(tests, "the lock is held", root, ["add", "new"], (255, b"", LOCKED))
            refused(tests, "the lock is held", root, ["forget", "a"], (255, b"", LOCKED))
            tests.compare("and a status doesn't mind", tests.run(root, ("status", "-a")), (0, lines("A a", "A d/b"), b""))
        tests.compare("and then it is free", tests.run(root, ("add", "new")), (0, b"", b""))
    with tests.working_copy() as root:
        lay_some(root)
        with open(f"{root}/.hg/wlock", "wb") as lock:
            lock.write(ours())
        os.symlink(holder(os.getpid()), os.fsencode(f"{root}/.hg/wlock.break"))
        tests.compare("Mercurial is about to take away the lock of a dead process", tests.run(root, ("add", "new")), (255, b"", LOCKED))
        os.remove(f"{root}/.hg/wlock.break")
        tests.compare("and then it is free", (tests.run(root, ("add", "new")), os.path.lexists(f"{root}/.hg/wlock")), ((0, b"", b""), False))
    with tests.working_copy() as root:
        lay_some(root)
        lay_out(root, [".hg/wlock/"])
        refused(tests, "a folder as the lock", root, ["add", "new"], (255, b"", aborted(".hg failed") + because(".hg/wlock", "not a regular file")))


def run_damaged(tests):
    for what, docket, data, line in DAMAGED:
        for words in (["add", "new"], ["forget", "a"], ["add", "gone"]):
            with tests.working_copy() as root:
                lay_some(root)
                os.remove(f"{root}/.hg/{DATA_FILE}")
                put_record(root, docket, data)
                refused(tests, what, root, words, (255, b"", aborted(line)))


def files_of(most):
    """No file may be of more bytes: a write ends there, and the next one fails, in place of a signal."""

    def small_files():
        signal.signal(signal.SIGXFSZ, signal.SIG_IGN)
        resource.setrlimit(resource.RLIMIT_FSIZE, (most, most))

    return small_files


# the command, how many bytes a file may have, the file of which that isn't enough, and how many it then has
NO_ROOM = [
    (["add", "new"], 0, "wlock", 0),
    (["forget", "a"], 0, "wlock", 0),
    (["add", "new"], 100, DATA_NEXT, 100),
    (["add", "new", "l"], 100, DATA_NEXT, 100),
    # (the data where `a` alone is tracked have 45 bytes, and the docket 141)
    (["forget", "d/b"], 100, "dirstate-new", 100),
]


def contents(root):
    """The bytes of each file in `.hg`."""
    found = {}
    for name in os.listdir(f"{root}/.hg"):
        with open(f"{root}/.hg/{name}", "rb") as file:
            found[name] = file.read()
    return found


def run_rights(tests):
    """The system refuses to make, or to write."""
    with tests.working_copy() as root:
        lay_some(root)
        os.chmod(f"{root}/.hg", 0o555)
        refused(tests, ".hg may only be read", root, ["add", "new"], (255, b"", aborted(".hg failed") + because(".hg/wlock", "permission denied")), **as_nobody())
        os.chmod(f"{root}/.hg", 0o755)
    for words, most, name, part in NO_ROOM:
        with tests.working_copy() as root:
            lay_some(root)
            before = contents(root)
            shown = tests.run(root, ("debugdirstate",))
            got = tests.run(root, words, preexec_fn=files_of(most))
            left = contents(root)
            same = all(left.get(it) == content for it, content in before.items())
            case = f"no file of more than {most} bytes: {' '.join(words)}"
            tests.compare(case, (got, same, tests.run(root, ("debugdirstate",))), ((255, b"", aborted(".hg failed") + because(f".hg/{name}", "file too large")), True, shown))
            tests.compare(f"{case}: what is left behind", (set(left) - set(before) <= {DATA_NEXT, name}, len(left.get(name, b""))), (True, part))
            tests.compare(f"{case}: and then there is room", (tests.run(root, words), sorted(contents(root))), ((0, b"", b""), ["dirstate", DATA_NEXT]))


def mode(path):
    return stat.S_IMODE(os.lstat(path).st_mode)


def run_modes(tests):
    """A first record may be read and written by whom `.hg` may be, whatever the user's mask, and an old docket's rights are kept."""
    for mask in (0o022, 0o077, 0o002, 0o000):
        with tests.working_copy() as root:
            lay_out(root, [".hg/", "a"])
            got = tests.run(root, ("add", "a"), preexec_fn=lambda: os.umask(mask))
            made = [mode(f"{root}/.hg/{name}") for name in ("dirstate", DATA_FILE)]
            tests.compare(f"the rights of a first record, mask {mask:03o}", (got[0], made), (0, 2 * [mode(f"{root}/.hg") & 0o666]))
    for kept in (0o600, 0o640, 0o664, 0o444):
        with tests.working_copy() as root:
            lay_some(root)
            os.chmod(f"{root}/.hg/dirstate", kept)
            got = tests.run(root, ("add", "new"))
            tests.compare(f"rights {kept:03o} are kept", (got[0], mode(f"{root}/.hg/dirstate")), (0, kept))


def outside(root):
    """All that stands beside `.hg`."""
    return {path: it for path, it in seen(root).items() if not (path + b"/").startswith(os.fsencode(f"{root}/.hg/"))}


def run_outside(tests):
    with tests.working_copy() as room:
        root = f"{room}/root"
        lay_some(root)
        lay_out(room, ["beside", "other/.hg/x"])
        before = outside(root), {path: it for path, it in seen(room).items() if b"/root" not in path}
        for words in (["add", "new", "l", "gone", "d"], ["forget", "a", "new"], ["add", "a"], ["forget", "x"]):
            tests.run(root, words)
        after = outside(root), {path: it for path, it in seen(room).items() if b"/root" not in path}
        tests.compare("nothing is written beside .hg", after == before, True)
        tests.compare("and in it the record alone", sorted(os.listdir(f"{root}/.hg")), ["dirstate", f"dirstate.{3:016x}"])


def run_below(tests):
    """Words are told from the folder in which the user stands."""
    with tests.working_copy() as root:
        lay_out(root, [".hg/", "sub/f", "sub/g", "h", "f", "sub/deep/i", "other/j"])
        for words in (["add", "f", "./g", "../h"], ["add", "../other/j"]):
            tests.compare(f"from a folder below: {' '.join(words)}", tests.run(f"{root}/sub", words), (0, b"", b""))
        now = tests.run(root, ("debugdirstate",))
        tests.compare("from a folder below: what is tracked", now, (0, told(dict.fromkeys(["h", "other/j", "sub/f", "sub/g"], "a")), b""))
        for word, path, behind in (("../../x", "../../x", further(OUTSIDE)), ("deep/../f", "sub/deep/../f", b"")):
            tests.compare(f"from a folder below: add {word}", tests.run(f"{root}/sub", ("add", word)), (1, b"", lines(f"add {path}: bad path") + behind))
        tests.compare("from a folder below: forget", tests.run(f"{root}/sub/deep", ("forget", "../f", "../../h")), (0, b"", b""))
        now = tests.run(f"{root}/sub", ("debugdirstate",))
        tests.compare("from a folder below: what is left", now, (0, told(dict.fromkeys(["other/j", "sub/g"], "a")), b""))
        tests.compare("from a folder below: no other .hg", [os.path.isdir(f"{root}/{it}/.hg") for it in ("sub", "sub/deep")], 2 * [False])


# from which folder, the words with a dash in front, alone or beside others, and what is said of them
DASHED = [
    (at, words, said)
    for at in ("", "sub", "sub/deep")
    for words, said in (
        (["forget", "--"], aborted("wrong arguments")), (["add", "-x"], no_flag("add", "-x")), (["add", "x", "-x"], no_flag("add", "-x")), (["forget", "x", "-y"], no_flag("forget", "-y")),
        (["add", "--version"], no_flag("add", "--version")), (["add", "x", "--help"], NO_HELP), (["add", "--help", "x"], NO_HELP),
    )
]
# files whose names begin with a dash, or that stand below such a folder, told so that no word is a flag
TELLS_DASHED = [
    ("", ["add", "./-x"]), ("sub", ["add", "../-x"]), ("sub", ["forget", "../-d/x"]), ("-d", ["add", "x"]), ("-d", ["add", "./x"]),
    ("", ["forget", "--", "-x", "--"]), ("sub", ["add", "x", "--", "-x", "deep/-x"]), ("", ["add", "--", "--"]), ("sub", ["add", "--", "--help"]), ("sub/deep", ["forget", "./../--"]),
]


def run_dashed(tests):
    """A word with a dash in front is a flag before `--`, in every folder, and behind it a file."""
    with tests.working_copy() as root:
        lay_out(root, ["x", "-x", "--", "--help", "sub/x", "sub/-x", "sub/--", "sub/--help", "sub/deep/x", "sub/deep/-x", "-d/x"])
        put_record(root, *written([b"--", b"--help", b"-d/x", b"-x", b"sub/--", b"sub/deep/x", b"sub/x", b"x"]))
        for at, words, said in DASHED:
            before = recorded(root)
            got = tests.run(os.path.join(root, at), words)
            tests.compare(f"with a dash in front, in {at or '.'}: {' '.join(words)}", (*got, recorded(root) == before), (255, b"", said, True))
        for at, words in TELLS_DASHED:
            tests.compare(f"a file with a dash in front, in {at or '.'}: {' '.join(words)}", tests.run(os.path.join(root, at), words), (0, b"", b""))
        tests.compare("which are tracked then", tests.run(root, ("status", "-an")), (0, lines("--", "--help", "-d/x", "sub/--help", "sub/-x", "sub/deep/-x", "sub/deep/x", "sub/x", "x"), b""))


# in which folder, and words behind `add` there: what they are told as from the root, as paths, and as none
TOLD = [
    ("", {"a": "a", "a/b": "a/b", "./a": "a", "././a/b": "a/b", "a b/ä€": "a b/ä€", ".a": ".a", "..a/b": "..a/b", ".../a": ".../a"},
     {"": "", ".": ".", "..": "..", "./": "", "../a": "../a", "./../a": "./../a", "/a": "/a", "./..": "..", ".//a": "/a", "a/../b": "a/../b",
     "a/": "a/"}),
    ("d", {"a": "d/a", "./a": "d/a", "../a": "a", "./.././a": "a"},
     {"../../a": "../../a", "..": "d/..", "../": "", "../..": ".."}),
    ("d/e", {"a": "d/e/a", "a/b": "d/e/a/b", "././a": "d/e/a", "../a": "d/a", ".././a": "d/a", "./../a/b": "d/a/b", "../../a": "a", ".a": "d/e/.a",
     "..a": "d/e/..a", ".../a": "d/e/.../a", "../.../..a/.a": "d/.../..a/.a"},
     {"": "", ".": "d/e/.", "..": "d/e/..", "../..": "d/..", "./": "d/e/", "../": "d/", "/a": "/a", "/": "/", "..//a": "d//a", "../../..": "..",
     "../../../a": "../../../a", "./../../../a": "./../../../a", "../.././../e/a": "../.././../e/a", "a/../b": "d/e/a/../b", "a/./b": "d/e/a/./b",
     "a//b": "d/e/a//b"}),
    ("d/e f", {"ä b": "d/e f/ä b"},
     {}),
    ("ä/€", {"../ö": "ä/ö"},
     {}),
    (".hg/store", {"../../a": "a"},
     {}),
    (".hg", {},
     {"a": ".hg/a"}),
]

# words in the folder `d/e`, some with a dash in front, and what is said of each: nothing is tracked; then `d/e/a` and `d/e/-a` are, and `d/b` and `d/e/--` stand there
SPELLED = [
    (["add", "add", "../forget", "", "../../../a"], ["add d/e/add: no such file", "add d/forget: no such file", "add : bad path", "add ../../../a: bad path"]),
    (["add", "-"], ["add d/e/-: no such file"]),
    (["add", "--", "-x", "./-y", "--z", "--"], [f"add d/e/{it}: no such file" for it in ("-x", "-y", "--z", "--")]),
    (["add", "a", "--", "../-x"], ["add d/e/a: no such file", "add d/-x: no such file"]),
    (["forget", "./a b", "a-"], ["forget d/e/a b: not tracked", "forget d/e/a-: not tracked"]),
    (["remove", "a"], ["remove d/e/a: not tracked"]),
    (["remove", "a", "-A", "b", "--after", "-AA", "--", "-A"], [f"remove d/e/{it}: not tracked" for it in ("a", "b", "-A")]),
    (["copy", "a", "../b"], ["copy d/e/a: not tracked"]),
]
COPIED = [(["copy", "a", "../b"], ["copy d/b: exists"]), (["copy", "--", "-a", "--"], ["copy d/e/--: exists"])]


def refusals(tests, root, words):
    """The lines of refused words, without what is said of what to do."""
    status, out, err = tests.run(root, words)
    return status, out, [it for it in err.decode().splitlines() if not it.startswith("hgtrack: ")]


def run_told(tests):
    """What each word is told as, by the line that refuses it: as a path where nothing stands, or as none."""
    with tests.working_copy() as root:
        lay_out(root, [".hg/store/", "d/e/", "d/e f/", "ä/€/"])
        for folder, paths, others in TOLD:
            for words, reason in ((paths, "no such file"), (others, "bad path")):
                for word, path in words.items():
                    got = refusals(tests, os.path.join(root, folder), ("add", word))
                    tests.compare(f"told from {folder or '.'}: add {word}", got, (1, b"", [f"add {path}: {reason}"]))
        for words, said in SPELLED:
            tests.compare(f"told from d/e: {' '.join(words)}", refusals(tests, f"{root}/d/e", words), (1, b"", said))
        lay_out(root, ["d/e/a", "d/e/-a", "d/e/--", "d/b"])
        put_record(root, *written([b"d/e/-a", b"d/e/a"]))
        for words, said in COPIED:
            tests.compare(f"told from d/e: {' '.join(words)}", refusals(tests, f"{root}/d/e", words), (1, b"", said))


def run(tests):
    for part in (run_words, run_locked, run_damaged, run_rights, run_modes, run_outside, run_below, run_dashed, run_told):
        part(tests)
