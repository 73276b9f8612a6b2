"""The lock of a working copy where its file is another host's, another user's or a dead process's, where a file system doesn't tell one host what another has locked, and
where it has no such locks at all."""

import errno
import fcntl
import os
import re
from contextlib import contextmanager

from calls import Lacking, has_gcc, let_go, watched
from folder import DEAD, NOBODY, as_nobody, further, holder, host, lay_out, ours, put, seen
from saving import added, read, told
from shared import give
from times import many_files, stamps_of
from turns import LOCKED

DONE = (0, b"", b"")


def held_by(name):
    return LOCKED + further(f".hg/wlock is held by {name}: remove it where no process there has it any more")


# what the lock's file says that nobody has locked, and which host is told; none where it is a lock of Mercurial's own, of which no more is said
HELD = [
    ("another host's", b"otherhost/f0000001:1234 ", "otherhost"),
    ("another host's, spaces behind", b"otherhost/f0000001:12      ", "otherhost"),
    ("another host's without a namespace", b"otherhost:99 ", "otherhost"),
    ("a host's whose name begins as this one's", host() + b"x/1:1 ", os.fsdecode(host()) + "x"),
    ("a name that isn't text", b"other\xffhost/1:1 ", "other\\xffhost"),
    ("a name with control bytes", b"o\nt\rh\x1be\x7fr/1:1 ", "o\\x0at\\x0dh\\x1be\\x7fr"),
    ("Mercurial's own", b"otherhost/f0000001:1234", None),
    ("Mercurial's own of this host", holder(DEAD), None),
    ("more than a holder has", b"otherhost/f0000001:1".ljust(256), None),
]

# what it says where the lock is free
FREE = [
    ("of a dead process", ours()),
    ("of another namespace", host() + b"/1:1234 "),
    ("without a namespace", host() + b":99 "),
    ("of nobody", b""),
]


def lay(root, text=None):
    """A working copy with files that aren't tracked yet, and the lock's file."""
    lay_out(root, [".hg/", "a", "b"])
    if text is not None:
        put(f"{root}/.hg/wlock", text)


def text_of(root):
    """What the lock's file says, where it is there."""
    return read(f"{root}/.hg/wlock") if os.path.isfile(f"{root}/.hg/wlock") else None


def left(root):
    return sorted(it for it in os.listdir(f"{root}/.hg") if it.startswith("wlock"))


def run_hosts(tests):
    """What nobody on this host has locked may be locked on another one, whose locks of a file this host may not see: it is left, and told."""
    for what, text, name in HELD:
        with tests.working_copy() as root:
            lay(root, text)
            before = seen(root)
            answer = (255, b"", held_by(name) if name else LOCKED)
            tests.compare(f"the lock's file, {what}: add", (tests.run(root, ("add", "a")), seen(root) == before), (answer, True))
        with tests.working_copy() as root:
            many_files(root, ["a", "b"])
            put(f"{root}/.hg/wlock", text)
            ran = tests.run(root, ("status", "-c"))
            tests.compare(f"the lock's file, {what}: status", (ran, text_of(root), stamps_of(tests, root)), ((0, b"C a\nC b\n", b""), text, []))
    with tests.working_copy() as root:
        lay(root)
        put(f"{root}/.hg/wlock-new", b"otherhost/1:1 ")
        before = seen(root)
        answer = LOCKED + further(".hg/wlock-new is held by otherhost: remove it where no process there has it any more")
        tests.compare("another host's file before it has the lock's name: add", (tests.run(root, ("add", "a")), seen(root) == before), ((255, b"", answer), True))
    for what, text in FREE:
        with tests.working_copy() as root:
            lay(root, text)
            tests.compare(f"the lock's file, {what}: add", (tests.run(root, ("add", "a")), left(root)), (DONE, []))


@contextmanager
def locked(path):
    """Holds the system's lock on a file."""
    with open(path, "rb") as file:
        fcntl.flock(file, fcntl.LOCK_EX)
        yield


def number_where(watcher, root, words, fits, env=None, **given):
    """The number of the first call that fits, by its name and the last one of its path, as calls.c counts them in this folder; none where there is none."""
    rows = watcher.listed(root, words, env, **given)[1]
    return next((number for number, it in enumerate(rows, 1) if fits(it.partition(" ")[0], os.path.basename(it))), None)


def in_like(tests, number, *lay_words):
    """That number, in a folder of its own that is laid out alike."""
    with tests.working_copy() as root:
        lay(root, *lay_words)
        return number(root)


def is_link(call, name):
    return call in ("link", "linkat")


def is_rename(call, name):
    return call.startswith("rename") and name == "dirstate-new"


def run_exchanged(tests, watcher):
    """Where no host sees what another has locked: the file that is about to be the lock is exchanged for that of another process before it gets the lock's name."""
    rows = [("of another host", b"otherhost/1:1 ", (255, b"", held_by("otherhost"))), ("that is locked", ours(), (255, b"", LOCKED)), ("of a dead process", ours(), DONE)]
    for what, text, wanted in rows:
        number = in_like(tests, lambda root: number_where(watcher, root, ["add", "a"], is_link))
        with tests.working_copy() as root:
            lay(root)
            at = watcher.held(root, ["add", "a"], number)
            os.remove(f"{root}/.hg/wlock-new")
            put(f"{root}/.hg/wlock-new", text)
            if what == "that is locked":
                with locked(f"{root}/.hg/wlock-new"):
                    answer = let_go(at)
            else:
                answer = let_go(at)
            tests.compare(f"the lock's file exchanged for one {what}", (answer, text_of(root)), (wanted, None if wanted == DONE else text))
            tests.compare(f"the lock's file exchanged for one {what}: what is tracked", tests.run(root, ("debugdirstate",)), (0, told(added("a") if wanted == DONE else {}), b""))


def run_breaks(tests):
    """The lock under which a dead process's is taken away, of a process that was stopped in the midst of that."""
    rows = [
        ("a dead one's", holder(DEAD), True), ("a live one's", holder(os.getpid()), False), ("another host's", b"otherhost/1:%d" % DEAD, False),
        ("another namespace's", b"%b/1:%d" % (host(), DEAD), False), ("no process's", b"somebody", False),
    ]
    for what, text, is_free in rows:
        with tests.working_copy() as root:
            lay(root, ours())
            os.symlink(text, os.fsencode(f"{root}/.hg/wlock.break"))
            ran = tests.run(root, ("add", "a"))
            said = ran[:2], ran[2][:len(LOCKED)]
            tests.compare(f"a lock that is taken away under {what}: add", (said, left(root)), ((DONE[:2], b""), []) if is_free else (((255, b""), LOCKED), ["wlock", "wlock.break"]))
        with tests.working_copy() as root:
            lay(root)
            os.symlink(text, os.fsencode(f"{root}/.hg/wlock.break"))
            tests.compare(f"no lock, beside {what} under which one is taken away: add", (tests.run(root, ("add", "a")), left(root)[:1]), (DONE, [] if is_free and not left(root) else ["wlock.break"]))


def run_users(tests):
    """What another user left, which may only be read."""
    if os.geteuid() != 0:
        tests.skip("another user's files can't be made: nothing was left by one")
        return
    for name in ("wlock", "wlock-new"):
        for text in (ours(), b""):
            with tests.working_copy() as root:
                many_files(root, ["a", "b"])
                lay_out(root, ["y"])
                give(root, NOBODY)
                for words in (("status", "-m"), ("add", "y")):
                    put(f"{root}/.hg/{name}", text)
                    os.chmod(f"{root}/.hg/{name}", 0o644)
                    os.chown(f"{root}/.hg/{name}", 0, 0)
                    tests.compare(f"another user's {name} {text!r}: {' '.join(words)}", (tests.run(root, words, **as_nobody()), left(root)), (DONE, []))
                tests.compare(f"another user's {name} {text!r}: the times", stamps_of(tests, root), ["a", "b"])
        with tests.working_copy() as root:
            lay(root)
            give(root, NOBODY)
            put(f"{root}/.hg/{name}", ours(os.getpid()))
            with locked(f"{root}/.hg/{name}"):
                before = seen(root)
                tests.compare(f"another user's {name} that is locked: add", (tests.run(root, ("add", "a"), **as_nobody()), seen(root) == before), ((255, b"", LOCKED), True))


def run_linked(tests):
    """The lock's file is another file by a second name: that one's bytes stay."""
    for text in (ours(), b""):
        with tests.working_copy() as root:
            lay(root)
            put(f"{root}/mine", text)
            os.link(f"{root}/mine", f"{root}/.hg/wlock")
            tests.compare(f"the lock's file with another name, {text!r}: add", (tests.run(root, ("add", "a")), left(root), read(f"{root}/mine")), (DONE, [], text))


def run_lacking(tests, watcher):
    """Where only a file that is open for writing can be locked, and where none can."""
    lacking = Lacking(tests)
    readers = "flock-read", errno.EBADF
    for what, name, text in [("nothing", None, b""), ("a file before its name", "wlock-new", b""), ("a dead one's", "wlock", ours()), ("one that was stopped at its name", "both", ours())]:
        with tests.working_copy() as root:
            lay(root)
            if name == "both":
                put(f"{root}/.hg/wlock-new", text)
                os.link(f"{root}/.hg/wlock-new", f"{root}/.hg/wlock")
            elif name:
                put(f"{root}/.hg/{name}", text)
            tests.compare(f"locks for writers alone, {what} left: add", (lacking.run(root, ("add", "a"), *readers), left(root)), (DONE, []))
    # (beside the first file of another user's process that may not be opened for writing the lock is had as a link, which keeps that one out)
    for name, answer in (("wlock", (255, b"", LOCKED)), ("wlock-new", DONE)):
        with tests.working_copy() as root:
            lay(root)
            put(f"{root}/.hg/{name}", ours(os.getpid()))
            given = {}
            if os.geteuid() == 0:
                give(root, NOBODY)
                os.chown(f"{root}/.hg/{name}", 0, 0)
                given = as_nobody()
            with locked(f"{root}/.hg/{name}"):
                answered = lacking.run(root, ("add", "a"), *readers, **given)
                tests.compare(f"locks for writers alone, {name} is locked: add", (answered, left(root)), (answer if given else (255, b"", LOCKED), [name]))
    for error in errno.ENOLCK, errno.EOPNOTSUPP, errno.ENOSYS:
        run_without(tests, lacking, watcher, error)


def run_without(tests, lacking, watcher, error):
    """Where no file can be locked Mercurial's own kind of lock serves."""
    what, env = f"no locks, {errno.errorcode[error]}", lacking.env("flock", error)
    with tests.working_copy() as root:
        lay(root)
        tests.compare(f"{what}: add", (lacking.run(root, ("add", "a"), "flock", error), left(root), tests.run(root, ("debugdirstate",))), (DONE, [], (0, told(added("a")), b"")))
        os.symlink(holder(os.getpid()), os.fsencode(f"{root}/.hg/wlock"))
        before = seen(root)
        ran = lacking.run(root, ("add", "b"), "flock", error)
        tests.compare(f"{what}: a lock that a process has: add", (ran[:2], ran[2].startswith(LOCKED), seen(root) == before), ((255, b""), True, True))
    with tests.working_copy() as root:
        many_files(root, ["a", "b"])
        ran = lacking.run(root, ("status", "-c"), "flock", error)
        tests.compare(f"{what}: status", (ran, left(root), stamps_of(tests, root)), ((0, b"C a\nC b\n", b""), [], ["a", "b"]))
    for name, text in [("wlock", ours()), ("wlock-new", ours()), ("wlock-new", b"")]:
        with tests.working_copy() as root:
            lay(root)
            put(f"{root}/.hg/{name}", text)
            ran = lacking.run(root, ("add", "a"), "flock", error)
            # (of a file that tells nobody it isn't known whether it is in use, and it is in nobody's way)
            tests.compare(f"{what}: a file {name} {text!r}: add", (ran, [it for it in left(root) if text]), (DONE, []))
    for name, text in [("wlock", ours(os.getpid())), ("wlock", b"otherhost/1:1 "), ("wlock", b"%b/1:%d " % (host(), DEAD))]:
        with tests.working_copy() as root:
            lay(root)
            put(f"{root}/.hg/{name}", text)
            before = seen(root)
            ran = lacking.run(root, ("add", "a"), "flock", error)
            tests.compare(f"{what}: a file {name} {text!r}, which may be in use: add", (ran[:2], ran[2][:len(LOCKED)], seen(root) == before), ((255, b""), LOCKED, True))
    if watcher is not None:
        run_held_without(tests, watcher, what, lacking.env("flock", error))


def run_held_without(tests, watcher, what, env):
    """What is seen of such a lock while a command has it; and two commands that find a dead process's file at the same time."""
    number = in_like(tests, lambda root: number_where(watcher, root, ["add", "a"], is_rename, env))
    if not tests.compare(f"{what}: a record is saved", number is not None, True):
        return
    with tests.working_copy() as root:
        lay(root)
        at = watcher.held(root, ["add", "a"], number, env)
        path = os.fsencode(f"{root}/.hg/wlock")
        link = os.readlink(path) if os.path.islink(path) else b""
        found = re.fullmatch(re.escape(holder(0)[:-1]) + rb"([0-9]+)", link)
        lives = bool(found) and os.path.exists(b"/proc/" + found[1])
        other = tests.run(root, ("add", "b"))
        tests.compare(f"{what}: while it is held: {link}", (bool(found), lives, other[:2], other[2].startswith(LOCKED), let_go(at), left(root)), (True, True, (255, b""), True, DONE, []))
    run_two_without(tests, watcher, what, env)


def run_two_without(tests, watcher, what, env):
    """One is held before each of its calls on the lock's file of a dead process; another one does the same, and is held while it has the lock: the first doesn't get it."""
    with tests.working_copy() as root:
        lay(root, ours())
        rows = watcher.listed(root, ["add", "b"], env)[1]
    number = in_like(tests, lambda root: number_where(watcher, root, ["add", "a"], is_rename, env), ours())
    numbers = [at for at, it in enumerate(rows, 1) if "wlock" in os.path.basename(it) and at < len(rows) // 2]
    wrong = []
    for first in numbers:
        with tests.working_copy() as root:
            lay(root, ours())
            one = watcher.held(root, ["add", "b"], first, env)
            try:
                other = watcher.held(root, ["add", "a"], number, env)
            except AssertionError:
                # (the first one has the lock already, or what is needed for it)
                ran = let_go(one)
                wrong += [] if ran == DONE else [(first, rows[first - 1], ran)]
                continue
            ran = let_go(one)
            ended = let_go(other)
            tracked = tests.run(root, ("status", "-a", "-n"))[1]
            wrong += [] if ran[:2] == (255, b"") and ran[2].startswith(LOCKED) and ended == DONE and tracked == b"a\n" else [(first, rows[first - 1], ran, ended, tracked)]
    tests.compare(f"{what}: two find a dead one's file, one is held at {len(numbers)} calls", wrong[:2], [])


def run(tests):
    run_hosts(tests)
    run_breaks(tests)
    run_users(tests)
    run_linked(tests)
    watcher = watched(tests, "so no lock's file was exchanged, and none seen while it is held")
    if watcher is not None:
        run_exchanged(tests, watcher)
    if has_gcc(tests, "so no file system lacked locks"):
        run_lacking(tests, watcher)
