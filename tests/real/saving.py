"""Saving the record, anew and behind the data file that stands, stopped before and after each call below `.hg`, and with each of these calls failing: the record is
then as it was before or as it is after, and the next command succeeds."""

import errno
import os
import re
import shutil
import tempfile
import time

from calls import ERRORS, Calls, has_gcc, watched
from dirstate import NULL, P1_TRACKED, WDIR_TRACKED, docket, written
from folder import FILES, MEMORY, aborted, because, lay_out, limited, lines, ours, put, put_record

PARENT = b"\x11" * 20
KILLED = -9
NEXT = "next"
NO_WAY = aborted("working copy failed") + because(".", "no way to the root or back")
# The first data files that a record names.
DATA = [f"dirstate.{it:016x}" for it in range(4)]
# The copy of a data file, before it takes that one's place.
COPY = "copy-new"
# What no save leaves behind, and the next one takes away where an earlier one was stopped.
LEFT = {"wlock", "wlock-new", "dirstate-new", COPY}


def told(entries, p1=NULL):
    """What `debugdirstate` prints of these paths, each with its letter."""
    rows = [f"{letter} - - - {path}" for path, letter in sorted(entries.items(), key=lambda it: os.fsencode(it[0]))]
    return lines(f"p1 {p1.hex()}", f"p2 {NULL.hex()}", *rows)


ANEW, BEHIND = "anew", "behind"


class Scene:
    """A working copy and a command: what it has tracked before, and after the command; and which way it saves that."""

    def __init__(self, what, words, before, after, p1=NULL, things=(), lay=None, way=ANEW):
        self.what, self.words, self.before, self.after, self.p1 = what, words, before, after, p1
        self.things, self.lay, self.way = things, lay, way

    def make(self, root):
        """Lays the working copy out."""
        lay_out(root, [*sorted({*self.before, *self.after}), NEXT, *self.things])
        if self.before:
            flags = P1_TRACKED | WDIR_TRACKED if self.p1 != NULL else WDIR_TRACKED
            put_record(root, *written([os.fsencode(it) for it in self.before], flags, p1=self.p1))
        if self.lay:
            self.lay(root)

    def texts(self):
        """What the record says before and after, and then with the next file added."""
        return [told(it, self.p1) for it in (self.before, self.after, {**self.before, NEXT: "a"}, {**self.after, NEXT: "a"})]


def added(*paths):
    return dict.fromkeys(paths, "a")


def leftovers(root):
    """What an earlier save may have left when it was stopped: a long new docket, a long data file of the next identifier, and the lock's file."""
    put(f"{root}/.hg/dirstate-new", docket(45, (1, 1), identifier=b"z" * 255))
    put(f"{root}/.hg/dirstate.{1:016x}", b"\xff" * 9_000)
    put(f"{root}/.hg/wlock", b"")


def before_lock(root):
    """What an earlier command may have left when it was stopped before it had the lock."""
    put(f"{root}/.hg/wlock-new", b"")


def behind_lock(root):
    """And when it was stopped just behind that."""
    put(f"{root}/.hg/wlock-new", ours())
    os.link(f"{root}/.hg/wlock-new", f"{root}/.hg/wlock")


def other_identifier(root):
    """The record as Mercurial names its data file."""
    docket, data = written([b"a", b"d/b"], identifier=b"89abcdef")
    os.remove(f"{root}/.hg/dirstate.{0:016x}")
    put_record(root, docket, data, "89abcdef")


def torn(root):
    """What a save behind the data file may have left when it was stopped: bytes behind the used ones, more than the next one puts there, and a new docket."""
    put(f"{root}/.hg/dirstate-new", docket(45, (1, 1), identifier=b"z" * 255))
    with open(f"{root}/.hg/dirstate.{0:016x}", "ab") as file:
        file.write(b"\xff" * 9_000)


def two_names(root):
    """The data file has another name too, and what a save may have left when it was stopped while it copied that one."""
    os.link(f"{root}/.hg/{DATA[0]}", f"{root}/.hg/other")
    put(f"{root}/.hg/{COPY}", b"\xff" * 9_000)


SOME = added("a", "b.c", "d/b", "d/e/f", "x y")
MANY = added(*(f"d{i}/e{j}/file" for i in range(5) for j in range(8)))
# A change at the root leaves the list of the one directory as it is, which is most of the record.
BESIDE = added("a", *(f"d/file{i}" for i in range(12)))

SCENES = [
    Scene("the first files", ["add", "a", "d/b"], {}, added("a", "d/b"), things=[".hg/"]),
    Scene("files to a record of some", ["add", "d/new", "z"], SOME, {**SOME, **added("d/new", "z")}),
    Scene("files to a record of many", ["add", "d3/new", "z"], MANY, {**MANY, **added("d3/new", "z")}, way=BEHIND),
    Scene("a file beside a directory", ["add", "z"], BESIDE, {**BESIDE, "z": "a"}, way=BEHIND),
    Scene("a file beside a directory, behind an earlier stop", ["add", "z"], BESIDE, {**BESIDE, "z": "a"}, lay=torn, way=BEHIND),
    Scene("a file beside a directory, where the data file has two names", ["add", "z"], BESIDE, {**BESIDE, "z": "a"}, lay=two_names, way=BEHIND),
    Scene("forget a file beside a directory", ["forget", "a"], BESIDE, {it: "a" for it in BESIDE if it != "a"}, way=BEHIND),
    Scene("forget all beside a directory of a commit", ["forget", "a", "z"], {**dict.fromkeys(BESIDE, "n"), "z": "n"}, {**dict.fromkeys(BESIDE, "n"), "a": "r", "z": "r"}, PARENT, way=BEHIND),
    Scene("a file behind an earlier stop", ["add", "z"], SOME, {**SOME, "z": "a"}, lay=leftovers),
    Scene("a file behind a stop before the lock", ["add", "z"], added("a"), added("a", "z"), lay=before_lock),
    Scene("a file behind a stop at the lock", ["add", "z"], added("a"), added("a", "z"), lay=behind_lock),
    Scene("a file to a record of Mercurial's", ["add", "z"], added("a", "d/b"), added("a", "d/b", "z"), lay=other_identifier),
    Scene("forget some", ["forget", "a", "d/e/f"], SOME, added("b.c", "d/b", "x y")),
    Scene("forget the last", ["forget", "a"], added("a"), {}),
    Scene("forget files of a commit", ["forget", "a", "d/b"], dict.fromkeys(["a", "c", "d/b"], "n"), {"a": "r", "c": "n", "d/b": "r"}, PARENT),
]


# The files of a scene that may be names of one: a copy has them so too.
LINKED = [("wlock", "wlock-new"), (DATA[0], "other")]


def wait_for_early(until=0.5):
    """Waits for the first part of a second. (The clock by which files get their times goes in steps, and lags behind.)"""
    while not 0.02 < time.time() % 1 < until:
        time.sleep(0.01)


def copied(tests, template, action):
    """Does something in a copy of a working copy, which goes away. It is made at the beginning of a second, so that the record in it has changed in the very
    second in which it is saved anew."""
    with tempfile.TemporaryDirectory(prefix="hgtrack-real-", dir=MEMORY if os.access(MEMORY, os.W_OK) else None) as room:
        root = f"{room}/copy"
        wait_for_early()
        shutil.copytree(template, root, symlinks=True)
        for one, other in LINKED:
            if all(os.path.exists(f"{template}/.hg/{it}") for it in (one, other)) and os.path.samefile(f"{template}/.hg/{one}", f"{template}/.hg/{other}"):
                os.remove(f"{root}/.hg/{one}")
                os.link(f"{root}/.hg/{other}", f"{root}/.hg/{one}")
        return action(root)


def shown(tests, root):
    """The status and the text of `debugdirstate`."""
    return tests.run(root, ("debugdirstate",))[:2]


def record_of(root):
    """The docket, the data file that it names, its name, and how many of its bytes are used; nothing where there is no docket."""
    if not os.path.exists(f"{root}/.hg/dirstate"):
        return None
    docket = read(f"{root}/.hg/dirstate")
    name = "dirstate." + docket[125:125 + docket[124]].decode()
    return docket, read(f"{root}/.hg/{name}") if os.path.exists(f"{root}/.hg/{name}") else b"", name, int.from_bytes(docket[120:124], "big")


def read(path):
    with open(path, "rb") as file:
        return file.read()


def way_of(root, before):
    """Which way a record took the place of another: behind its data file, whose used bytes are as they were and which has more used ones or the same; or anew,
    where the old data file is gone. Nothing where there is no other docket."""
    after = record_of(root)
    if after is None or before is not None and after[0] == before[0]:
        return None
    if before is not None and after[2] == before[2]:
        return BEHIND if after[1][:before[3]] == before[1][:before[3]] and before[3] <= after[3] <= len(after[1]) else "damaged"
    return ANEW if before is None or not os.path.exists(f"{root}/.hg/{before[2]}") else "left over"


def succeeds_then(tests, root, scene, which):
    """What differs, where something does, when the next file is added to the record that is there, the one before (0) or after (1)."""
    status, out, err = tests.run(root, ("add", NEXT))
    now = shown(tests, root)
    left = LEFT & set(os.listdir(f"{root}/.hg"))
    answer = (status, out, err, now, left)
    return None if answer == (0, b"", b"", (0, scene.texts()[2 + which]), set()) else answer


def stopped(tests, calls, scene, root, how, number):
    """Stops the command at a call. Answers which record was there then, and what is wrong where something is."""
    ran = calls.run(root, scene.words, how, number)
    if ran[0] != KILLED:
        return None, ran
    now = shown(tests, root)
    which = [it for it in (0, 1) if now == (0, scene.texts()[it])]
    return (which[0], succeeds_then(tests, root, scene, which[0])) if which else (None, now)


def run_stops(tests, calls, scene, template, names):
    """A scene stopped before and after each call: the record is the one before up to one call, and from there on the one after."""
    seen = []
    for number, name in enumerate(names, 1):
        for how in ("before", "after"):
            which, wrong = copied(tests, template, lambda root: stopped(tests, calls, scene, root, how, number))
            tests.compare(f"{scene.what}: killed {how} call {number}, {short(name)}", (which in (0, 1), wrong), (True, None))
            seen.append(which)
    tests.compare(f"{scene.what}: {len(seen)} stops, the record before and then the one after", (seen == sorted(seen, key=bool), set(seen)), (True, {0, 1}))
    return len(seen)


def short(name):
    """A call and the last name of its path, without an identifier's digits."""
    call, _, path = name.partition(" ")
    return f"{call} of {re.sub('[.][0-9a-f]{8,}$', '.ID', path.rpartition('/')[2])}"


def failed(tests, calls, scene, root, reason, number, name):
    """Has a call fail. Answers the status, and what is wrong where something is: the lock's file stays only where one of its own calls failed."""
    lock = f"{root}/.hg/wlock"
    may_stay = "wlock" in name or os.path.lexists(lock)
    status, out, err = calls.run(root, scene.words, "fail", number, ERRORS[reason])
    if os.path.lexists(lock) and not may_stay:
        return status, "the lock's file stays"
    now = shown(tests, root)
    which = [it for it in (0, 1) if now == (0, scene.texts()[it])]
    if not which:
        return status, now
    is_told = status == 255 and is_line(err, reason)
    is_passed = status == 0 and which == [1] and not err
    if out or not (is_told or is_passed):
        return status, (status, out, err, which)
    return status, succeeds_then(tests, root, scene, which[0])


def is_line(err, reason):
    """The fault's line, and the one with its reason, or with that of a root that can't be found again; or those of a root that can't be looked for."""
    rows = err.split(b"\n")
    if err == NO_WAY:
        return True
    if len(rows) != 3 or rows[0] + b"\n" not in (aborted(".hg failed"), aborted("working copy failed")):
        return False
    # (a look at the root that fails leaves it without a name to come back by, which is told where a file is to be put or taken away)
    is_nameless = rows[0] + b"\n" == aborted("working copy failed") and rows[1].endswith(b": the root has no name that serves")
    return is_nameless or rows[1].endswith(os.fsencode(f": {reason}"))


def run_failures(tests, calls, scene, template, names):
    """A scene with each call failing. Answers the calls whose failure was passed over."""
    passed = set()
    for number, name in enumerate(names, 1):
        for reason in ERRORS:
            status, wrong = copied(tests, template, lambda root: failed(tests, calls, scene, root, reason, number, name))
            tests.compare(f"{scene.what}: {reason} at call {number}, {short(name)}", wrong, None)
            if status == 0:
                passed.add(short(name))
    return passed


# What each call of the record's device is to the system, by the names of its files below `.hg`, which is `.` itself: finding it, by `main` and by the devices, what is required,
# going there, taking the lock, by a file of the rights that `.hg` has, which is the one that has its name then,
# looking at what isn't there, the size, reading, writing, making sure, renaming, making names sure, removing, giving the lock back.
# (An open file is told by the name that it was opened under.)
FOUND = ["statx .", "statx .", "statx requires"]
STAND = ["chdir .", "statx ."]
NEW = ["openat", "statx", "flock", "statx", "statx", "write", "link", "unlink"]
IS_OURS = ["statx wlock", "statx wlock-new (deleted)"]
LOCK = STAND + ["statx wlock", "statx ."] + [f"{it} wlock-new" for it in NEW] + IS_OURS
UNLOCK = IS_OURS + ["unlink wlock", "flock wlock-new (deleted)"]
SYNC_NAMES = ["openat .", "fsync ."]


def size(name):
    return [f"statx {name}"]


def read_at(name, reads):
    return [f"{call} {name}" for call in ("statx", "openat", "lseek", *reads * ["read"])]


# (of a file that is there already it is looked at whether that one was opened; a new one gets the rights that `.hg` has, unless it has them)
def write_at(name, is_there=False):
    return size(name) + (not is_there) * size(".") + [f"{call} {name}" for call in ("openat", "statx", "statx", "lseek", "write")]


# (of a file that was written, which is still open)
def sync(name):
    return [f"{call} {name}" for call in ("statx", "fsync")] + SYNC_NAMES


# Over a file that has changed in this very second the new one gets a time.
def rename(old, new, is_recent=False):
    timed = [f"{call} {old}" for call in ("openat", "statx", "utimensat", "fchmod")]
    return [f"statx {old}", f"statx {new}"] + is_recent * timed + [f"rename {old}"]


def remove(name):
    return [f"unlink {name}"]


def saved(old, new, is_recent):
    """The calls of an add to a record."""
    return [
        LOCK, read_at("dirstate", 2), size(old), read_at(old, 1), STAND, write_at(new), sync(new), write_at("dirstate-new"), sync("dirstate-new"),
        rename("dirstate-new", "dirstate", is_recent), SYNC_NAMES, remove(old), UNLOCK,
    ]


def appended(name, is_recent):
    """The calls of an add to a record that is put behind its data file."""
    return [
        LOCK, read_at("dirstate", 2), size(name), read_at(name, 1), STAND, write_at(name, True), sync(name), write_at("dirstate-new"), sync("dirstate-new"),
        rename("dirstate-new", "dirstate", is_recent), SYNC_NAMES, UNLOCK,
    ]


BELOW = [f"d/{it}" for it in range(10)]
# The shelf's calls of some commands, one after another, by name and in order, and whether the docket has changed in the very second of the command. (The
# docket is read into more room than it takes, so up to a read of nothing, and of the data as many bytes as there are. The working copy is looked at
# in between.)
IN_ORDER = [
    (["add", "a"], None, [
        LOCK, size("dirstate"), STAND, write_at(DATA[0]), sync(DATA[0]), write_at("dirstate-new"), sync("dirstate-new"),
        rename("dirstate-new", "dirstate"), SYNC_NAMES, UNLOCK,
    ]),
    (["add", "b"], False, saved(DATA[0], DATA[1], False)),
    (["add", "c"], True, saved(DATA[1], DATA[2], True)),
    (["add", *BELOW], False, saved(DATA[2], DATA[3], False)),
    (["add", "e"], False, appended(DATA[3], False)),
    (["add", "f"], True, appended(DATA[3], True)),
]


def wait_for(docket, is_recent):
    """Waits until a second of the docket's has gone, and has it change then, where it is to have changed in this very second."""
    while time.time() < os.stat(docket).st_ctime + 1.1:
        time.sleep(0.01)
    wait_for_early(0.3)
    if is_recent:
        os.chmod(docket, 0o644)


def named(root, row):
    """A call, with what it names as a path from `.hg`; nothing where that is the root, or what stands beside `.hg`."""
    call, _, path = row.partition(" ")
    name = os.path.relpath(os.path.join(root, path), f"{root}/.hg")
    return [] if name.startswith("..") else [f"{call} {name}"]


def run_in_order(tests, calls):
    """What some commands do below `.hg`, call by call: nothing else, and in this order. Before it there is the look for `.hg`, and the one for what is
    required."""
    with tests.working_copy() as root:
        lay_out(root, [".hg/", "a", "b", "c", *BELOW, "e", "f"])
        root = os.path.realpath(root)
        for words, is_recent, wanted in IN_ORDER:
            if is_recent is not None:
                wait_for(f"{root}/.hg/dirstate", is_recent)
            status, rows, _ = calls.listed(root, words)
            names = [it for row in rows for it in named(root, row)]
            tests.compare(f"in order: {' '.join(words[:2])}: {len(wanted)} calls of the shelf", (status, names), (0, FOUND + sum(wanted, [])))


def run_below(tests, calls):
    """From a folder below the root, a look for `.hg` that fails makes no other working copy of that folder."""
    for number in (1, 2):
        with tests.working_copy() as root:
            lay_out(root, [".hg/", "a", "sub/a"])
            answer = calls.run(f"{root}/sub", ["add", "a"], "fail", number, errno.EIO)
            made = os.path.isdir(f"{root}/sub/.hg")
            tests.compare(f"from a folder below, the look {number} for .hg fails", (answer, made), ((255, b"", NO_WAY), False))


def run_one_name(tests, calls):
    """Where the file system has no second names for a file, the lock's file is made at its own."""
    with tests.working_copy() as root:
        lay_out(root, [".hg/", "a", "b", "c"])
        names = calls.listed(root, ["add", "a"])[1]
        number = 1 + next(i for i, it in enumerate(names) if it.startswith("link "))
        for name, error in ("b", errno.EPERM), ("c", errno.EOPNOTSUPP):
            ran = calls.run(root, ["add", name], "fail", number, error)
            tests.compare(f"no second name for the lock: {errno.errorcode[error]}", (ran, LEFT & set(os.listdir(f"{root}/.hg"))), ((0, b"", b""), set()))
        tests.compare("no second name for the lock: what is tracked", shown(tests, root), (0, told(added("a", "b", "c"))))


def run_few_open(tests):
    """What stays open while the lock is held fits where few files may be open."""
    with tests.working_copy() as root:
        lay_out(root, [".hg/", "a", "b"])
        for words, wanted in (["add", "a"], added("a")), (["add", "b"], added("a", "b")), (["forget", "a"], added("b")):
            status, out, err = tests.run(root, words, preexec_fn=limited)
            tests.compare(f"{FILES} open files: {' '.join(words)}", (status, out, err, shown(tests, root)), (0, b"", b"", (0, told(wanted))))


def unsure(names):
    """The files that were never made sure behind a write to them. The lock's is none that has to be sure."""
    files = set()
    for name in names:
        call, _, path = name.partition(" ")
        if call == "write" and "wlock" not in path:
            files.add(path)
        elif call == "fsync":
            files.discard(path)
    return files


def counted(tests, calls, watcher, scene, template):
    """The calls of a scene: there are some, the watcher sees the same ones, what is written is made sure, and nothing is closed."""
    status, names, others = copied(tests, template, lambda root: calls.listed(root, scene.words, watcher))
    tests.compare(f"{scene.what}: not stopped", (status, bool(names)), (0, True))
    if watcher is not None:
        tests.compare(f"{scene.what}: {len(names)} calls are counted, and no other is seen", others, names)
    written = [it for it in names if it.startswith("write ") and "wlock" not in it]
    tests.compare(f"{scene.what}: {len(written)} writes, each made sure", (bool(written), unsure(names)), (True, set()))
    tests.compare(f"{scene.what}: no close", [it for it in names if it.startswith("close ")], [])
    return names


def run_way(tests, scene, template):
    """Which way a scene saves."""
    def ran(root):
        before = record_of(root)
        return tests.run(root, scene.words)[0], way_of(root, before)

    tests.compare(f"{scene.what}: saved {scene.way}", copied(tests, template, ran), (0, scene.way))


def run(tests):
    if not has_gcc(tests, "so saving was neither stopped nor failed"):
        return
    calls, watcher = Calls(tests), watched(tests, "so no call was looked for that isn't counted")
    stops, passed = 0, set()
    for scene in SCENES:
        with tests.working_copy() as template:
            scene.make(template)
            run_way(tests, scene, template)
            names = counted(tests, calls, watcher, scene, template)
            stops += run_stops(tests, calls, scene, template, names)
            passed |= run_failures(tests, calls, scene, template, names)
    run_below(tests, calls)
    run_one_name(tests, calls)
    run_in_order(tests, calls)
    run_few_open(tests)
    tests.compare(f"{stops} stops", stops >= 600, True)
    # (the look at the root's own name, which serves no more then, and the look which folder `.hg` is, which is then the one of the root; and letting go of what
    # an earlier process left, which is closed then)
    tests.compare("calls whose failure changes nothing", passed, {"statx of copy", "statx of .hg", "flock of wlock (deleted)", "flock of wlock-new (deleted)"})
