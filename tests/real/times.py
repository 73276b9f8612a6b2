"""A status that remembers: it saves the times of clean files, so that the next one doesn't read them, and no time that it saves hides a change. The lines are
those of Mercurial's own programs, `hg` and, where it is there, `rhg`."""

import os
import random
import re
import shutil
import subprocess
import threading
import time

from calls import ERRORS, Calls, compiled, has_gcc
from commits import HEX, P1, PARENT, W, put_commit, put_entries
from dirstate import HAS_MODE_AND_SIZE, HAS_MTIME, docket, record, written
from folder import MEMORY, SECONDS, as_nobody, lay_out, lines, put, put_record
from mercurial import OPTIONS, hg
from parents import export, init
from saving import KILLED, copied, is_line, read, short

TEXTS = [b"one\n", b"two\n", b"six\n", b"three\n", b""]
NAMES = [f"{folder}{name}" for folder in ("", "d/", "d/e/", "src/") for name in ("a", "b.c", "l", "x")]
STEPS = 200
# A time that no status looks at within its tick.
LONG_PAST = 10**18


def clock_of(root):
    """The clock of the file system: what a file that is written now shows."""
    put(f"{root}/.hg/now", b"x")
    now = os.stat(f"{root}/.hg/now").st_mtime_ns
    os.remove(f"{root}/.hg/now")
    return now


# ---- what is recorded, by `debugdirstate`

ROW = re.compile(rb"([a-z]) (\S) (\S+) (?:(\d+)\.(\d{9})(~?)|-) (.*)", re.DOTALL)


def rows_of(tests, root):
    """The first parent, and of each entry its letter, mode, size, time in nanoseconds and path."""
    out = tests.run(root, ("debugdirstate",))[1].split(b"\n")
    found = [ROW.fullmatch(it) for it in out[2:-1] if not it.startswith(b"copy: ")]
    return out[0][3:].decode(), [(it[1], it[2], it[3], it[4] and int(it[4]) * 10**9 + int(it[5]), it[6] == b"~", it[7]) for it in found]


def manifest_of(root, node):
    """What a commit has of each path, by the plain store: the bytes and the flag."""
    if node == "0" * 40:
        return {}
    found = {}
    for row in read(f"{root}/.hg/plain/m-{node}").split(b"\n")[:-1]:
        path, rest = row.split(b"\0")
        found[path] = read(f"{root}/.hg/plain/f-{rest[:40].decode()}"), rest[40:].decode()
    return found


def face_of(root, path):
    """The bytes of a file or a link, its flag and its time; nothing where neither is there."""
    at = os.path.join(os.fsencode(root), path)
    try:
        it = os.lstat(at)
    except OSError:
        return None
    if os.path.islink(at):
        return os.readlink(at), "l", it.st_mtime_ns
    return (read(at), "x" if it.st_mode & 0o100 else "", it.st_mtime_ns) if os.path.isfile(at) else None


def hiding(tests, root):
    """The recorded times that hide a change: the file shows the time, the size and the mode that are recorded, and isn't as the first parent has it. Then those that
    aren't below the clock."""
    node, rows = rows_of(tests, root)
    parent, clock = manifest_of(root, node), clock_of(root)
    hidden, early = [], []
    for letter, mode, size, stamp, _, path in rows:
        face = face_of(root, path)
        if stamp is None or letter != b"n":
            continue
        if stamp >= clock:
            early.append(path)
        if face and (face[2], b"%d" % len(face[0]), {"": b"f"}.get(face[1], face[1].encode())) == (stamp, size, mode) and parent.get(path) != face[:2]:
            hidden.append(path)
    return hidden, early


def stamps_of(tests, root):
    """The paths that have a recorded time."""
    return [it[5].decode() for it in rows_of(tests, root)[1] if it[3] is not None]


def mended(tests, root, hidden, shown):
    """What `hg` printed, with a file or link that it lists as unchanged told as changed where its bytes aren't those of the first parent and the other program
    says so. In 4 of 200 steps `hg` 6.3.2 alone listed a link so; why isn't known. What of ours would hide a change is asked apart from this (`hiding`)."""
    if hidden[0] or shown[0]:
        return hidden
    node, _ = rows_of(tests, root)
    parent = manifest_of(root, node)
    told = dict(reversed(it.split(b" ", 1)) for it in shown[1].splitlines())
    lines = [it.split(b" ", 1) for it in hidden[1].splitlines()]
    lines = [(b"M" if letter == b"C" and told.get(path) == b"M" and (face_of(root, path) or (None, None))[:2] != parent.get(path) else letter, path) for letter, path in lines]
    order = b"MAR!?IC"
    return hidden[0], b"".join(b"%s %s\n" % it for it in sorted(lines, key=lambda it: (order.index(it[0]), it[1])))


# ---- steps of all kinds, each followed by a status of each program

class Steps:
    """A working copy that changes step by step, and what each path has shown under each time: a time that is given back goes with what it was shown with."""

    def __init__(self, tests, root, chance):
        self.tests, self.root, self.chance = tests, root, chance
        self.shown, self.commits, self.old = {}, 0, LONG_PAST

    def at(self, name):
        return f"{self.root}/{name}"

    def look(self):
        for name in NAMES:
            face = face_of(self.root, name.encode())
            if face:
                self.shown.setdefault(name, {}).setdefault(face[2], set()).add(face[:2])

    def file(self):
        """Some path, and what stands there is a file."""
        name = self.chance.choice(NAMES)
        if os.path.islink(self.at(name)):
            os.remove(self.at(name))
        os.makedirs(os.path.dirname(self.at(name)), exist_ok=True)
        if not os.path.exists(self.at(name)):
            put(self.at(name), b"one\n")
        return name

    def old_time(self):
        """A time long past that no path has shown yet."""
        self.old += 10**9 + 7
        return self.old

    def write(self):
        put(self.at(self.file()), self.chance.choice(TEXTS))

    def write_all(self):
        for _ in range(8):
            self.write()

    def write_behind_status(self):
        name = self.file()
        put(self.at(name), self.chance.choice(TEXTS[:3]))
        self.tests.run(self.root, ("status", "-m"))
        put(self.at(name), self.chance.choice(TEXTS[:3]))

    def touch(self):
        name, when = self.file(), self.old_time()
        os.utime(self.at(name), ns=(when, when))

    def touch_now(self):
        os.utime(self.at(self.file()))

    def write_old(self):
        name, when = self.file(), self.old_time()
        put(self.at(name), self.chance.choice(TEXTS[:3]))
        os.utime(self.at(name), ns=(when, when))

    def restore(self):
        name = self.file()
        kept = [(when, *faces) for when, faces in self.shown.get(name, {}).items() if len(faces) == 1]
        kept = [(when, *face) for when, face in kept if face[1] != "l"]
        if kept:
            when, text, flag = self.chance.choice(kept)
            put(self.at(name), text)
            os.chmod(self.at(name), 0o755 if flag else 0o644)
            os.utime(self.at(name), ns=(when, when))

    def remove(self):
        os.remove(self.at(self.file()))

    def link(self):
        name = self.file()
        os.remove(self.at(name))
        os.symlink(self.chance.choice(["a", "gone"]), self.at(name))

    def make_executable(self):
        name = self.file()
        os.chmod(self.at(name), 0o755 if self.chance.random() < 0.5 else 0o644)

    def add(self):
        self.tests.run(self.root, ("add", self.file()))

    def add_all(self):
        hg(self.root, "add", "-q")

    def forget(self):
        self.tests.run(self.root, ("forget", self.chance.choice(NAMES)))

    def copy(self):
        name, other = self.file(), self.chance.choice(NAMES)
        if not os.path.lexists(self.at(other)):
            self.tests.run(self.root, ("copy", name, other))

    def commit(self):
        # (where nothing has changed it ends with 1)
        self.commits += hg(self.root, "commit", "-A", "-q", "-m", "some").returncode == 0
        self.bring()

    def update(self):
        if self.commits:
            hg(self.root, "update", "-q", "-C", str(self.chance.randrange(self.commits)))
            self.bring()

    def revert(self):
        hg(self.root, "revert", "-q", "-a", "--no-backup")

    def bring(self):
        ran = export(self.root)
        self.tests.compare("times: the parents are brought over", (ran.returncode, ran.stderr), (0, b""))

    KINDS = [write, write_all, write_behind_status, write_behind_status, touch, touch_now, write_old, restore, restore, remove, link, make_executable, add, add_all, forget, copy,
             commit, commit, update, update, revert]


def run_steps(tests):
    """Files are written, touched, given back, committed and updated; behind each step all programs print the same, in any order."""
    chance, rhg = random.Random(7), os.environ.get("HGTRACK_RHG") or shutil.which("rhg")
    if rhg is None:
        tests.skip("the command rhg is not installed, so its status was not asked for")
    with tests.working_copy() as root:
        init(root)
        steps, wrong, kept = Steps(tests, root, chance), 0, 0
        programs = {"hgtrack": lambda: tests.run(root, ("status", "-A"))[:2], "hg": lambda: plain(hg(root, "status", "-A"))}
        if rhg:
            command, env = [rhg, "status", "-A", "--config", "rhg.on-unsupported=abort"], {**os.environ, "HGRCPATH": ""}
            programs["rhg"] = lambda: plain(subprocess.run(command, cwd=root, env=env, capture_output=True, timeout=SECONDS))
        lay_out(root, NAMES)
        steps.commit()
        for number in range(STEPS):
            step = chance.choice(Steps.KINDS)
            step(steps)
            steps.look()
            # (`hg` takes long to start: beside `rhg` it is asked behind each second step)
            asked = [it for it in sorted(programs) if it != "hg" or not rhg or number % 2]
            order = chance.sample(asked, len(asked))
            said = {name: programs[name]() for name in order}
            if "hg" in said:
                said["hg"] = mended(tests, root, said["hg"], said["hgtrack"])
            hidden = hiding(tests, root)
            kept += len(stamps_of(tests, root))
            what = f"times: step {number}, {step.__name__}, asked {', '.join(order)}"
            is_same = tests.compare(what, [said[it] for it in order], len(order) * [said["rhg" if rhg else "hg"]])
            is_open = tests.compare(f"{what}: times that hide a change, and times that aren't below the clock", hidden, ([], []))
            wrong += not (is_same and is_open)
            if wrong > 3:
                return
        tests.compare(f"times: {STEPS} steps, {kept} recorded times", kept > STEPS, True)


def plain(ran):
    return ran.returncode, ran.stdout or ran.stderr


# ---- one file that is written while the program looks at it

def one_file(root, text=b"one\n"):
    """A working copy of a commit of the file `f`."""
    put_commit(root, [("f", b"one\n", b"")])
    put_entries(root, [("f", W | P1, "")])
    put(f"{root}/f", text)


def overwrite(path, until, chance):
    """Writes one of two texts of one length over a file's bytes again and again, until that time."""
    with open(path, "r+b", buffering=0) as file:
        while time.monotonic() < until:
            os.pwrite(file.fileno(), chance.choice(TEXTS[:2]), 0)
            time.sleep(chance.random() * 0.0005)


def letter_of(root):
    return lines("C f") if read(f"{root}/f") == b"one\n" else lines("M f")


def run_ticks(tests):
    """The file is written again and again while statuses run, in the tick of the clock in which they look at it too: behind the last byte each says so."""
    chance, wrong, seen = random.Random(11), [], {b"C f\n": 0, b"M f\n": 0}
    for room in [None] + [MEMORY] * os.access(MEMORY, os.W_OK):
        with tests.working_copy() as top:
            root = top if room is None else os.path.join(room, f"hgtrack-times-{os.getpid()}")
            try:
                os.makedirs(root, exist_ok=True)
                one_file(root)
                for number in range(STEPS):
                    writer = threading.Thread(target=overwrite, args=(f"{root}/f", time.monotonic() + chance.random() * 0.02, chance))
                    writer.start()
                    early = tests.run(root, ("status", "-A"))
                    writer.join()
                    answer = tests.run(root, ("status", "-A")), hiding(tests, root), early in ((0, lines("C f"), b""), (0, lines("M f"), b""))
                    seen[letter_of(root)] += 1
                    if answer != ((0, letter_of(root), b""), ([], []), True):
                        wrong.append((number, letter_of(root), answer))
            finally:
                if room is not None:
                    shutil.rmtree(root, ignore_errors=True)
    tests.compare(f"times: written while a status looks, {seen}", (wrong[:2], min(seen.values()) > 10), ([], True))


def run_clocks(tests):
    """A clock that stands still, and one of whole seconds: each change is seen. Times below them are recorded all the same."""
    if not has_gcc(tests, "so no other clock was tried"):
        return
    library = compiled(tests, "clock.c", "-shared", "-fPIC")
    for what, told in (("stands still", None), ("has whole seconds", "coarse")):
        with tests.working_copy() as root:
            put(f"{root}/old", b"old\n")
            put_commit(root, [("f", b"one\n", b""), ("old", b"old\n", b"")])
            put_entries(root, [("f", W | P1, ""), ("old", W | P1, "")])
            os.utime(f"{root}/old", ns=(LONG_PAST, LONG_PAST))
            now = clock_of(root)
            env = {**os.environ, "LD_PRELOAD": library, "HGTRACK_CLOCK": told or f"still {now // 10**9} {now % 10**9}"}
            chance, wrong = random.Random(13), []
            for number in range(STEPS):
                text = chance.choice(TEXTS[:3])
                put(f"{root}/f", text)
                wanted = lines("C f", "C old") if text == b"one\n" else lines("M f", "C old")
                answer = tests.run(root, ("status", "-A"), env=env)
                wrong += [] if answer == (0, wanted, b"") else [(number, text, answer)]
                if told:
                    time.sleep(0.01)
            tests.compare(f"times: a clock that {what}: {STEPS} changes", wrong[:2], [])
            stamps = stamps_of(tests, root)
            tests.compare(f"times: a clock that {what}: what is recorded", "old" in stamps and (bool(told) or stamps == ["old"]), True)


# ---- what a second status reads, and what it saves

MANY = [f"d{i % 5}/e{i:02}/f{k:02}" for i in range(100) for k in range(20)]


def many_files(root, names):
    """A working copy of a commit of these files, all clean and of a time long past."""
    lay_out(root, names)
    put_commit(root, [(it, os.fsencode(it) + b"\n", b"") for it in names])
    put_record(root, *written([os.fsencode(it) for it in names], W | P1, p1=PARENT))
    for it in names:
        os.utime(f"{root}/{it}", ns=(LONG_PAST, LONG_PAST))


def run_thrift(tests):
    """The second status of many clean files opens none of them, and looks at each once; and it saves nothing."""
    if not has_gcc(tests, "so no call was counted"):
        return
    calls = Calls(tests, "tree")
    with tests.working_copy() as root:
        root = os.path.realpath(root)
        many_files(root, MANY)
        first = calls.listed(root, ["status"])
        record = record_of(root)
        tests.compare("times: the first status of many files has all their times", sorted(stamps_of(tests, root)), sorted(MANY))
        second = calls.listed(root, ["status"])
        tests.compare("times: the second saves nothing", record_of(root) == record, True)
        opened = [[row for row in rows if row.startswith("openat ") and os.path.isfile(os.path.join(root, row.partition(" ")[2]))] for _, rows, _ in (first, second)]
        looks = [sum(row.startswith(("statx ", "newfstatat ")) for row in rows) for _, rows, _ in (first, second)]
        tests.compare(f"times: of {len(MANY)} files the first opens all, and the second none", (len(opened[0]) >= len(MANY), opened[1]), (True, []))
        # (a look at each file; for each folder one at its name, and one at `.` on each way in and out)
        tests.compare(f"times: the second looks {looks[1]} times, at most 1.2 a file", looks[1] <= 1.2 * len(MANY), True)
        out = tests.run(root, ("status", "-A", "-0"))
        tests.compare("times: and all are clean", out, (0, b"".join(b"C %b\0" % os.fsencode(it) for it in sorted(MANY)), b""))


def record_of(root):
    """The files of the record, with their bytes; and what a status may leave beside them is the probe alone."""
    return {it: read(f"{root}/.hg/{it}") for it in os.listdir(f"{root}/.hg") if it.startswith("dirstate")}


def left_of(root):
    """What stands below `.hg` that isn't the record, the plain store or the probe."""
    return sorted(it for it in os.listdir(f"{root}/.hg") if not re.fullmatch(r"dirstate(\.[0-9a-f]{16})?|plain|probe", it))


def run_two_at_once(tests):
    """Two statuses at once: both print all, and one of them saves, or both."""
    with tests.working_copy() as root:
        names = MANY[:200]
        many_files(root, names)
        wanted, wrong = b"".join(b"C %b\n" % os.fsencode(it) for it in sorted(names)), []
        for number in range(40):
            for it in names[number::7]:
                os.utime(f"{root}/{it}", ns=(LONG_PAST + number, LONG_PAST + number))
            both = [subprocess.Popen([tests.program, "status", "-A"], cwd=root, stdin=subprocess.DEVNULL, stdout=subprocess.PIPE, stderr=subprocess.PIPE) for _ in range(2)]
            ends = [(*it.communicate(timeout=SECONDS), it.returncode) for it in both]
            answer = ends, hiding(tests, root), left_of(root), sorted(stamps_of(tests, root))
            wrong += [] if answer == (2 * [(wanted, b"", 0)], ([], []), [], sorted(names)) else [(number, answer)]
        tests.compare("times: two statuses at once", wrong[:1], [])


def run_beside_commit(tests):
    """A status while hg commits, with its lock: it prints all and saves nothing."""
    with tests.working_copy() as room:
        root, inside, go = f"{room}/root", f"{room}/inside", f"{room}/go"
        os.mkdir(root)
        init(root)
        lay_out(root, ["a", "b", "c"])
        hg(root, "add", "a", "b")
        hg(root, "commit", "-m", "one")
        export(root)
        put(f"{root}/b", b"other\n")
        os.utime(f"{root}/a", ns=(LONG_PAST, LONG_PAST))
        hook = f"hooks.pretxncommit.wait=touch {inside}; n=0; while [ ! -e {go} ] && [ $n -lt {20 * SECONDS} ]; do sleep 0.05; n=$((n+1)); done"
        env = {**os.environ, "HGRCPATH": "", "HGPLAIN": "1"}
        at = subprocess.Popen(["hg", "commit", "-m", "two", "--config", hook, *OPTIONS], cwd=root, env=env, stdin=subprocess.DEVNULL, stdout=subprocess.PIPE, stderr=subprocess.PIPE)
        try:
            until = time.monotonic() + SECONDS
            while not os.path.exists(inside) and at.poll() is None and time.monotonic() < until:
                time.sleep(0.01)
            before, lock = record_of(root), os.readlink(f"{root}/.hg/wlock")
            tests.compare("times: a status while hg commits", tests.run(root, ("status", "-A")), (0, lines("M b", "? c", "C a"), b""))
            tests.compare("times: and the record and the lock are as they were", (record_of(root), os.readlink(f"{root}/.hg/wlock")), (before, lock))
        finally:
            lay_out(room, ["go"])
            err = at.communicate(timeout=SECONDS)[1]
        tests.compare("times: hg's commit ends well", (at.returncode, err, hg(root, "status", "-A").stdout), (0, b"", b"? c\nC a\nC b\n"))
        export(root)
        tests.compare("times: a status then", (tests.run(root, ("status", "-A")), hiding(tests, root)), ((0, lines("? c", "C a", "C b"), b""), ([], [])))
        tests.compare("times: and hg says the same", hg(root, "status", "-A").stdout, b"? c\nC a\nC b\n")


READ_ONLY = 'mount --bind "$1" "$1" && mount -o remount,bind,ro "$1" && cd "$1" && shift && exec "$@"'


def run_read_only(tests):
    """Where nothing may be written a status prints all the same, and saves nothing; what is recorded is of use."""
    with tests.working_copy() as root:
        many_files(root, MANY[:20])
        wanted = (0, b"".join(b"C %b\n" % os.fsencode(it) for it in sorted(MANY[:20])), b"")
        before = record_of(root), sorted(os.listdir(f"{root}/.hg"))
        if os.geteuid() == 0:
            tests.compare("times: a status of one who may not write", tests.run(root, ("status", "-A"), **as_nobody()), wanted)
            tests.compare("times: and nothing is saved", (record_of(root), sorted(os.listdir(f"{root}/.hg"))), before)
        for what in ("without times", "with times"):
            command = ["unshare", "-m", "sh", "-c", READ_ONLY, "sh", root, tests.program, "status", "-A"]
            ran = subprocess.run(command, stdin=subprocess.DEVNULL, capture_output=True, timeout=SECONDS) if shutil.which("unshare") else None
            if ran is None or ran.returncode and (b"unshare" in ran.stderr or b"mount" in ran.stderr):
                tests.skip("no file system could be made read-only, so no status of one was asked for")
                break
            tests.compare(f"times: a status on a read-only file system, {what}", (ran.returncode, ran.stdout, ran.stderr), wanted)
            tests.compare("times: and nothing is saved there", (record_of(root), sorted(os.listdir(f"{root}/.hg"))), before)
            tests.compare("times: a status that may write", tests.run(root, ("status", "-A")), wanted)
            before = record_of(root), sorted(os.listdir(f"{root}/.hg"))


# ---- a status that is stopped, and one of which a call fails

SCENE = [f"d{i}/e/f{j}" for i in range(3) for j in range(4)]


def recorded(rows):
    """What `debugdirstate` prints of these paths, each with or without its size and time."""
    told = [f"n f {len(os.fsencode(it)) + 1} {LONG_PAST // 10**9}.000000000 {it}" if has else f"n - - - {it}" for it, has in rows]
    return lines(f"p1 {HEX}", f"p2 {'0' * 40}", *told)


BEFORE, AFTER = (recorded([(it, has) for it in sorted(SCENE)]) for has in (False, True))
# The first of them has another time, and what is recorded then.
LATER = LONG_PAST + 10**9
AGAIN = AFTER.replace(b"%d." % (LONG_PAST // 10**9), b"%d." % (LATER // 10**9), 1)
CLEAN = b"".join(b"C %b\n" % os.fsencode(it) for it in sorted(SCENE))


def ends_well(tests, root):
    """Which record a status left that was stopped, one of the two; and what is wrong, where something is: the next status saves the times, and one behind that another
    time, with which all goes that was left behind."""
    now = tests.run(root, ("debugdirstate",))
    then = tests.run(root, ("status", "-A")), tests.run(root, ("debugdirstate",))
    os.utime(f"{root}/{min(SCENE)}", ns=(LATER, LATER))
    again = tests.run(root, ("status", "-A")), tests.run(root, ("debugdirstate",)), left_of(root)
    if now not in ((0, BEFORE, b""), (0, AFTER, b"")) or then != ((0, CLEAN, b""), (0, AFTER, b"")) or again != ((0, CLEAN, b""), (0, AGAIN, b""), []):
        return None, (now, then, again)
    return [BEFORE, AFTER].index(now[1]), None


def stop(tests, calls, root, how, number):
    ran = calls.run(root, ["status", "-A"], how, number)
    return ends_well(tests, root) if ran[0] == KILLED else (None, ran)


def fail(tests, calls, root, number, reason, name):
    """Has a call of a status fail. Answers what is wrong: it prints all or nothing, tells a failure that isn't passed over, and the record is one of the two."""
    status, out, err = calls.run(root, ["status", "-A"], "fail", number, ERRORS[reason])
    is_told = status == 255 and out in (b"", CLEAN) and is_line(err, reason)
    is_passed = (status, out, err) == (0, CLEAN, b"")
    if not (is_told or is_passed):
        return status, out, err
    may_stay = "wlock" in name
    if os.path.lexists(f"{root}/.hg/wlock") and not may_stay:
        return "the lock's file stays"
    return ends_well(tests, root)[1]


def run_stops(tests):
    """A status that saves, killed before and behind each call below `.hg`, and with each of them failing."""
    if not has_gcc(tests, "so no status that saves was stopped"):
        return
    calls = Calls(tests)
    with tests.working_copy() as template:
        many_files(template, SCENE)
        names = copied(tests, template, lambda root: calls.listed(root, ["status", "-A"]))
        tests.compare("times: not stopped", names[0], 0)
        seen = []
        for number, name in enumerate(names[1], 1):
            for how in ("before", "after"):
                which, wrong = copied(tests, template, lambda root: stop(tests, calls, root, how, number))
                tests.compare(f"times: a status killed {how} call {number}, {short(name)}", (which in (0, 1), wrong), (True, None))
                seen.append(which)
            for reason in ERRORS:
                wrong = copied(tests, template, lambda root: fail(tests, calls, root, number, reason, name))
                tests.compare(f"times: {reason} at call {number} of a status, {short(name)}", wrong, None)
        tests.compare(f"times: {len(seen)} stops, the record before and then the one after", (seen == sorted(seen, key=bool), set(seen)), (True, {0, 1}))


def run_great(tests):
    """The low 31 bits of a size vouch for a file of over 2 GiB: it isn't read, and neither a manifest nor contents are there."""
    with tests.working_copy() as root:
        put(f"{root}/f", b"")
        os.truncate(f"{root}/f", 2**31 + 4)
        os.utime(f"{root}/f", ns=(LONG_PAST, LONG_PAST))
        node = record(0, 1, flags=W | P1 | HAS_MODE_AND_SIZE | HAS_MTIME, size=4, seconds=LONG_PAST // 10**9)
        put_record(root, docket(45, (1, 1), p1=PARENT), b"f" + node)
        tests.compare("a great file", tests.run(root, ("status", "-c")), (0, b"C f\n", b""))


def run(tests):
    run_ticks(tests)
    run_great(tests)
    run_clocks(tests)
    run_thrift(tests)
    run_two_at_once(tests)
    run_read_only(tests)
    run_stops(tests)
    if shutil.which("hg") is None:
        tests.skip("the command hg is not installed, so the times were not tried beside it")
        return
    run_beside_commit(tests)
    run_steps(tests)
