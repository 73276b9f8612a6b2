"""Lays out working copies in temporary folders, runs the program in them, and compares what it did with what it should have done."""

import os
import re
import resource
import shutil
import stat
import struct
import subprocess
import tempfile
from contextlib import contextmanager

from dirstate import marks_of

SECONDS = 60
# A time that no clock has reached.
TO_COME = (2**31 - 2) * 10**9
NOBODY = 65534
# In memory where there is such a place: what is synced there takes no time, and a process that is killed loses nothing else than on a disk.
MEMORY = "/dev/shm"
# A number that no process has.
DEAD = 2**22 + 1


def lay_out(root, things):
    """Makes each thing below the folder `root`, and the directories above it: `name` is a file, `name/` a directory,
    `name -> target` a link, `name |` a fifo. A name's bytes that aren't text are written as os.fsdecode gives them."""
    for thing in things:
        name, arrow, target = thing.partition(" -> ")
        is_fifo = name.endswith(" |")
        path = os.path.join(root, name[:-2] if is_fifo else name)
        os.makedirs(path if name.endswith("/") else os.path.dirname(path), exist_ok=True)
        if arrow:
            os.symlink(target, path)
        elif is_fifo:
            os.mkfifo(path)
        elif not name.endswith("/"):
            put(path, os.fsencode(name) + b"\n")


def put(path, content):
    with open(path, "wb") as file:
        file.write(content)


def put_record(root, docket, data=None, identifier="0" * 16):
    """Writes the docket, and the data file beside it where there is one."""
    os.makedirs(f"{root}/.hg", exist_ok=True)
    put(f"{root}/.hg/dirstate", docket)
    if data is not None:
        put(f"{root}/.hg/dirstate.{identifier}", data)


def seen(root):
    """What stands below a folder: the kind, the mode, the size and the time of each path, and the bytes of each file."""
    found = {}
    for at, folders, files in os.walk(os.fsencode(root)):
        for name in folders + files:
            path = os.path.join(at, name)
            it = os.lstat(path)
            content = None
            if stat.S_ISREG(it.st_mode) and it.st_size < 1_000_000:
                with open(path, "rb") as file:
                    content = file.read()
            found[path] = (it.st_mode, it.st_size, it.st_mtime_ns, content)
    return found


# What a status may write below `.hg`: the record, and the file by which it asks the clock.
OF_A_STATUS = re.compile(rb"/\.hg(/(dirstate(\.[^/]*)?|probe))?")


def kept(root):
    """What a status leaves as it is of what stands below a folder: all but the probe and sizes, modes and times of the record."""
    found, record = {}, {}
    for path, it in seen(root).items():
        below = path[len(os.fsencode(root)):]
        if not OF_A_STATUS.fullmatch(below) or it[3] is None and below != b"/.hg":
            found[path] = it
        elif below not in (b"/.hg", b"/.hg/probe"):
            record[os.path.basename(path)] = it[3]
    head = record.get(b"dirstate", b"")
    name = b"dirstate." + head[125:125 + head[124]] if len(head) > 125 else None
    try:
        return found, marks_of(head, record[name])
    except (KeyError, struct.error, IndexError):
        # (no record that is whole, which no status writes anew)
        return found, record


def put_off(root):
    """Gives all that stands below a folder a time to come, which no status records."""
    for at, folders, files in os.walk(os.fsencode(root)):
        for name in folders + files:
            os.utime(os.path.join(at, name), ns=(TO_COME, TO_COME), follow_symlinks=False)


def as_nobody():
    """What has a command run without root's rights, where there is a way to do so."""
    return {"user": NOBODY, "group": NOBODY, "extra_groups": []} if os.geteuid() == 0 else {}


def host():
    with open("/proc/sys/kernel/hostname", "rb") as file:
        return file.read().strip()


def holder(process):
    """A process of this host, as Mercurial's own lock tells it."""
    return b"%b/%x:%d" % (host(), os.stat("/proc/self/ns/pid").st_ino, process)


def ours(process=DEAD):
    """The same as a lock of ours tells it."""
    return holder(process) + b" "


def lines(*texts):
    """The bytes of lines, each ended by a line feed."""
    return b"".join(os.fsencode(it) + b"\n" for it in texts)


# What is said behind the line of a fault that begins or ends so: what to do about it.
CONVERT = ("to convert the dirstate: hg debugupgraderepo --run --config format.use-dirstate-v2=yes"
           "; and back: hg debugupgraderepo --run --config format.use-dirstate-v2=no"
           "; an hg without Rust wants dirstate-v2.slow-path=allow below [storage] in its configuration, now and later")
PARENTS = "hgtrack-parents brings the parents of the working copy to .hg/plain"
OUTSIDE = "a path outside the working copy can't be tracked"
REGEXPS = "a regexp is read without look-ahead, look-behind and back references"
LISTED = "hgtrack --help lists the commands"
ADVICE = [("no command", "", LISTED), ("unknown command", "", LISTED), ("wrong arguments", "", LISTED),
          ("dirstate: marker differs at byte ", "", CONVERT), ("no manifest ", "", PARENTS), ("manifest line ", "", PARENTS), ("manifest order at line ", "", PARENTS),
          ("no contents ", "", PARENTS), (".hgignore line ", ": regexp", REGEXPS)]


def further(text):
    """A line behind those of a command."""
    return lines(f"hgtrack: {text}")


def aborted(text):
    """The line of a fault, and the one that says what to do about it, where there is one."""
    return lines(f"abort: {text}") + b"".join(further(what) for begin, end, what in ADVICE if text.startswith(begin) and text.endswith(end))


def no_flag(command, flag):
    """The lines of a flag that a command doesn't have."""
    return lines("abort: wrong arguments") + further(f"{command} has no flag {flag}: see hgtrack {command} --help")


def because(name, reason):
    """The further line of a device's failure."""
    return lines(f"hgtrack: {name}: {reason}")


# What is said first where the current folder is in no working copy.
NO_HG = b"hgtrack: no .hg here or above\n"
# A small limit: how many files the program may have open.
FILES = 16


def limited():
    resource.setrlimit(resource.RLIMIT_NOFILE, (FILES, FILES))


def stray(folder):
    """A folder `.hg` at a folder or above it, of which all that is below is taken for a working copy; mostly there is none."""
    at = os.path.realpath(folder)
    while not os.path.isdir(f"{at}/.hg"):
        if os.path.dirname(at) == at:
            return None
        at = os.path.dirname(at)
    return os.path.join(at, ".hg")


class Tests:
    """Counts the cases, and prints those that fail."""

    def __init__(self, program, room):
        self.passed = self.failed = self.skipped = 0
        # a copy that anyone may run, wherever the repository lies
        self.program = f"{room}/hgtrack"
        self.room = room
        shutil.copyfile(program, self.program)
        os.chmod(self.program, 0o755)

    @contextmanager
    def working_copy(self):
        """A new folder, which goes away at the end."""
        root = tempfile.mkdtemp(dir=self.room)
        os.chmod(root, 0o755)
        try:
            yield root
        finally:
            shutil.rmtree(os.fsencode(root), ignore_errors=True)

    def run(self, root, words=("status",), **how):
        """Runs the program in a folder. Answers its status, its standard output and its error stream."""
        given = {"stdin": subprocess.DEVNULL, "stdout": subprocess.PIPE, "stderr": subprocess.PIPE, "timeout": SECONDS, "preexec_fn": limited}
        try:
            ran = subprocess.run([self.program, *words], cwd=root, **{**given, **how})
        except subprocess.TimeoutExpired:
            return "no end", b"", b""
        return ran.returncode, ran.stdout, ran.stderr

    def compare(self, what, answered, wanted):
        """One case: the two are the same."""
        if answered == wanted:
            self.passed += 1
            return True
        self.failed += 1
        print(f"FAILED {what}\n  wanted   {short(wanted)}\n  answered {short(answered)}")
        return False

    def check(self, what, root, out=b"", err=b"", words=("status",), **how):
        """One case: the program prints these bytes, ends with 255 exactly where it names a fault, and changes nothing, but for the times that a status records. Where
        the folder has no folder `.hg`, it says so first."""
        look = kept if list(words[:1]) == ["status"] else seen
        before = look(root)
        said = b"" if os.path.isdir(os.path.join(root, ".hg")) else NO_HG
        answered = self.run(root, words, **how)
        if self.compare(what, answered, (255 if err else 0, out, said + err)) and look(root) != before:
            self.passed -= 1
            self.failed += 1
            print(f"FAILED {what}\n  the folder was changed")

    def skip(self, what):
        self.skipped += 1
        print(f"skipped: {what}")


def short(value):
    text = repr(value)
    return text if len(text) < 600 else f"{text[:400]} .. {text[-150:]}"
