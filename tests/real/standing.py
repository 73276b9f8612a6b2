"""Where the program is started, how deep it goes, and what others do meanwhile to the folders that it stands in."""

import ctypes
import os
import re
import shutil
import stat
import subprocess
import threading

from dirstate import docket, written
from folder import FILES, NO_HG, NOBODY, aborted, as_nobody, because, lay_out, limited, lines, put_record

TREE = aborted("working copy failed")
# How often a folder is exchanged at least, and how often the program runs meanwhile.
EXCHANGES, RUNS = 10_000, 50

# The working copy of the tests of where it is started, its tracked paths and its lines.
THINGS = ["a", "d/e/x", "d/y", "l -> d", "sub/.hg/", "sub/in/z", "sub/w"]
TRACKED = [b"a", b"d/e/x", b"d/gone", b"l/y", b"d/e/x/below"]
ROWS = lines("A a", "A d/e/x", "! d/e/x/below", "! d/gone", "! l/y", "? d/y", "? l")

# where it is started, and what it prints
STARTS = [
    (".", 0, ROWS, b""),
    ("d", 0, ROWS, b""),
    ("d/e", 0, ROWS, b""),
    ("l", 0, ROWS, b""),
    (".hg", 0, ROWS, b""),
    ("sub", 0, lines("? in/z", "? w"), b""),
    ("sub/in", 0, lines("? in/z", "? w"), b""),
    ("sub/.hg", 0, lines("? in/z", "? w"), b""),
]


def run_starts(tests):
    for name in ("r", "r\u00e4 z", os.fsdecode(b"r\xff"), "n" * 200):
        with tests.working_copy() as top:
            root = f"{top}/{name}"
            lay_out(root, THINGS)
            put_record(root, *written(TRACKED))
            for start, status, out, err in STARTS:
                tests.compare(f"started in {start} of {name!r:.20}", tests.run(f"{root}/{start}"), (status, out, err))


def run_removed(tests):
    """A folder that was removed has a folder above it all the same."""
    gone = 'mkdir gone && cd gone && rmdir ../gone && exec "$0" status'
    with tests.working_copy() as root:
        lay_out(root, ["a"])
        at = tests.run(root, ["-c", gone, tests.program], executable="/bin/sh")
        tests.compare("started in a removed folder", at, (0, b"", NO_HG))
        put_record(root, *written([b"a"]))
        at = tests.run(root, ["-c", gone, tests.program], executable="/bin/sh")
        tests.compare("started in a removed folder of a working copy", at, (0, lines("A a"), b""))


def run_top(tests):
    """Started in `/`, and in a `/` that has a folder `.hg`."""
    if not os.path.isdir("/.hg"):
        tests.compare("started in /", tests.run("/", ["stat"]), (255, b"", NO_HG + aborted("unknown command")))
    linked = subprocess.run(["ldd", tests.program], capture_output=True).stdout.decode() if shutil.which("ldd") else ""
    libraries = re.findall(r"(/\S+) \(", linked)
    if os.geteuid() or not libraries:
        tests.skip("a / of its own takes root's rights and the program ldd")
        return
    with tests.working_copy() as root:
        lay_out(root, ["a", "d/x"])
        put_record(root, *written([b"a"]))
        for it in [tests.program, *libraries]:
            shutil.copy(it, f"{root}/.hg")
        loader = next(it for it in libraries if "/ld-" in it)
        words = ["--library-path", "/.hg", "/.hg/hgtrack", "status"]

        def shut_in():
            os.chroot(root)
            limited()

        at = tests.run(f"{root}/d", words, executable=f"/.hg/{os.path.basename(loader)}", preexec_fn=shut_in)
        tests.compare("a working copy in /", at, (0, lines("A a", "? d/x"), b""))


class Deep:
    """Goes down folder by folder, for paths that the system takes no more in one."""

    def __init__(self, root):
        self.at = os.open(root, os.O_RDONLY)

    def enter(self, name):
        os.mkdir(name, dir_fd=self.at)
        below = os.open(name, os.O_RDONLY, dir_fd=self.at)
        os.close(self.at)
        self.at = below

    def put(self, name):
        os.close(os.open(name, os.O_CREAT | os.O_WRONLY, 0o644, dir_fd=self.at))

    def leave(self):
        os.close(self.at)


def started_below(tests, deep):
    """Runs the program in the folder that was gone down to."""
    given = {"stdin": subprocess.DEVNULL, "capture_output": True, "timeout": 60}
    at = subprocess.run([tests.program, "status"], preexec_fn=lambda: (os.fchdir(deep.at), limited()), **given)
    return at.returncode, at.stdout, at.stderr


def run_deep(tests):
    with tests.working_copy() as root:
        lay_out(root, [".hg/"])
        deep, names = Deep(root), [f"{i:03}" + "n" * 197 for i in range(100)]
        for name in names:
            deep.enter(name)
            deep.put("f")
        paths = ["/".join(names[: i + 1]) + "/f" for i in range(100)]
        unknown = lines(*(f"? {it}" for it in sorted(paths)))
        tests.compare("a path of 20,000 bytes", tests.run(root), (0, unknown, b""))
        tests.compare("a path of 20,000 bytes, from its folder", started_below(tests, deep), (0, unknown, b""))
        missing = "/".join(names) + "/g"
        put_record(root, *written([paths[-1].encode(), missing.encode()]))
        told = lines(f"A {paths[-1]}", f"! {missing}", *(f"? {it}" for it in sorted(paths[:-1])))
        tests.compare("a tracked path of 20,000 bytes", tests.run(root), (0, told, b""))
        deep.leave()
    with tests.working_copy() as root:
        lay_out(root, [".hg/"])
        deep = Deep(root)
        for level in range(2048):
            deep.enter("d")
            if level == 2046:
                deep.put("f")
        put_record(root, *written(["/".join(["d"] * 2047 + ["f"]).encode()]))
        told = lines("A " + "d/" * 2047 + "f")
        tests.compare("2,048 folders", tests.run(root), (0, told, b""))
        tests.compare("2,048 folders, from the last", started_below(tests, deep), (0, told, b""))
        deep.put("f")
        name = "d/" * 2048 + "f"
        tests.compare("a name that makes no path", tests.run(root), (255, b"", TREE + because(name, "a name that makes no path")))
        deep.leave()
    with tests.working_copy() as root:
        deep = Deep(root)
        for level in range(2000):
            deep.enter("dd")
        lost = TREE + because(".", "no way to the root or back")
        tests.compare("2,000 folders below none with .hg", started_below(tests, deep), (255, b"", lost))
        deep.leave()
    with tests.working_copy() as root:
        deep = Deep(root)
        for level in range(40):
            deep.enter("r" * 100)
        os.mkdir(".hg", dir_fd=deep.at)
        deep.put("a")
        deep.enter("d")
        deep.put("x")
        tests.compare("a root of 4,000 bytes", started_below(tests, deep), (0, lines("? a", "? d/x"), b""))
        deep.leave()


def run_shut(tests):
    """A directory without the right to enter it, whose path is tracked."""
    with tests.working_copy() as root:
        lay_out(root, ["a", "d/e/x"])
        put_record(root, *written([b"a", b"d/e/x"]))
        os.chmod(f"{root}/d", 0o644)
        at = tests.run(root, **as_nobody())
        os.chmod(f"{root}/d", 0o755)
        tests.compare("a tracked path below a directory that may not be searched", at, (255, b"", TREE + because("d", "permission denied")))
        os.chmod(f"{root}/d/e", 0o000)
        at = tests.run(root, **as_nobody())
        os.chmod(f"{root}/d/e", 0o755)
        tests.compare("a tracked path in a directory without rights", at, (255, b"", TREE + because("d/e", "permission denied")))


# Makes the call whose number is given fail, or `.` show another folder: a change of folder, a look at `.`, and the opening of a folder or file.
PRELOADED = r"""
#define _GNU_SOURCE
#include <dlfcn.h>
#include <errno.h>
#include <fcntl.h>
#include <stdlib.h>
#include <string.h>
#include <sys/stat.h>

static int is_due(const char *name) {
    static int counts[3];
    int *count = &counts[!strcmp(name, "LOOK") + 2 * !strcmp(name, "OPEN")];
    char *at = getenv(name);
    return at && ++*count == atoi(at);
}

int chdir(const char *path) {
    int (*real)(const char *) = dlsym(RTLD_NEXT, "chdir");
    if (is_due("CHDIR")) { errno = atoi(getenv("ERROR")); return -1; }
    return real(path);
}

int open(const char *path, int flags, ...) {
    int (*real)(const char *, int, ...) = dlsym(RTLD_NEXT, "open");
    if (is_due("OPEN")) { errno = atoi(getenv("ERROR")); return -1; }
    return real(path, flags);
}

int openat(int at, const char *path, int flags, ...) {
    int (*real)(int, const char *, int, ...) = dlsym(RTLD_NEXT, "openat");
    if (is_due("OPEN")) { errno = atoi(getenv("ERROR")); return -1; }
    return real(at, path, flags);
}

int statx(int fd, const char *restrict path, int flags, unsigned mask, struct statx *restrict found) {
    int (*real)(int, const char *restrict, int, unsigned, struct statx *restrict) = dlsym(RTLD_NEXT, "statx");
    int answer = real(fd, path, flags, mask, found);
    if (!strcmp(path, ".") && is_due("LOOK")) {
        int error = atoi(getenv("ERROR"));
        if (error) { errno = error; return -1; }
        found->stx_ino ^= 1;
    }
    return answer;
}
"""


def run_preloaded(tests):
    """A call that fails in between: the right lines, or none and the reason."""
    if not shutil.which("gcc"):
        tests.skip("gcc is not there, so no call was made to fail in between")
        return
    with tests.working_copy() as root, tests.working_copy() as made:
        with open(f"{made}/failing.c", "w", encoding="utf-8") as file:
            file.write(PRELOADED)
        library = f"{made}/failing.so"
        subprocess.run(["gcc", "-shared", "-fPIC", "-o", library, f"{made}/failing.c", "-ldl"], check=True)
        lay_out(root, ["a", "d/e/f/x", "d/e/y", "d/z", "g/h/i", "g/j"])
        put_record(root, *written([b"a", b"d/e/f/x", b"d/gone", b"g/h/i"]))
        right = (0, lines("A a", "A d/e/f/x", "A g/h/i", "! d/gone", "? d/e/y", "? d/z", "? g/j"), b"")
        for which in ("CHDIR", "LOOK", "OPEN"):
            for error, words in ((5, b"input/output error"), (13, b"permission denied"), (24, b"too many open files"), (2, b"no such file or directory"), (0, None)):
                if (which, error) in (("OPEN", 2), ("OPEN", 0), ("CHDIR", 0)):
                    continue
                for number in range(1, 60):
                    env = {"LD_PRELOAD": library, which: str(number), "ERROR": str(error)}
                    answered = tests.run(root, env=env)
                    if answered[0] == 255 and words:
                        aborts, name = answered[2].split(b"hgtrack: ")
                        wanted = (255, b"", aborts + b"hgtrack: " + name.split(b": ")[0] + b": " + words + b"\n")
                    else:
                        wanted = right
                    tests.compare(f"{which} {number} fails with {error}", answered, wanted)


class Exchanger:
    """Exchanges a folder for a link to one outside and back, until it is told to end and has done so often enough."""

    def __init__(self, root, outside, how):
        self.inside, self.link, self.how = f"{root}/d", f"{outside}/link", how
        self.away, self.done, self.ended, self.may_end = f"{outside}/away", 0, False, False
        os.symlink(f"{outside}/real", self.link)
        self.libc = ctypes.CDLL(None, use_errno=True)
        self.thread = threading.Thread(target=self.run)

    def run(self):
        while self.done < EXCHANGES or not self.may_end:
            {"link": self.by_link, "at once": self.at_once, "moved": self.moved}[self.how]()
            self.done += 1
        self.ended = True

    def by_link(self):
        os.rename(self.inside, self.away)
        os.rename(self.link, self.inside)
        os.rename(self.inside, self.link)
        os.rename(self.away, self.inside)

    def at_once(self):
        for _ in range(2):
            if self.libc.renameat2(-100, os.fsencode(self.inside), -100, os.fsencode(self.link), 2):
                raise OSError(ctypes.get_errno(), "renameat2")

    def moved(self):
        os.rename(self.inside, self.away)
        os.rename(self.away, self.inside)


class Watch:
    """Whether a folder was opened, as the system tells it."""

    def __init__(self, folder):
        self.libc = ctypes.CDLL(None, use_errno=True)
        self.fd = self.libc.inotify_init1(os.O_NONBLOCK)
        self.libc.inotify_add_watch(self.fd, os.fsencode(folder), 0x20)

    def was_opened(self):
        try:
            return bool(os.read(self.fd, 4096))
        except BlockingIOError:
            return False
        finally:
            os.close(self.fd)


def run_exchanges(tests):
    inside = [f"d/i{i}/in{j}" for i in range(4) for j in range(4)] + ["a", "z/k"]
    secret = [f"real/i{i}/{name}" for i in range(4) for name in ("secret", "in0", "in5")]
    for how in ("link", "at once", "moved"):
        with tests.working_copy() as root, tests.working_copy() as outside:
            lay_out(root, inside)
            lay_out(outside, secret)
            put_record(root, *written([it.encode() for it in inside if not it.endswith("in3")] + [b"d/i0/in5", b"d/i1/secret"]))
            watches = [Watch(f"{outside}/real"), *(Watch(f"{outside}/real/i{i}") for i in range(4))]
            exchanger, runs, bad, whole = Exchanger(root, outside, how), 0, [], 0
            exchanger.thread.start()
            while not exchanger.ended:
                status, out, err = tests.run(root)
                rows = out.splitlines()
                shown = any(b"secret" in it and not it.startswith(b"! ") or b"in5" in it and not it.startswith(b"! ") for it in rows)
                if shown or status not in (0, 255) or (status and out):
                    bad.append((status, out, err))
                runs += 1
                whole += status == 0
                exchanger.may_end = runs >= RUNS
            exchanger.thread.join()
            opened = [it.was_opened() for it in watches]
            tests.compare(f"a folder exchanged {exchanger.done:,} times, {how}: {runs} runs, {whole} without a fault", (bad[:2], any(opened)), ([], False))


def run(tests):
    for part in (run_starts, run_removed, run_top, run_deep, run_shut, run_preloaded, run_exchanges):
        part(tests)
