"""Beside a Mercurial that runs: its command server takes notice of each record that ours saved, its commands name ours as the holder of the lock,
and take the lock of one that was killed at once."""

import os
import shutil
import signal
import struct
import subprocess
import time
from collections import Counter

from calls import Calls, has_gcc, let_go, watched
from folder import SECONDS, lay_out
from mercurial import OPTIONS, hg
from saving import ANEW, BEHIND, record_of, way_of
from turns import letters

ROUNDS = 100
SIGNALS = {"SIGKILL": signal.SIGKILL, "SIGINT": signal.SIGINT, "SIGTERM": signal.SIGTERM}


class Server:
    """Mercurial's command server, over pipes."""

    def __init__(self, root):
        env = {**os.environ, "HGRCPATH": "", "HGPLAIN": "1", "HGENCODING": "UTF-8"}
        command = ["hg", "serve", "--cmdserver", "pipe", *OPTIONS]
        self.at = subprocess.Popen(command, cwd=root, env=env, stdin=subprocess.PIPE, stdout=subprocess.PIPE, stderr=subprocess.DEVNULL)
        self.answer()

    def answer(self):
        """The next message: its channel, and what it says."""
        channel, length = struct.unpack(">cI", self.at.stdout.read(5))
        return channel, self.at.stdout.read(length)

    def run(self, *words):
        """Runs a command. Answers its status and its standard output."""
        said = b"\0".join(os.fsencode(it) for it in (*words, *OPTIONS))
        self.at.stdin.write(b"runcommand\n" + struct.pack(">I", len(said)) + said)
        self.at.stdin.flush()
        out = b""
        while True:
            channel, text = self.answer()
            if channel == b"r":
                return struct.unpack(">i", text)[0], out
            out += text if channel == b"o" else b""

    def end(self):
        self.at.stdin.close()
        self.at.stdout.close()
        self.at.wait(SECONDS)


def run_server(tests, way, folders, others):
    """In each round ours adds a file, the server looks at all, ours adds two more, and the server another one: none is lost. They are at the root, or in so many
    folders beside a folder of so many others, where ours saves most of them behind the data file."""
    with tests.working_copy() as root:
        hg(root, "init")
        names = [[f"d{i % folders}/{i:03}{it}" if folders else f"{i:03}{it}" for it in "abcd"] for i in range(ROUNDS)]
        tracked = [f"others/file{i:03}" for i in range(others)]
        lay_out(root, [*sum(names, []), *tracked])
        if tracked:
            tests.run(root, ("add", *tracked))
        server, lost, wrong, ways = Server(root), 0, [], Counter()

        def add(name):
            before = record_of(root)
            ran = tests.run(root, ("add", name))
            ways[way_of(root, before)] += 1
            return ran

        try:
            for a, b, c, d in names:
                ran = [add(a), server.run("status")[0], add(b), add(c), server.run("add", d)[0]]
                wrong += [] if ran == [(0, b"", b""), 0, (0, b"", b""), (0, b"", b""), 0] else [ran]
                told = letters(tests.run(root)[1])
                lost += any(told[it] != "A" for it in (a, b, c, d))
        finally:
            server.end()
        tests.compare(f"beside a command server: {ROUNDS} rounds, of which so many lost something", (lost, wrong[:2]), (0, []))
        told = letters(hg(root, "status").stdout)
        tests.compare("and Mercurial says so in the end", (len(told), set(told.values())), (4 * ROUNDS + others, {"A"}))
        tests.compare(f"and most were saved {way}: {dict(ways)}", ways[way] > 2 * ROUNDS and set(ways) <= {ANEW, BEHIND}, True)


def at_once(root, *words):
    """What a command of Mercurial's answers that waits for no lock: its status, and what it says beside its own lines."""
    ran = hg(root, *words, "--config", "ui.timeout=0")
    return ran.returncode, ran.stderr


DONE = (0, b"")


def run_killed(tests, calls, others):
    """Killed behind each call below `.hg`: Mercurial goes on without waiting, and so does ours; also beside a folder of so many others, where ours saves behind the
    data file."""
    with tests.working_copy() as root:
        hg(root, "init")
        tracked = [f"others/file{i:02}" for i in range(others)]
        lay_out(root, ["a", "b", "c", "d", *tracked])
        tests.run(root, ("add", "d", *tracked))
        names = calls.listed(root, ["add", "c"])[1]
        hg(root, "forget", "c")
        wrong = []
        for number, name in enumerate(names, 1):
            # (it may have some calls less, where the docket is one of another second, and isn't killed behind them)
            killed = calls.run(root, ["add", "a"], "after", number)[0]
            ran = killed in (0, -signal.SIGKILL), at_once(root, "add", "b"), tests.run(root, ("add", "c")), left(root)
            wrong += [] if ran == (True, DONE, (0, b"", b""), []) else [(name, killed, ran)]
            tests.run(root, ("forget", "a", "b", "c"))
        tests.compare(f"killed behind {len(names)} calls beside {others} others, then hg", wrong[:2], [])


def left(root):
    """What stands below `.hg` that a lock may leave behind."""
    return [it for it in os.listdir(f"{root}/.hg") if it.startswith("wlock")]


def run_signals(tests):
    """A signal at many moments of an add."""
    with tests.working_copy() as root:
        hg(root, "init")
        lay_out(root, ["a", "b", "c"])
        for name, number in SIGNALS.items():
            wrong, ended = [], set()
            for i in range(40):
                at = subprocess.Popen([tests.program, "add", "a"], cwd=root, stdin=subprocess.DEVNULL, stdout=subprocess.PIPE, stderr=subprocess.PIPE)
                time.sleep(i * 0.0002)
                at.send_signal(number)
                ended.add(at.wait(SECONDS))
                at.communicate()
                stays = left(root)
                ran = at_once(root, "add", "b") if stays or i % 10 == 0 else DONE
                wrong += [] if ran == DONE else [(i, stays, ran)]
                hg(root, "forget", "a", "b") if stays or i % 10 == 0 else tests.run(root, ("forget", "a"))
            tests.compare(f"{name} at many moments of an add: it ended by {sorted(ended)}; then hg add", wrong[:2], [])


def run_named(tests, calls):
    """Mercurial names the process that holds the lock, its host and its namespace: as it names itself."""
    with tests.working_copy() as root:
        hg(root, "init")
        lay_out(root, ["a", "b"])
        number = 1 + next(i for i, it in enumerate(calls.listed(root, ["add", "a"])[1], 1) if it.startswith("flock"))
        tests.run(root, ("forget", "a"))
        at = calls.held(root, ["add", "b"], number + 6)
        said = read(f"{root}/.hg/wlock")
        ran = hg(root, "add", "a", "--config", "ui.timeout=1", "--config", "ui.timeout.warn=0")
        ours = let_go(at)
    host, _, process = said.rpartition(b":")
    wanted = os.fsencode(f"{os.uname().nodename}/{os.stat('/proc/self/ns/pid').st_ino:x}")
    tests.compare("the lock's file tells host and namespace", (host, process[:-1].isdigit(), process[-1:]), (wanted, True, b" "))
    tests.compare("and hg names its holder", b"held by process '%b' on host '%b'" % (process, host) in ran.stderr, True)
    tests.compare("which then goes on", ours, (0, b"", b""))


def run_without_links(tests):
    """Where a file system has no symbolic links Mercurial's own lock is a regular file, with its holder and nothing behind: it is never taken over."""
    with tests.working_copy() as root:
        hg(root, "init")
        lay_out(root, ["a", "b"])
        for name, holder in {"of a process that lives": os.getpid(), "of one that is dead": 2**22 + 1}.items():
            text = b"%b/%x:%d" % (os.fsencode(os.uname().nodename), os.stat("/proc/self/ns/pid").st_ino, holder)
            with open(f"{root}/.hg/wlock", "wb") as file:
                file.write(text)
            ran = tests.run(root, ("add", "a"))
            tests.compare(f"a lock of Mercurial's that is a file, {name}", (ran[0], ran[2].split(b"\n")[0], read(f"{root}/.hg/wlock")), (255, b"abort: working copy is locked", text))
        tests.compare("hg takes away that of a dead process, and ours goes on", (at_once(root, "add", "b"), tests.run(root, ("add", "a"))), (DONE, (0, b"", b"")))


def read(path):
    with open(path, "rb") as file:
        return file.read()


def run(tests):
    if shutil.which("hg") is None:
        tests.skip("the command hg is not installed, so nothing was done beside it")
        return
    run_server(tests, ANEW, 0, 0)
    run_server(tests, BEHIND, 10, 300)
    run_signals(tests)
    run_without_links(tests)
    if has_gcc(tests, "so nothing was killed before hg went on"):
        calls = Calls(tests)
        run_killed(tests, calls, 0)
        run_killed(tests, calls, 20)
    watcher = watched(tests, "so hg was not asked who holds the lock")
    if watcher is not None:
        run_named(tests, watcher)
