"""What others exchange in the midst of a command: folders, while files are added in them; a file for a link; and the lock's file. Each record that was
saved is that of the folder in which the command was started, no link is followed, and no two commands have the lock."""

import os
import shutil
import subprocess
import sys
import time

from calls import let_go, watched
from commits import P1, W, name_of, put_commit, put_entries
from folder import aborted, because, lay_out, lines, put
from saving import read
from turns import LOCKED

EACH, SECONDS_AT_MOST = 60, 60

# Exchanges two folders until it is killed, and waits in between: a while that differs from time to time, and grows, so that a busy machine's commands end too.
EXCHANGER = """
import os, sys, time
one, other, way = sys.argv[1:]
n, begun = 0, time.monotonic()
while True:
    os.rename(one, way)
    os.rename(other, one)
    os.rename(way, other)
    n = (n * 5 + 3) % 64
    time.sleep((0.0005 + n * 0.0002) * (1 + (time.monotonic() - begun) / 4))
"""


def run_adds(tests, room, folders, names):
    """Adds each file in the folder that has it, where that is the one which the name leads to by now. Answers those that were added, and how often
    a command failed."""
    added, failed, until = set(), 0, time.monotonic() + SECONDS_AT_MOST
    left = [(folder, name) for pair in zip(*names) for folder, name in zip(folders, pair)]
    while left and time.monotonic() < until:
        folder, name = left.pop(0)
        try:
            status = tests.run(f"{room}/{folder}", ("add", name))[0]
        except FileNotFoundError:
            status = None
        if status == 0:
            added.add(name)
        else:
            left.append((folders[1 - folders.index(folder)], name))
            failed += status == 255
    return added, failed, left


def run_folders(tests):
    with tests.working_copy() as room:
        folders, names = ["one", "other"], [[f"{it}{i:03}" for i in range(EACH)] for it in "ab"]
        for folder, its in zip(folders, names):
            lay_out(f"{room}/{folder}", [".hg/", *its])
            tests.run(f"{room}/{folder}", ("add", its[0]))
        at = subprocess.Popen([sys.executable, "-c", EXCHANGER, *(f"{room}/{it}" for it in (*folders, "way"))])
        try:
            added, failed, left = run_adds(tests, room, folders, names)
        finally:
            at.kill()
            at.wait()
        lost = []
        for folder in filter(os.path.isdir, (f"{room}/{it}" for it in (*folders, "way"))):
            status, out, err = tests.run(folder, ("debugdirstate",))
            recorded = {row.split(b" ", 4)[4].decode() for row in out.split(b"\n")[2:-1]}
            of_folder = {it for it in added if os.path.exists(f"{folder}/{it}")}
            lost += [(status, err)] * (status != 0) + sorted(of_folder - recorded)
        tests.compare(f"two folders exchanged while files are added in them: {len(added)} were, {failed} commands failed", (lost[:5], left, failed > 0), ([], [], True))


def number_of(watcher, root, words, call, name, times=1):
    """The number of a call that touches a name, as calls.c counts them, in a copy of the folder; that of the last one for 0 times."""
    with watcher.tests.working_copy() as room:
        copy = f"{room}/copy"
        shutil.copytree(root, copy, symlinks=True)
        names = watcher.listed(copy, words)[1]
    found = [number for number, it in enumerate(names, 1) if it.startswith(f"{call} ") and os.path.basename(it) == name]
    return found[times - 1]


def replace_by_link(path, target):
    os.symlink(target, f"{path}.link")
    os.rename(f"{path}.link", path)


def run_links(tests):
    """A file of the working copy, and one below `.hg`, are exchanged for links between the look at them and the open."""
    watcher = watched(tests, "so no file was exchanged for a link", "tree")
    if watcher is None:
        return
    with tests.working_copy() as room:
        root = f"{room}/root"
        put_commit(root, [("f", b"one\n", b"")])
        put_entries(root, [("f", W | P1, "")])
        put(f"{room}/elsewhere", b"one\n")
        put(f"{root}/f", b"two\n")
        at = watcher.held(root, ["status", "-A"], "openat f")
        replace_by_link(f"{root}/f", "../elsewhere")
        tests.compare("a link to the very contents, put in place of a file before that is opened", let_go(at), (0, lines("M f"), b""))
    watcher = watched(tests, "so no file below .hg was exchanged for a link")
    with tests.working_copy() as room:
        root = f"{room}/root"
        lay_out(root, [".hg/dirstate-new", "a"])
        put(f"{room}/elsewhere", b"mine\n")
        at = watcher.held(root, ["add", "a"], "openat dirstate-new")
        replace_by_link(f"{root}/.hg/dirstate-new", "../../elsewhere")
        wanted = (255, b"", aborted(".hg failed") + because(".hg/dirstate-new", "another file took its place"))
        tests.compare("a link in place of a file that is to be written, before that is opened", (let_go(at), read(f"{room}/elsewhere")), (wanted, b"mine\n"))


def lay_out_added(root, *lay):
    """A working copy with a record of one file."""
    lay_out(root, [".hg/", "a", "b", "c", "d"])
    for name in lay:
        put(f"{root}/.hg/{name}", b"")


def within_lock(watcher, root, name):
    """An add that is held while it has the lock."""
    return watcher.held(root, ["add", name], "rename dirstate-new")


def added(tests, root):
    return tests.run(root, ("status", "-a", "-n"))[1].split()


def run_before_lock(tests, watcher):
    """A command is held before it locks the file that it has opened; meanwhile another one does all of its work, and a third has the lock."""
    for what, lay in (("a new file", []), ("one that stayed behind", ["wlock"])):
        with tests.working_copy() as root:
            lay_out_added(root, *lay)
            at = watcher.held(root, ["add", "a"], number_of(watcher, root, ["add", "a"], "flock", "wlock" if lay else "wlock-new"))
            other = tests.run(root, ("add", "b"))
            third = within_lock(watcher, root, "c")
            answer = let_go(at)
            tests.compare(f"the lock by {what}, which is exchanged before it is locked", (other, answer, let_go(third), added(tests, root)), ((0, b"", b""), (255, b"", LOCKED), (0, b"", b""), [b"b", b"c"]))
            tests.compare("and then the lock is free", (tests.run(root, ("add", "a")), os.path.lexists(f"{root}/.hg/wlock")), ((0, b"", b""), False))


def run_before_removal(tests, watcher):
    """A command is held before it gives the lock back; somebody takes its file away, and another one gets the lock: that one keeps it."""
    with tests.working_copy() as root:
        lay_out_added(root)
        at = watcher.held(root, ["add", "a"], number_of(watcher, root, ["add", "a"], "statx", "wlock", 0))
        os.remove(f"{root}/.hg/wlock")
        other = within_lock(watcher, root, "b")
        ended = let_go(at)
        third = tests.run(root, ("add", "c"))
        tests.compare("the lock's file is exchanged before it is taken away", (ended, third, let_go(other)), ((0, b"", b""), (255, b"", LOCKED), (0, b"", b"")))
        tests.compare("and then the lock is free", (tests.run(root, ("add", "c")), added(tests, root)), ((0, b"", b""), [b"a", b"b", b"c"]))


def run(tests):
    run_folders(tests)
    run_links(tests)
    watcher = watched(tests, "so the lock was not exchanged")
    if watcher is not None:
        run_before_lock(tests, watcher)
        run_before_removal(tests, watcher)
