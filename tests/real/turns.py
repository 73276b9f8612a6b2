"""The record changed by several in turn: two programs that add files at the same time, and Mercurial's own beside ours, each with its lock."""

import os
import random
import shutil
import subprocess
import sys
import time

from calls import let_go, watched
from folder import SECONDS, aborted, lay_out
from mercurial import OPTIONS, hg
from parents import export, init
from saving import read, record_of, told

LOCKED = aborted("working copy is locked")
EACH, FILES, STEPS = 200, 30, 50
# Calls of an add under the lock, on the record. (Their numbers differ: a docket that takes the place of one of the same second gets a time of its own.)
UNDER_LOCK = ["write dirstate.", "rename dirstate-new", "unlink dirstate."]

# Adds each file that is named by itself, again while the working copy is locked. Prints how often it was, and ends with what else was said.
ADDER = """
import subprocess, sys, time
locked = 0
for name in sys.argv[2:]:
    while True:
        ran = subprocess.run([sys.argv[1], "add", name], capture_output=True)
        if (ran.returncode, ran.stderr) != (255, b"abort: working copy is locked\\n"):
            break
        locked += 1
        time.sleep(0.002)
    if (ran.returncode, ran.stdout, ran.stderr) != (0, b"", b""):
        sys.exit(f"{name}: {ran}")
print(locked)
"""


def run_two(tests):
    with tests.working_copy() as root:
        lists = [[f"{folder}/{i % 7}/file{i}" for i in range(EACH)] for folder in ("one", "two")]
        lay_out(root, [".hg/", *lists[0], *lists[1]])
        both = [subprocess.Popen([sys.executable, "-c", ADDER, tests.program, *it], cwd=root, stdin=subprocess.DEVNULL, stdout=subprocess.PIPE, stderr=subprocess.PIPE) for it in lists]
        ends = [it.communicate(timeout=600) for it in both]
        locked = b" and ".join(out.strip() for out, _ in ends).decode()
        tests.compare(f"two that add {EACH} files each: locked {locked} times", [(it.returncode, err) for it, (_, err) in zip(both, ends)], 2 * [(0, b"")])
        tests.compare("and one of them found the working copy locked", any(int(out) for out, _ in ends if out.strip()), True)
        tests.compare("no path is lost", tests.run(root, ("debugdirstate",)), (0, told(dict.fromkeys(lists[0] + lists[1], "a")), b""))
        # (each add that was saved anew took the next identifier)
        name = record_of(root)[2]
        tests.compare("and nothing is left over", sorted(os.listdir(f"{root}/.hg")), ["dirstate", name])
        tests.compare("some were saved anew, and some behind the data file", 0 < int(name.partition(".")[2], 16) < 2 * EACH - 1, True)


def letters(text):
    """The letter of each path of a status."""
    return {os.fsdecode(row[2:]): row[:1].decode() for row in text.split(b"\n") if row}


def choose(chance, have):
    """A command and some files for which it does something."""
    command = chance.choice(["add", "add", "forget"])
    fit = [path for path, letter in have.items() if (letter in "?R") == (command == "add")]
    if not fit:
        command = "forget" if command == "add" else "add"
        fit = [path for path, letter in have.items() if (letter in "?R") == (command == "add")]
    return command, sorted(chance.sample(fit, min(len(fit), chance.randint(1, 4))))


def both_told(tests, root):
    """What both programs say of every path."""
    theirs = hg(root, "status", "-A")
    return tests.run(root, ("status", "-A")), (theirs.returncode, theirs.stdout, theirs.stderr)


def run_turns(tests, what, committed):
    """Commands by either program in turn, over files of which so many are in a commit: after each both print the same."""
    chance = random.Random(20)
    with tests.working_copy() as root:
        names = [f"{('', 'd/', 'd/e/', 'src/')[i % 4]}file{i:02}" for i in range(FILES)]
        init(root)
        lay_out(root, names)
        if committed:
            hg(root, "add", *names[:committed])
            hg(root, "commit", "-m", "one")
            tests.compare(f"in turn with hg, {what}: the commit is brought over", export(root).returncode, 0)
        wrong, have = 0, letters(hg(root, "status", "-A").stdout)
        for step in range(STEPS):
            command, words = choose(chance, have)
            if step % 2:
                ran = hg(root, command, *words)
                answer = (ran.returncode, ran.stdout, ran.stderr)
            else:
                answer = tests.run(root, (command, *words))
            ours, theirs = both_told(tests, root)
            have = letters(theirs[1])
            is_done = all((have.get(it, "?") not in "?R") == (command == "add") for it in words)
            case = f"in turn with hg, {what}: step {step}, {'hg' if step % 2 else 'hgtrack'} {command}"
            wrong += not tests.compare(case, (answer, ours, is_done), ((0, b"", b""), theirs, True))
            if wrong > 3:
                return


def run_their_lock(tests):
    """Mercurial has the lock: in the midst of a commit, which a hook holds there, and by the link that it makes."""
    with tests.working_copy() as room:
        root, inside, go = f"{room}/root", f"{room}/inside", f"{room}/go"
        lay_out(root, ["a", "b", "c"])
        hg(root, "init")
        hg(root, "add", "a")
        before = f"{root}/.hg/dirstate"
        hook = f"hooks.pretxncommit.wait=touch {inside}; n=0; while [ ! -e {go} ] && [ $n -lt {20 * SECONDS} ]; do sleep 0.05; n=$((n+1)); done"
        env = {**os.environ, "HGRCPATH": "", "HGPLAIN": "1"}
        at = subprocess.Popen(["hg", "commit", "-m", "one", "--config", hook, *OPTIONS], cwd=root, env=env, stdin=subprocess.DEVNULL, stdout=subprocess.PIPE, stderr=subprocess.PIPE)
        try:
            until = time.monotonic() + SECONDS
            while not os.path.exists(inside) and at.poll() is None and time.monotonic() < until:
                time.sleep(0.01)
            lock = f"{root}/.hg/wlock"
            tests.compare("hg is in the midst of a commit, with its lock", (at.poll(), os.path.exists(inside), os.path.islink(lock)), (None, True, True))
            held, docket = os.readlink(lock), read(before)
            for words in (("add", "b"), ("forget", "a"), ("add", "gone")):
                tests.compare(f"{' '.join(words)} while hg commits", tests.run(root, words), (255, b"", LOCKED))
            tests.compare("a status while hg commits", tests.run(root, ("status", "-a", "-u")), (0, b"A a\n? b\n? c\n", b""))
            tests.compare("and hg has its lock and its record as they were", (at.poll(), os.readlink(lock), read(before) == docket), (None, held, True))
        finally:
            lay_out(room, ["go"])
            err = at.communicate(timeout=SECONDS)[1]
        tests.compare("hg's commit ends well", (at.returncode, err, hg(root, "status").stdout), (0, b"", b"? b\n? c\n"))
        tests.compare("add behind hg's lock", (tests.run(root, ("add", "b")), hg(root, "status").stdout), ((0, b"", b""), b"A b\n? c\n"))
        os.symlink("somewhere:1", lock)
        tests.compare("add beside the link of a lock", tests.run(root, ("add", "c")), (255, b"", LOCKED))
        os.remove(lock)
        tests.compare("and it was left out", hg(root, "status").stdout, b"A b\n? c\n")


def run_our_lock(tests, calls):
    """Ours has the lock, and is stopped at a call under it: hg doesn't get in, and loses nothing."""
    with tests.working_copy() as root:
        hg(root, "init")
        lay_out(root, ["a", "b", "c"])
        tests.run(root, ("add", "c"))
        for what in UNDER_LOCK:
            at = calls.held(root, ["add", "a"], what)
            ran = hg(root, "add", "b", "--config", "ui.timeout=1")
            other = tests.run(root, ("add", "b"))
            ours = let_go(at)
            answer = (ran.returncode, b"lock" in ran.stderr, other, ours, tests.run(root)[1])
            tests.compare(f"hg add while ours is stopped at {what}", answer, (255, True, (255, b"", LOCKED), (0, b"", b""), b"A a\nA c\n? b\n"))
            tests.compare("and hg add then", (hg(root, "add", "b").returncode, tests.run(root)[1]), (0, b"A a\nA b\nA c\n"))
            hg(root, "forget", "a", "b")


def run(tests):
    run_two(tests)
    if shutil.which("hg") is None:
        tests.skip("the command hg is not installed, so nothing was changed by it in turn with ours")
        return
    run_turns(tests, "no commit", 0)
    run_turns(tests, "a commit", 12)
    run_their_lock(tests)
    calls = watched(tests, "so hg was not tried while ours holds the lock")
    if calls is not None:
        run_our_lock(tests, calls)
