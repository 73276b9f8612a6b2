"""Random steps in one repository by Mercurial's programs and this one in turn: behind each of them all list the same.

`hg` and hgtrack write the record, and so does `rhg`, where it is installed: its status notes what it found clean. HGTRACK_STEPS is how many steps are made,
HGTRACK_SEED what they are made from; both are printed where a listing differs.
"""

import os
import random
import re
import shutil
import subprocess
import time

from folder import SECONDS, put
from mercurial import hg
from parents import export, init

STEPS, SEED = int(os.environ.get("HGTRACK_STEPS", "60")), int(os.environ.get("HGTRACK_SEED", "26"))
# Names whose order isn't that of a walk, and ignored ones. None is that of another's folder: see run_doubled.
NAMES = ["a", "a.c", "a-b/c", "b.c", "b/x", "b/y/z", "b-x", "c/y.o", "d.o", "d/e/f", "d/e/g", "d/h", "\u00e9", "z 0"]
IGNORED = b"syntax: glob\n*.o\n"
# Few texts of few lengths, so that a file that is written anew often has the size that it had, and sometimes the bytes.
TEXTS = [b"one\n", b"two\n", b"three\n", b"", b"x" * 70_000, b"y" * 70_000]


def clear(root, name):
    """Takes away what stands at a path, and each file or link above it."""
    at = root
    for part in name.split("/"):
        at = os.path.join(at, part)
        if os.path.lexists(at) and (at == os.path.join(root, name) or os.path.islink(at) or not os.path.isdir(at)):
            if os.path.isdir(at) and not os.path.islink(at):
                shutil.rmtree(at)
            else:
                os.remove(at)


def lay(root, name, chance):
    """Puts a file or a link at a path."""
    path = os.path.join(root, name)
    kind = chance.random()
    if kind < 0.2 or not os.path.isfile(path) or os.path.islink(path):
        clear(root, name)
        os.makedirs(os.path.dirname(path), exist_ok=True)
    if kind < 0.1:
        os.symlink(chance.choice(["a", "gone", "one\n"]), path)
        return
    with open(path, "wb") as file:
        file.write(chance.choice(TEXTS))
    os.chmod(path, 0o755 if kind > 0.85 else 0o644)


def step(tests, root, chance):
    """Makes a step; answers what it was."""
    name, other = chance.sample(NAMES, 2)
    roll = chance.random()
    if roll < 0.35:
        lay(root, name, chance)
        return f"put {name}"
    if roll < 0.42:
        clear(root, name)
        return f"take {name}"
    if roll < 0.47:
        # (what was written before is then in the past, so that a status may note it as clean)
        time.sleep(0.02)
        return "wait"
    if roll < 0.67:
        words = (chance.choice(["add", "add", "forget"]), name, other)
        tests.run(root, words)
        return f"hgtrack {' '.join(words)}"
    words = chance.choice([
        ["add", name, other], ["add"], ["forget", name], ["remove", "--force", name], ["move", "--force", name, other], ["copy", "--force", name, other],
        ["addremove"], ["revert", "--no-backup", name], ["commit", "-m", "more"], ["commit", "-A", "-m", "more"], ["commit", "--amend", "-m", "amended"],
        ["update", "--clean", str(chance.randrange(4))], ["update", "--clean", "tip"], ["merge", "--tool", ":local", str(chance.randrange(6))],
    ])
    hg(root, *words)
    return f"hg {' '.join(words)}"


def answer(ran):
    """What a program of Mercurial's answered, without the copy sources that it tells behind a `!`."""
    return ran.returncode, re.sub(rb"(?m)^(! .*\n)  .*\n", rb"\1", ran.stdout), ran.stderr


def run_doubled(tests):
    """A file that is added in place of a directory which has removed files: Mercurial without its Rust extensions then writes two nodes of one name, and the
    record is refused as it stands. With the file forgotten, or the commit made, Mercurial writes a sound one."""
    for words in (["forget", "a"], ["commit", "-m", "two"]):
        with tests.working_copy() as root:
            init(root)
            put(f"{root}/z", b"z\n")
            os.makedirs(f"{root}/a/c")
            put(f"{root}/a/c/d", b"d\n")
            hg(root, "add")
            hg(root, "commit", "-m", "one")
            export(root)
            hg(root, "remove", "a/c/d")
            put(f"{root}/a", b"a\n")
            hg(root, "add", "a")
            status, out, err = tests.run(root, ("status",))
            wanted = [(0, b"A a\nR a/c/d\n", b""), (255, b"", b"abort: dirstate data: node N: order\n")]
            tests.compare("mixed: a name twice: refused or listed", (status, out, re.sub(rb"node \d+", b"node N", err)) in wanted, True)
            hg(root, *words)
            export(root)
            tests.compare(f"mixed: a name twice: behind {words[0]}", tests.run(root, ("status", "-A")), (0, hg(root, "status", "-A").stdout, b""))


def run(tests):
    if shutil.which("hg") is None:
        tests.skip("the command hg is not installed, so no steps were mixed with its own")
        return
    rhg = os.environ.get("HGTRACK_RHG") or shutil.which("rhg")
    if rhg is None:
        tests.skip("the command rhg is not installed, so the mixed steps are made without it")
    run_doubled(tests)
    chance = random.Random(SEED)
    with tests.working_copy() as root:
        init(root)
        with open(f"{root}/.hgignore", "wb") as file:
            file.write(IGNORED)
        listings = [lambda: tests.run(root, ("status", "-A")), lambda: answer(hg(root, "status", "-A"))]
        if rhg:
            words, env = [rhg, "status", "-A", "--config", "rhg.on-unsupported=abort"], {**os.environ, "HGRCPATH": ""}
            listings.append(lambda: answer(subprocess.run(words, cwd=root, env=env, capture_output=True, timeout=SECONDS)))
        done = []
        for number in range(STEPS):
            done.append(step(tests, root, chance))
            brought = export(root, "--hook")
            chance.shuffle(listings)
            found = [listed() for listed in listings]
            if not tests.compare(f"mixed: seed {SEED}: step {number}: {done[-1]}", (brought.stderr, *found), (b"", *[(0, found[0][1], b"")] * len(found))):
                print("\n".join(done[-8:]))
                break
