"""The hooks of `contrib/hgtrack.hgrc`: behind each command that moves the working copy's parents, also where it stops half-way, the plain store has them, and
`hgtrack status` prints what `hg status` prints."""

import os
import re
import shutil
import subprocess
from concurrent.futures import ThreadPoolExecutor

from folder import SECONDS, lay_out, lines, put
from mercurial import OPTIONS
from parents import EXPORT, act, init

CONTRIB = os.path.dirname(EXPORT)
TOP = os.path.dirname(CONTRIB)

# What each case starts from: three commits in a row, one beside the last two, and the working copy of the third.
BASE = [
    "+a", "*a 1\n2\n3\n4\n5\n", "+b", "+d/x", "hg add", "hg commit -m one", "*a 1\n2\n3\n4\nfive\n", "+d/y", "hg add d/y", "hg commit -m two", "*b second\n", "hg commit -m three",
    "hg update 0", "*a 1\nbeside\n3\n4\n5\n", "+o", "hg add o", "hg commit -m beside", "hg update 2",
]
# In ROOM stand `other`, which has a commit more on the one beside, a bundle and a patch of that commit, a patch that doesn't apply, and what some commands ask for.
OTHER = ["hg update --clean 3", "+more", "hg add more", "hg commit -m more", "hg bundle -r 4 --base 2 --base 3 ROOM/bundle", "hg export -r 4 -o ROOM/patch"]
REJECTED = b"diff --git a/a b/a\n--- a/a\n+++ b/a\n@@ -1,1 +1,1 @@\n-nothing\n+else\n"
SETTINGS = b"""[ui]
interactive = yes
interface = text
rollback = yes
editor = true
[fix]
up:command = tr a-z A-Z
up:pattern = glob:**
[gpg]
cmd = sh ROOM/sign
[extensions]
"""
DROP, EDIT = "drop 1\npick 2\n", "edit 1\npick 2\n"
MERGED = "*a 1\nboth\n3\n4\nfive\n"
# A commit that conflicts with the one beside.
CLASH = ["*a 1\nclash\n3\n4\nfive\n", "hg commit -m clash"]
NEW, RENAMED = ["+n", "hg add n", "*a other\n", "hg remove b"], ["*e 1\n2\n3\n4\nfive\n", "hg add e", "hg remove a", "hg commit -m renamed"]
COPIED, MINE, EVOLVE = ["*e 1\n2\n3\n4\nfive\n", "hg add e", "hg commit -m copied"], ["*d/x mine\n", "hg commit -m mine"], "--config experimental.evolution=all"

# The extensions, and the steps, as act has them. `> hg ..` is a command behind which the hooks have to have brought all: the store is taken away before, and it moves the
# parents; behind `= hg ..` they are what they were. A number in front is the status that the command ends with; what follows ` < ` is typed into it.
CASES = [
    ("", [*NEW, "= hg shelve", "= hg unshelve"]),
    ("", ["*a other\n", "= hg shelve", *CLASH, "1> hg unshelve --tool :fail", "> hg unshelve --abort", "1> hg unshelve --tool :fail", MERGED, "hg resolve --mark a", "> hg unshelve --continue"]),
    ("", ["*a other\n", "> hg commit -m four", "*a more\n", "> hg commit --amend -m five"]),
    ("", ["> hg update 0", "> hg up 2", "> hg checkout 3", "> hg co null", "> hg update 2"]),
    ("", ["hg update 1", "*b dirty\n", "1> hg update --tool :fail 2"]),
    ("", ["> hg merge 3", "> hg merge --abort", "> hg merge 3", "> hg commit -m merged"]),
    ("", [*CLASH, "1> hg merge 3 --tool :fail", "> hg abort"]),
    ("", ["> hg graft 3"]),
    ("", [*CLASH, "1= hg graft 3 --tool :fail", MERGED, "hg resolve --mark a", "> hg graft --continue"]),
    ("", ["> hg backout -r 1 -m back"]),
    ("", ["= hg bisect --bad 2", "> hg bisect --good 0"]),
    ("", ["> hg branch -r 2 name"]),
    ("", ["> hg import ROOM/patch", "> hg rollback"]),
    ("", ["1> hg import --partial -m rejected ROOM/rejected"]),
    ("", ["hg update 3", "= hg pull ROOM/other", "= hg pull -u ROOM/other"]),
    ("", ["hg update 3", "> hg pull -u ROOM/other"]),
    ("", ["hg update 3", "> hg unbundle -u ROOM/bundle"]),
    ("", ["> hg tag v1"]),
    ("", ["> hg debugsetparents 0", "> hg debugsetparents 0 2"]),
    ("", ["> hg debugrebuilddirstate -r 0"]),
    ("", ["> hg debugstrip 2"]),
    ("", [*COPIED, "> hg copy --after --at-rev . a e"]),
    ("", [*RENAMED, "> hg rename --after --at-rev . a e"]),
    ("", ["*a other\n", "-9! hg commit -m four --config hooks.pretxnclose.kill=kill\u00a0-9\u00a0$PPID", "= hg recover"]),
    ("absorb", ["*a one\n2\n3\n4\nfive\n", "> hg absorb -a"]),
    ("amend", ["*b other\n", "> hg amend"]),
    ("fetch", ["hg debugstrip 3", "> hg fetch ROOM/other"]),
    ("fix", ["> hg fix -s ."]),
    ("histedit", ["> hg histedit 1 --commands ROOM/drop"]),
    ("histedit", ["1> hg histedit 1 --commands ROOM/edit", "> hg histedit --abort", "1> hg histedit 1 --commands ROOM/edit", "> hg histedit --continue"]),
    ("rebase", ["> hg rebase -r 2 -d 3"]),
    ("rebase", [*CLASH, "1> hg rebase -r 4 -d 3 --tool :fail", "> hg rebase --abort", "1> hg rebase -r 4 -d 3 --tool :fail", MERGED, "hg resolve --mark a", "> hg continue"]),
    ("rebase", ["hg update 3", *MINE, "> hg pull --rebase ROOM/other"]),
    ("record", ["*b other\n", "> hg record -m four < y\ny\n"]),
    ("gpg", ["> hg sign ."]),
    ("split", ["*a one\n2\n3\n4\nfive\n", "*b other\n", "hg commit -m both", "> hg split < y\ny\nn\ny\ny\ny\n"]),
    ("strip", ["> hg strip 2"]),
    ("transplant", ["> hg transplant 3"]),
    ("uncommit", ["> hg uncommit"]),
    ("amend uncommit", ["*b other\n", f"> hg amend {EVOLVE}", f"> hg unamend {EVOLVE}"]),
    ("mq", ["*b other\n", "> hg qnew p1", "*b more\n", "> hg qrefresh", "> hg qpop", "> hg qpush", "*b most\n", "hg qnew p2", "> hg qgoto p1", "> hg qfold p2", "= hg qfinish -a"]),
    ("mq", ["= hg qimport -r 2", "> hg qpop", "> hg qimport -P ROOM/patch"]),
    ("mq", ["*b other\n", "hg qnew p1", "hg qguard p1 +one", "> hg qselect --pop two"]),
    ("mq", ["*b other\n", "hg qnew p1", "> hg qsave -c", "> hg qrestore -d tip"]),
    ("mq record", ["*b other\n", "> hg qrecord -m four p1 < y\ny\n"]),
    ("mq", ["> hg strip 2"]),
]
# Hooks whose commands need a server to talk to, and one of a Mercurial in which `strip` isn't another name of `debugstrip`.
UNTRIED = ["phabimport", "phabsend", "strip"]
ALIASES = {"up": "update", "checkout": "update", "co": "update", "strip": "debugstrip"}
AT_ONCE = 4


def hg(root, *words, rc="", given=b"", path=f"{CONTRIB}:{os.environ['PATH']}"):
    """A command of a user who has these settings."""
    env = {**os.environ, "HGRCPATH": rc, "HGPLAIN": "", "HGENCODING": "UTF-8", "LANG": "C.UTF-8", "PATH": path}
    return subprocess.run(["hg", *words, *OPTIONS], cwd=root, env=env, input=given, capture_output=True, timeout=120)


def recorded(root):
    """The bytes of the parents that the dirstate records."""
    with open(f"{root}/.hg/dirstate", "rb") as file:
        return file.read(76)[12:]


def lay_out_room(tests, room):
    """The repositories and files that all cases start from."""
    os.mkdir(f"{room}/base")
    init(f"{room}/base")
    for action in BASE:
        act(tests, f"{room}/base", "hooks: base", action)
    shutil.copytree(f"{room}/base", f"{room}/other")
    for action in OTHER:
        act(tests, f"{room}/other", "hooks: other", action.replace("ROOM", room))
    named = hg(f"{room}/base", "log", "-r", "1:2", "-T", "{node} ").stdout.decode().split()
    for name, plan in (("drop", DROP), ("edit", EDIT)):
        put(f"{room}/{name}", re.sub("[12]", lambda found: named[int(found[0]) - 1], plan).encode())
    put(f"{room}/rejected", REJECTED)
    put(f"{room}/sign", b"cat\n")
    put(f"{room}/hooks", b"%include " + os.fsencode(CONTRIB) + b"/hgtrack.hgrc\n")


def watch(program, room, root, settings, action):
    """Runs a command whose hooks bring the parents over into a store that was taken away. Answers what it did and both listings, each beside what it should be."""
    sign, _, command = action.partition(" ")
    command, _, given = command.partition(" < ")
    words = [word.replace("\u00a0", " ").replace("ROOM", room) for word in command.split(" ")][1:]
    shutil.rmtree(f"{root}/.hg/plain", ignore_errors=True)
    before = recorded(root)
    ran = hg(root, *words, rc=f"{settings}:{room}/hooks", given=given.encode())
    done = (ran.returncode, recorded(root) != before, [line for line in ran.stderr.splitlines() if b"hgtrack-parents" in line or b".hgtrack hook" in line])
    checks = [(command, done, (int(sign[:-1] or 0), sign[-1] == ">", []))]
    # (a command that was killed has run no hook)
    if sign[-1] != "!":
        listed = subprocess.run([program, "status", "-A"], cwd=root, stdin=subprocess.DEVNULL, capture_output=True, timeout=SECONDS)
        checks.append((f"{command}: the listing", (listed.returncode, listed.stdout, listed.stderr), (0, hg(root, "status", "-A").stdout, b"")))
    return checks


def run_case(program, room, number):
    """Answers the checks of a case, and the commands that were watched."""
    extensions, steps = CASES[number]
    settings, root = f"{room}/settings{number}", f"{room}/case{number}"
    put(settings, SETTINGS.replace(b"ROOM", os.fsencode(room)) + "".join(f"{name} =\n" for name in extensions.split()).encode())
    shutil.copytree(f"{room}/base", root)
    checks, tried = [], set()
    for action in steps:
        if re.match("[-0-9]*[>=!] ", action):
            checks += watch(program, room, root, settings, action)
            word = action.split(" ")[2]
            tried.add(ALIASES.get(word, word))
        elif action.startswith("hg "):
            ran = hg(root, *action.split(" ")[1:], rc=settings)
            checks.append((action, ran.stderr if ran.returncode else b"", b""))
        else:
            act(None, root, "", action)
    shutil.rmtree(root)
    return checks, tried


def run_commands(tests, room):
    lay_out_room(tests, room)
    tried = set()
    with ThreadPoolExecutor(AT_ONCE) as workers:
        for number, (checks, names) in enumerate(workers.map(lambda number: run_case(tests.program, room, number), range(len(CASES)))):
            tried |= names
            for what, answered, wanted in checks:
                tests.compare(f"hooks: case {number}: {what}", answered, wanted)
    with open(f"{CONTRIB}/hgtrack.hgrc", encoding="utf-8") as file:
        found = re.findall(r"(?m)^(post|fail)-(\S+)\.hgtrack = hgtrack-parents --hook$", file.read())
    named = sorted({name for _, name in found})
    tests.compare("hooks: each command has both", sorted(found), sorted((when, name) for when in ("post", "fail") for name in named))
    tests.compare("hooks: each of the file was tried", named, sorted(tried | set(UNTRIED)))


def run_quiet(tests):
    """A hook says nothing where all is well, and what is wrong in a line, and the command's status stays."""
    with tests.working_copy() as root:
        init(root)
        with open(f"{root}/.hg/hgrc", "a", encoding="utf-8") as file:
            file.write(f"%include {CONTRIB}/hgtrack.hgrc\n")
        lay_out(root, ["a"])
        hg(root, "add", "-q")
        told = hg(root, "commit", "-m", "one")
        tests.compare("hooks: a commit says nothing of them", (told.returncode, told.stdout, told.stderr), (0, b"", b""))
        tests.compare("hooks: and they ran", tests.run(root, ("status", "-A")), (0, lines("C a"), b""))
        os.rename(f"{root}/a", os.path.join(os.fsencode(root), b"\xe9"))
        told = hg(root, "commit", "-q", "-A", "-m", "two")
        tests.compare("hooks: a name that isn't text", (told.returncode, told.stderr), (0, lines(
            "hgtrack-parents: the name b'\\xe9' isn't UTF-8: nothing was written", "warning: post-commit.hgtrack hook exited with status 1")))


def run_installed(tests):
    """As `make install` puts them in place: the hooks find the script where it stands, in the PATH or not."""
    if shutil.which("make") is None or not os.path.isfile(f"{TOP}/build/hgtrack"):
        tests.skip("no make, or no build/hgtrack, so nothing was installed")
        return
    with tests.working_copy() as room:
        made = subprocess.run(["make", "-o", "build/hgtrack", "install", f"DESTDIR={room}", "PREFIX=/usr"], cwd=TOP, stdin=subprocess.DEVNULL, capture_output=True, timeout=SECONDS)
        there = [f"{room}/usr/{name}" for name in ("bin/hgtrack", "bin/hgtrack-parents", "share/hgtrack/hgtrack.hgrc")]
        tests.compare("hooks: installed", (made.returncode, [os.stat(name).st_mode & 0o777 for name in there]), (0, [0o755, 0o755, 0o644]))
        with open(there[2], encoding="utf-8") as file:
            tests.compare("hooks: they name the script", set(re.findall(r"\.hgtrack = (.*)", file.read())), {'"/usr/bin/hgtrack-parents" --hook'})
        subprocess.run(["make", "-o", "build/hgtrack", "install", f"PREFIX={room}/local"], cwd=TOP, stdin=subprocess.DEVNULL, capture_output=True, timeout=SECONDS, check=True)
        put(f"{room}/hooks", f"%include {room}/local/share/hgtrack/hgtrack.hgrc\n".encode())
        root = f"{room}/root"
        os.mkdir(root)
        init(root)
        lay_out(root, ["a"])
        hg(root, "add", "-q")
        told = hg(root, "commit", "-m", "one", rc=f"{room}/hooks", path=os.environ["PATH"])
        tests.compare("hooks: installed, a commit", (told.returncode, told.stdout, told.stderr), (0, b"", b""))
        tests.compare("hooks: installed, they ran", tests.run(root, ("status", "-A")), (0, lines("C a"), b""))


def run(tests):
    if shutil.which("hg") is None:
        tests.skip("the command hg is not installed, so no hooks were run")
        return
    with tests.working_copy() as room:
        run_commands(tests, room)
    run_quiet(tests)
    run_installed(tests)
