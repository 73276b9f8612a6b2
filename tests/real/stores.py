"""What `contrib/hgtrack-parents` finds in place of the plain store and in it, put there before a run or during it: nothing is followed, waited for or taken away that isn't
the store's own; and who may read and write what it makes."""

import glob
import os
import re
import shutil
import socket
import stat
import subprocess
import sys

from folder import NOBODY, lay_out, lines, put, seen
from mercurial import hg
from parents import EXPORT, MANY, ODD, commit_names, content_of, export, halted, init, lay_out_many, node_of, script, store

SECONDS = 20
# What a folder beside the working copy has: names as in a store, of a run that was killed, and of what is the user's.
BESIDE = ["lock", "mine", "new-mine/a", "new-mine/files/b", "m-mine"]


def lay(tests, room):
    """A working copy of a commit of two files, and a folder beside it. Answers both."""
    made, root, beside = f"{tests.room}/stores", f"{room}/root", f"{room}/beside"
    if not os.path.exists(made):
        os.mkdir(made)
        init(made)
        lay_out(made, ["a", "d/b"])
        hg(made, "add")
        hg(made, "commit", "-m", "one")
    shutil.copytree(made, root)
    lay_out(beside, BESIDE)
    return root, beside


def brought(root, *words, **how):
    """What a run says, or that it has no end."""
    try:
        told = export(root, *words, timeout=SECONDS, **how)
    except subprocess.TimeoutExpired:
        return "no end"
    return told.returncode, told.stdout, told.stderr


def bind(path):
    """Makes a socket. (Its whole path may be too long for one.)"""
    at = os.getcwd()
    os.chdir(os.path.dirname(path))
    try:
        socket.socket(socket.AF_UNIX).bind(os.path.basename(path))
    finally:
        os.chdir(at)


# What may stand at a name; ROOM is the folder that the working copy and `beside` are in.
KINDS = {
    "a link to a folder": lambda path, room: os.symlink(f"{room}/beside", path),
    "a link to a file": lambda path, room: os.symlink(f"{room}/beside/mine", path),
    "a link to nothing": lambda path, room: os.symlink(f"{room}/beside/none", path),
    "a link to itself": lambda path, _: os.symlink(os.path.basename(path), path),
    "a file": lambda path, _: put(path, b"file\n"),
    "a name of another file": lambda path, room: os.link(f"{room}/beside/mine", path),
    "a fifo": lambda path, _: os.mkfifo(path),
    "a socket": lambda path, _: bind(path),
    "a folder": lambda path, _: lay_out(path, ["x"]),
}


def of_store(root):
    return {path: it for path, it in seen(f"{root}/.hg").items() if b"/plain" in path}


FILES = {"a file", "a name of another file"}


def run_places(tests):
    """What stands in place of the store or its lock and is none: a line tells it, and all stays as it is."""
    wanted = {"": (set(KINDS) - {"a folder"}, ".hg/plain isn't a folder"), "/lock": (set(KINDS) - FILES, ".hg/plain/lock isn't a regular file")}
    for name, (kinds, line) in wanted.items():
        for kind in sorted(kinds):
            for words in ([], ["--hook"], ["--prune", "--verify"]):
                with tests.working_copy() as room:
                    root, beside = lay(tests, room)
                    if name:
                        lay_out(f"{root}/.hg/plain", ["new-a/x"])
                    KINDS[kind](f"{root}/.hg/plain{name}", room)
                    before = seen(beside), of_store(root)
                    told = brought(root, *words)
                    what = f"stores: {kind} at plain{name} {words}"
                    tests.compare(what, told, (1, b"", lines(f"hgtrack-parents: {line}: nothing was written")))
                    tests.compare(f"{what}: nothing changed", (seen(beside), of_store(root)), before)


def texts_of(folder):
    """The bytes of each file below a folder."""
    return {path: it[3] for path, it in seen(folder).items()}


def run_names(tests):
    """What stands at a manifest's or at contents' name and is none gives place, and what it leads to stays; a folder stays, and is told."""
    for kind in KINDS:
        for which in ("manifest", "contents", "both"):
            for words in (["--verify"], ["--hook"]):
                with tests.working_copy() as room:
                    root, beside = lay(tests, room)
                    export(root)
                    whole, before = texts_of(f"{root}/.hg/plain"), seen(beside)
                    for name in store(root)[slice(*{"manifest": (2, 3), "contents": (0, 1), "both": (0, 3, 2)}[which])]:
                        os.remove(f"{root}/.hg/plain/{name}")
                        KINDS[kind](f"{root}/.hg/plain/{name}", room)
                    told, left = brought(root, *words), texts_of(f"{root}/.hg/plain")
                    what = f"stores: {kind} at the name of {which} {words}"
                    if kind == "a folder":
                        tests.compare(what, (told[0], re.sub(b"[mf]-[0-9a-f]{40}", b"NAME", told[2])), (1, lines("hgtrack-parents: .hg/plain/NAME is a folder")))
                    else:
                        # (a hook doesn't look into contents)
                        differ = [it for it in whole if left.get(it) != whole[it]]
                        tests.compare(what, (told[0], told[2], len(differ)), (0, b"", int(words == ["--hook"] and which != "manifest" and kind in FILES)))
                    tests.compare(f"{what}: what is beside", seen(beside), before)


def run_left(tests):
    """Of what is named `new-..` only folders go, of links in them the links alone, and of another user's nothing."""
    with tests.working_copy() as room:
        root, beside = lay(tests, room)
        plain = f"{root}/.hg/plain"
        lay_out(plain, ["new-file", "new-link -> ../../../beside", "new-run/a", "new-run/files/d/b", "new-run/to -> ../../../../beside", "new-run/file -> ../../../../beside/mine", "new-run/waits |"])
        os.link(f"{beside}/mine", f"{plain}/new-run/name")
        deep = f"{plain}/new-deep" + "/d" * 1_500
        os.makedirs(deep)
        before = seen(beside)
        told = brought(root)
        tests.compare("stores: left there", (told[0], told[2], sorted(os.path.basename(it) for it in glob.glob(f"{plain}/new-*") if not it.endswith("new-deep"))), (0, b"", ["new-file", "new-link"]))
        tests.compare("stores: left there: what is beside", seen(beside), before)
    if os.geteuid():
        tests.skip("without root's rights no folder of another user's was put into a store")
        return
    with tests.working_copy() as room:
        root, beside = lay(tests, room)
        lay_out(f"{root}/.hg/plain", ["new-other/a"])
        os.chown(f"{root}/.hg/plain/new-other", NOBODY, NOBODY)
        told = brought(root)
        tests.compare("stores: left there by another user", (told[0], told[2], os.path.exists(f"{root}/.hg/plain/new-other/a")), (0, b"", True))


def run_pruned(tests):
    """What no parent names goes, of a link that alone."""
    with tests.working_copy() as room:
        root, beside = lay(tests, room)
        export(root)
        whole = store(root)
        for number, kind in enumerate(KINDS):
            KINDS[kind](f"{root}/.hg/plain/{'fm'[number % 2]}-{number:040x}", room)
        before = seen(beside)
        told = brought(root, "--prune")
        left = [it for it in store(root) if it not in whole]
        tests.compare("stores: pruned", (told, left), ((0, lines("nothing new", f"{len(KINDS) - 1} files of the store removed"), b""), [it for it in left if os.path.isdir(f"{root}/.hg/plain/{it}")]))
        tests.compare("stores: pruned: what is beside", seen(beside), before)


def exchange(path, other):
    """Puts a link to another folder in a folder's place."""
    os.rename(path, f"{path}-was")
    os.symlink(other, path)


def run_races(tests):
    """The store, or the folder of a run, is exchanged for a link in the middle of a run: where it leads to nothing is written and nothing goes."""
    for what in ("plain", "plain/new-*"):
        with tests.working_copy() as room:
            root, beside = f"{room}/root", f"{room}/beside"
            os.mkdir(root)
            lay_out_many(root)
            lay_out(beside, BESIDE)
            before = seen(beside)
            with halted(root, room) as running:
                exchange(glob.glob(f"{root}/.hg/{what}")[0], beside)
                put(f"{room}/go", b"")
                told = *running.communicate(timeout=SECONDS), running.returncode
            tests.compare(f"stores: {what} is exchanged: what is beside", seen(beside), before)
            # (the folder that was the store has all; that of the run stays, under its new name)
            tests.compare(f"stores: {what} is exchanged: said", told, (lines(f"{node_of(root)}: {MANY} files, {MANY} contents written"), b"", 0))
            plain = f"{root}/.hg/plain-was" if what == "plain" else f"{root}/.hg/plain"
            tests.compare(f"stores: {what} is exchanged: the store", len([it for it in os.listdir(plain) if it[:2] in ("f-", "m-")]), MANY + 1)


def run_modes(tests):
    """What is new has the mode of `.hg`, whatever the mask, but that files can't be run; what was there keeps its own."""
    for mode in (0o755, 0o775, 0o2775, 0o700, 0o750, 0o777, 0o2770):
        for mask in (0o022, 0o077, 0):
            with tests.working_copy() as room:
                root, _ = lay(tests, room)
                os.chmod(f"{root}/a", 0o755)
                hg(root, "commit", "-m", "run")
                os.chmod(f"{root}/.hg", mode)
                told = brought(root, preexec_fn=lambda mask=mask: os.umask(mask))
                modes = {stat.S_IMODE(os.stat(it).st_mode) for it in glob.glob(f"{root}/.hg/plain/*")}
                tests.compare(f"stores: mode {mode:o}, mask {mask:o}", (told[0], stat.S_IMODE(os.stat(f"{root}/.hg/plain").st_mode), modes), (0, mode, {mode & 0o666}))
    with tests.working_copy() as room:
        root, beside = lay(tests, room)
        os.chmod(f"{beside}/mine", 0o600)
        os.mkdir(f"{root}/.hg/plain", 0o700)
        os.link(f"{beside}/mine", f"{root}/.hg/plain/lock")
        os.chmod(f"{root}/.hg", 0o2777)
        told = brought(root)
        modes = [stat.S_IMODE(os.stat(it).st_mode) for it in (f"{root}/.hg/plain", f"{beside}/mine")]
        tests.compare("stores: the modes of what was there", (told[0], modes, content_of(f"{beside}/mine")), (0, [0o700, 0o600], b"mine\n"))


def run_users(tests):
    """Two users of a group bring one working copy's parents over in turn, also where the first one's lock may only be read."""
    python = next((it for it in (sys.executable, "/usr/bin/python3", "/usr/local/bin/python3") if os.geteuid() == 0 and can_run(it)), None)
    if python is None:
        tests.skip("without root's rights, or a python3 that anyone may run, no two users shared a store")
        return
    one, two = ({"user": NOBODY - number, "group": NOBODY - number, "extra_groups": [NOBODY - 3]} for number in (1, 2))
    for lock in (None, 0o644):
        with tests.working_copy() as room:
            script = f"{room}/hgtrack-parents"
            shutil.copyfile(EXPORT, script)
            put(f"{room}/settings", b"[trusted]\nusers = *\n[storage]\ndirstate-v2.slow-path = allow\n")
            root, _ = lay(tests, room)
            hg(root, "copy", "a", "c")
            put(f"{root}/a", b"second\n")
            hg(root, "commit", "-m", "two")
            for at, folders, files in os.walk(root):
                for it in [at, *(f"{at}/{name}" for name in files)]:
                    os.chown(it, NOBODY - 1, NOBODY - 3)
                    os.chmod(it, 0o2775 if it == at else 0o664)
            how = {"python": python, "script": script, "env": {"HGRCPATH": f"{room}/settings", "HOME": room}, "umask": 0o022}
            hg(root, "update", "0")
            told = brought(root, **how, **one)
            tests.compare(f"stores: the first user of two, lock {lock}", told, (0, lines(f"{node_of(root)}: 2 files, 2 contents written"), b""))
            hg(root, "update", "1")
            if lock:
                os.chmod(f"{root}/.hg/plain/lock", lock)
            told = brought(root, "--prune", **how, **two)
            tests.compare(f"stores: the second user of two, lock {lock}", told, (0, lines(f"{node_of(root)}: 3 files, 2 contents written", "2 files of the store removed"), b""))
            its = [os.stat(it) for it in glob.glob(f"{root}/.hg/plain/*")]
            tests.compare(f"stores: the group of all, lock {lock}", {it.st_gid for it in its}, {NOBODY - 3})
            os.chmod(f"{root}/.hg/plain/lock", 0o600)
            told = brought(root, **how, **two)
            tests.compare(f"stores: a lock that may not be read, lock {lock}", told, (1, b"", lines("hgtrack-parents: .hg/plain/lock: Permission denied")))


def can_run(python):
    try:
        return subprocess.run([python, "-c", ""], user=NOBODY, group=NOBODY, extra_groups=[], cwd="/", capture_output=True, timeout=SECONDS).returncode == 0
    except OSError:
        return False


def run_broken(tests):
    """An `hg` that ends in the middle: that is told, and no manifest is written."""
    with tests.working_copy() as room:
        root = f"{room}/root"
        os.mkdir(root)
        lay_out_many(root)
        count = len(hg(root, "debugdata", "-m", "0").stdout) + 4_000
        put(f"{room}/broken", f'#!/bin/sh\nhg "$@" | {{ dd bs=1 count={count} 2>/dev/null; kill -9 $$; }}\n'.encode())
        os.chmod(f"{room}/broken", 0o755)
        told = brought(root, env={"HG": f"{room}/broken"})
        tests.compare("stores: an hg that ends in the middle", (told, glob.glob(f"{root}/.hg/plain/[mn]*")), ((1, b"", lines("hgtrack-parents: hg cat: ended")), []))
        tests.compare("stores: and then one that doesn't", (brought(root)[0], len(store(root))), (0, MANY + 1))


# What comes of `hg cat`, piece by piece, and the files that are read from it, or why it is refused.
SHOWN = [
    ([], []), ([b"1 2\nabc"], [(b"a", b"bc")]), ([b"1 2", b"\na", b"b", b"c1 0\nd"], [(b"a", b"bc"), (b"d", b"")]), ([b"3 1\na\nb\n3 0\n% \r"], [(b"a\nb", b"\n"), (b"% \r", b"")]),
    ([b"1 2\nab"], "hg cat: it ended in the middle of a file"), ([b"1 2\n"], "hg cat: it ended in the middle of a file"), ([b"1 2"], "hg cat: it ended in the middle of a file"),
    ([b"1 -2\nab"], "hg cat: b'1 -2' begins no file"), ([b"a\n"], "hg cat: b'a' begins no file"), ([b"\n"], "hg cat: b'' begins no file"), ([b" 1 2\nabc"], "hg cat: b' 1 2' begins no file"),
]


def run_shown(tests):
    module = script()
    for pieces, wanted in SHOWN:
        shown, found = module.Shown(iter(pieces)), []
        try:
            while it := shown.next():
                found.append((it[0], b"".join(shown.take(it[1]))))
        except module.Refused as why:
            found = str(why)
        tests.compare(f"stores: what hg cat prints: {pieces}", found, wanted)


def run_questions(tests):
    """Contents are asked for by folders where most of what is in them is wanted, and else by up to 99 names."""
    questions = script().questions
    rows = [(f"d{number % 100}/{number}".encode(), b"", b"") for number in range(2_000)] + [(b"top", b"", b"")]
    paths = [path for path, _, _ in rows]
    for what, wanted, kinds in (("all", paths, {b"rootfilesin": 101}), ("one folder", [it for it in paths if it.startswith(b"d7/")], {b"path": 20}), ("one", [b"top"], {b"path": 1}),
                                ("one of each folder", paths[:100], {b"path": 100}), ("half of each folder", paths[:1_000], {b"path": 1_000}), ("most", paths[100:], {b"rootfilesin": 101})):
        asked = list(questions(rows, wanted))
        patterns = [it for _, some, _ in asked for it in some]
        found = {kind: sum(it.startswith(kind + b":") for it in patterns) for kind in {it.partition(b":")[0] for it in patterns}}
        tests.compare(f"stores: how to ask for {what}", (found, [it for _, _, some in asked for it in some], all(len(some) < 100 or it[0].startswith(b"rootfilesin") for _, it, some in asked)),
                      (kinds, wanted, True))


# Names that an archive has in other places than short ones.
LONG = ["d" * 150 + "/" + "e" * 150, "ä" * 90, "z/" + "ö" * 40]


def run_subrepositories(tests):
    """A commit that has subrepositories is brought over without them: none is opened, also one that is missing, or of another kind, or in a folder that is none of them."""
    for what, more in (("few files", []), ("many files", [f"more/{number % 9}/{number}" for number in range(300)])):
        for sub in ("sub = ../other", "sub = [git]../other", "sub = [svn]../other", "../beside/sub = ../other"):
            with tests.working_copy() as room:
                root = f"{room}/root"
                os.mkdir(root)
                init(root)
                # (a text and a flag for each name)
                given = {name: (name, "") for name in ["a", "d/b", "sub/a", *ODD, *LONG, *more]}
                given |= {".hgsub": (sub, ""), ".hgsubstate": (f"{'1' * 40} {sub.partition(' ')[0]}", ""), "l": ("d/b", "l"), "run": ("run", "x"), "empty": ("", "")}
                if not commit_names(room, root, *(f"{name}\t{text}\t{flag}" for name, (text, flag) in given.items())):
                    tests.skip("this hg has other insides, so no commit with subrepositories was made")
                    continue
                told = brought(root)
                rows = re.findall("([^\0]+)\0([0-9a-f]{40})[lx]?\n", (content_of(f"{root}/.hg/plain/m-{node_of(root)}") or b"").decode())
                texts = {path: content_of(f"{root}/.hg/plain/f-{it}") for path, it in rows}
                tests.compare(f"stores: {sub}, {what}", (told[0], told[2], texts), (0, b"", {path: text.encode() for path, (text, _) in given.items()}))
                tests.compare(f"stores: {sub}, {what}: nothing is made", (os.listdir(root), sorted(os.listdir(room))), ([".hg"], ["commitnames.py", "root"]))


def run(tests):
    if shutil.which("hg") is None:
        tests.skip("the command hg is not installed, so no store was written")
        return
    os.environ["HGRCPATH"] = ""
    run_places(tests)
    run_names(tests)
    run_left(tests)
    run_pruned(tests)
    run_races(tests)
    run_modes(tests)
    run_users(tests)
    run_broken(tests)
    run_shown(tests)
    run_questions(tests)
    run_subrepositories(tests)
