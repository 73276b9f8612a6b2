"""Working copies of a commit: `contrib/hgtrack-parents` brings the parents into the plain store, and `hgtrack status` then prints what `hg status` prints,
for each flag and for unions of them."""

import fcntl
import glob
import importlib.machinery
import importlib.util
import os
import re
import shutil
import signal
import subprocess
import sys
import time
from contextlib import contextmanager

from folder import lay_out, lines, put, seen
from mercurial import hg

EXPORT = os.path.join(os.path.dirname(os.path.dirname(os.path.dirname(os.path.abspath(__file__)))), "contrib", "hgtrack-parents")
PIECE = 65_536

FLAGS = [
    "", "-m", "-a", "-r", "-d", "-c", "-u", "-i", "-A", "-n", "-0", "-C",
    "--modified", "--added", "--removed", "--deleted", "--clean", "--unknown", "--ignored", "--all", "--no-status", "--print0", "--copies",
    "-m -a", "-r -d", "-c -m -u", "-A -n", "-A -0", "-C -a -m", "-n -C", "-0 -n", "-c -C -0", "-d -u -i -n", "-a -r -C --print0",
]

# An extension whose command commits files of any names, also of those that Mercurial refuses to add, and prints the commit. A line is a name, which is its text too, or a
# name, a text and a flag with tabs between.
COMMIT_NAMES = b"""from mercurial import metadata, registrar
cmdtable = {}
@registrar.command(cmdtable)(b"commitnames", [], b"LINES")
def commitnames(ui, repo, lines):
    null, files = bytes(20), sorted(line.split(b"\\t") if b"\\t" in line else [line, line, b""] for line in lines.split(b"\\n"))
    with repo.lock(), repo.transaction(b"commitnames") as changes:
        rows = [(name, repo.file(name).add(text, {}, changes, len(repo), null, null), flag) for name, text, flag in files]
        manifests = repo.manifestlog.getstorage(b"")._revlog
        manifests.addrevision(b"".join(b"%s\\0%s%s\\n" % (name, node.hex().encode(), flag) for name, node, flag in rows), changes, len(repo), null, null)
        commit = repo.changelog.add(manifests.tip(), metadata.ChangingFiles(touched=[name for name, _, _ in files]), b"names", changes, null, null, b"test", b"0 0")
        ui.write(commit.hex().encode())
"""
# Names that no file of a working copy has; ROOM is a folder beside it, in which a file `mine` stands.
HOSTILE = ["ROOM/mine", "/", "/a", "../mine", "../../../mine", "..", ".", "./a", "a/.", "a/..", "a/../../mine", "a//b", "a/", ".hg/hgrc", ".hg", ".HG/hgrc", "a/.hg/hgrc", "a/b/.Hg", "a/.hg"]

# What happens, and its steps, after each of which the parents are brought over and the listings compared. In a step `hg ..` runs the command, `+name` makes what
# folder.lay_out reads, `*name TEXT` puts a text into a file, `#name PLACE` exchanges one byte of it, `!name` and `~name` make it executable and not, and `-name` takes it away.
TREE = ["+a", "+b.c", "+b/c", "+b/d/e", "+b/d/f", "+src/k0.c", "+src/k1.c", "+src/s 0.c", "+z/\u00e4/\u00f6.txt", "+x", "!x", "+d/y", "!d/y", "+l -> a", "+d/m -> gone", "+empty", "*empty "]
ODD = ["set:all()", "path:y", "glob:*", "re:.*", "relglob:x", "listfile:x", "listfile0:x", "include:x",
       "rootfilesin:", "%p", "%%", "\\", "[a]", "#x", "-x", "d:/set:x", "a,b", " a ", "$HOME"]
CASES = [
    ("no parent", [["+a", "hg add a", "+b"]]),
    ("nothing but a commit", [[*TREE, "hg add", "hg commit -m one"]]),
    ("every letter", [
        [*TREE, "hg add", "hg commit -m one", "*a another", "hg remove b.c", "-b/c", "+new", "hg add new", "+u", "hg copy b/d/e b/d/g", "hg rename src/k0.c src/k2.c"],
        ["hg commit -m two"],
        ["hg copy a e/a", "*e/a third", "hg forget b/d/f", "-x", "hg remove d/y", "+d/y"],
        ["hg copy --after --force src/k1.c d/y"],
    ]),
    ("what a file is", [
        [*TREE, "hg add", "hg commit -m one"],
        ["~x", "!a", "-l", "+l -> b", "-d/m", "+d/m", "-b.c", "+b.c -> a"],
        ["-l", "+l", "-src/k0.c", "+src/k0.c/below", "-z", "+z -> b"],
    ]),
    ("bytes", [
        ["+a", "*a one\n", "+b", "*b two\n", f"+piece", f"%piece {PIECE}", "+more", f"%more {PIECE + 1}", "+large", f"%large {3 * PIECE + 7}", "+empty", "*empty ", "hg add", "hg commit -m one"],
        ["*a ONE\n", f"#piece {PIECE - 1}", f"#more {PIECE}", f"#large {2 * PIECE - 1}", "*empty x"],
        [f"#piece {PIECE - 1}", f"#large {2 * PIECE - 1}", "*more "],
    ]),
    ("a merge", [
        ["+a", "*a one", "+b", "*b one", "+d/c", "hg add", "hg commit -m one", "*a two", "+d/n", "hg add d/n", "hg commit -m two"],
        ["hg update 0", "*b three", "+m", "hg add m", "hg remove d/c", "hg commit -m three"],
        ["hg merge --tool :local 1"],
        ["*d/n other", "+u", "-m"],
        ["+m", "hg commit -m four", "hg copy d/n d/o"],
    ]),
    ("names that read as patterns", [
        [*(f"+{name}" for name in ODD), "hg add", "hg commit -m one", "*set:all() other"],
        [f"*{ODD[1]} other", "hg commit -m two", f"*{ODD[2]} other"],
    ]),
    ("no file is left", [["+a", "hg add", "hg commit -m one", "hg remove a", "hg commit -m two"]]),
    ("updated back and forth", [
        [*TREE, "hg add", "hg commit -m one", "*a two", "hg remove b/c", "hg commit -m two"],
        ["hg update 0"], ["hg update 1", "*a three"], ["hg update null"],
    ]),
]


def script():
    """The script as a module: its `Mercurial` answers many commands with one start of `hg`."""
    loader = importlib.machinery.SourceFileLoader("hgtrack_parents", EXPORT)
    module = importlib.util.module_from_spec(importlib.util.spec_from_loader("hgtrack_parents", loader))
    loader.exec_module(module)
    return module


def act(tests, root, what, action):
    """Does one action of a step; where `hg` refuses it, that is a failure of the case."""
    name, _, text = action[1:].partition(" ")
    path = os.path.join(root, name)
    if action.startswith("hg "):
        ran = hg(root, *action[3:].split(" "))
        # (an update or a merge that leaves files unresolved ends with 1)
        if ran.returncode and not re.match("hg (update|merge)", action):
            tests.compare(f"parents: {what}: {action}", ran.stderr, b"")
    elif action.startswith("+"):
        lay_out(root, [action[1:]])
    elif action.startswith("*"):
        put(path, text.encode())
    elif action.startswith("%"):
        put(path, bytes(i * i % 251 for i in range(int(text))))
    elif action.startswith("#"):
        with open(path, "r+b") as file:
            file.seek(int(text))
            old = file.read(1)
            file.seek(int(text))
            file.write(bytes([old[0] ^ 1]))
    elif action.startswith("!"):
        os.chmod(path, 0o755)
    elif action.startswith("~"):
        os.chmod(path, 0o644)
    else:
        path = os.path.join(root, action[1:])
        if os.path.isdir(path) and not os.path.islink(path):
            shutil.rmtree(path)
        else:
            os.remove(path)


def init(root, *words):
    """A new repository, whose own configuration lets Mercurial without its Rust extensions read the record."""
    hg(root, "init", *words)
    with open(f"{root}/.hg/hgrc", "a", encoding="utf-8") as file:
        file.write("[storage]\ndirstate-v2.slow-path = allow\n")


def given(root, *words, env=None, python=sys.executable, script=EXPORT, **how):
    """How the script is started."""
    env = {**os.environ, "HGRCPATH": "", "PYTHONDONTWRITEBYTECODE": "1", **(env or {})}
    return {"args": [python, script, *words], "cwd": root, "env": env, "stdin": subprocess.DEVNULL, "stdout": subprocess.PIPE, "stderr": subprocess.PIPE, **how}


def export(root, *words, timeout=300, **how):
    return subprocess.run(**given(root, *words, **how), timeout=timeout)


# An `hg` that answers the first bytes of what it should, and the rest once a file GO is there.
HALTING = """#!/bin/sh
hg "$@" | {{ dd bs=1 count={count} 2>/dev/null; until [ -e '{go}' ]; do sleep 0.02; done; cat; }}
"""


@contextmanager
def halted(root, room, *words):
    """A run that stands still behind about the half of the contents, once some of them are in the store; it goes on once `room` has a file `go`."""
    texts = sum(len(name) + os.path.getsize(f"{root}/{name}") + 10 for name in hg(root, "files", "-r", ".").stdout.decode().split())
    put(f"{room}/halting", HALTING.format(count=len(hg(root, "debugdata", "-m", "0").stdout) + texts // 2, go=f"{room}/go").encode())
    os.chmod(f"{room}/halting", 0o755)
    running = subprocess.Popen(**given(root, *words, env={"HG": f"{room}/halting"}, start_new_session=True))
    try:
        end = time.monotonic() + 60
        while not glob.glob(f"{root}/.hg/plain/f-*") and running.poll() is None and time.monotonic() < end:
            time.sleep(0.01)
        yield running
    finally:
        try:
            os.killpg(running.pid, signal.SIGKILL)
        except ProcessLookupError:
            pass
        running.communicate()


def store(root):
    return sorted(name for name in os.listdir(f"{root}/.hg/plain") if name != "lock")


def node_of(root):
    return hg(root, "log", "-r", ".", "-T", "{node}").stdout.decode()


def content_of(path):
    """A file's bytes, or None where it is absent."""
    if not os.path.exists(path):
        return None
    with open(path, "rb") as file:
        return file.read()


def run_case(tests, mercurial, what, steps):
    with tests.working_copy() as root:
        init(root)
        for number, step in enumerate(steps, 1):
            for action in step:
                act(tests, root, what, action)
            brought = export(root)
            tests.compare(f"parents: {what}: step {number}: brought over", (brought.returncode, brought.stderr), (0, b""))
            with mercurial(root) as asked:
                for flags in FLAGS:
                    words = ("status", *flags.split())
                    tests.compare(f"parents: {what}: step {number}: {' '.join(words)}", tests.run(root, words), (0, asked.ask(*words), b""))


def run_store(tests):
    """What the export writes: all contents before the manifest, nothing twice, and what no parent names goes with `--prune`."""
    with tests.working_copy() as root:
        init(root)
        lay_out(root, ["a", "d/b"])
        hg(root, "add")
        hg(root, "commit", "-m", "one")
        first = node_of(root)
        told = export(f"{root}/d")
        tests.compare("parents: the first time", (told.returncode, told.stdout, told.stderr), (0, lines(f"{first}: 2 files, 2 contents written"), b""))
        before = seen(f"{root}/.hg/plain")
        tests.compare("parents: nothing new", export(root).stdout, lines("nothing new"))
        tests.compare("parents: nothing was touched", seen(f"{root}/.hg/plain"), before)
        put(f"{root}/a", b"another\n")
        hg(root, "commit", "-m", "two")
        second = node_of(root)
        tests.compare("parents: one content more", export(root).stdout, lines(f"{second}: 2 files, 1 contents written"))
        kept = store(root)
        tests.compare("parents: both commits are there", [it for it in kept if it.startswith("m-")], sorted([f"m-{first}", f"m-{second}"]))
        tests.compare("parents: pruned", export(root, "--prune").stdout, lines("nothing new", "2 files of the store removed"))
        tests.compare("parents: one commit is left", (f"m-{first}" in store(root), len(store(root))), (False, 3))
        tests.compare("parents: the status still stands", tests.run(root, ("status", "-A")), (0, lines("C a", "C d/b"), b""))
        os.remove(f"{root}/.hg/plain/{[it for it in store(root) if it.startswith('f-')][0]}")
        tests.compare("parents: a content that was lost comes back", (export(root).stdout, len(store(root))), (lines(f"{second}: 2 files, 1 contents written"), 3))


def lay_out_commit(root):
    """A commit of three files, of which one has a parent and one a copy source, and a text that begins as what is recorded of a copy does."""
    init(root)
    lay_out(root, ["a", "d/b"])
    put(f"{root}/meta", b"\x01\nmeta\n\x01\n")
    hg(root, "add")
    hg(root, "commit", "-m", "one")
    put(f"{root}/a", b"second\n")
    hg(root, "copy", "d/b", "d/c")
    hg(root, "commit", "-m", "two")


def run_damage(tests):
    """A manifest that isn't the commit's is written anew, by hand wherever it differs and by a hook where it is absent, empty or not sound; so are contents
    that are gone, and with --verify those that differ."""
    with tests.working_copy() as root:
        lay_out_commit(root)
        export(root)
        node = node_of(root)
        path = f"{root}/.hg/plain/m-{node}"
        whole = content_of(path)
        rows = whole.split(b"\n")
        anew, nothing = lines(f"m-{node}: not what Mercurial has, written anew"), lines("nothing new")
        for what, text, by_hook in [
            ("empty", b"", True), ("a row less", b"\n".join(rows[1:]), False), ("cut", whole[:-9], True), ("no last line feed", whole[:-1], True),
            ("out of order", b"\n".join([rows[1], rows[0], *rows[2:]]), True), ("twice", whole + whole, True), ("another name", b"a\n" + whole, False),
            ("no rows", b"a\n", True), ("another flag", whole[:-1] + b"x\n", False), ("other bytes behind it", whole + b"\n", True),
        ]:
            put(path, text)
            told = export(root, "--hook")
            tests.compare(f"parents: {what}: a hook", (told.returncode, told.stdout, told.stderr, content_of(path) == whole), (0, b"", b"", by_hook))
            put(path, text)
            told = export(root)
            tests.compare(f"parents: {what}: by hand", (told.returncode, told.stdout, told.stderr, content_of(path)), (0, anew, b"", whole))
            tests.compare(f"parents: {what}: the status stands", tests.run(root, ("status", "-A")), (0, lines("C a", "C d/b", "C d/c", "C meta"), b""))
        names = [it for it in store(root) if it.startswith("f-")]
        compared = f"{node}: 4 files compared"
        tests.compare("parents: verified", (export(root, "--verify").stdout, len(names)), (lines(compared), 4))
        for name in [it for it in names if it[2:].encode() in whole]:
            path = f"{root}/.hg/plain/{name}"
            whole_contents = content_of(path)
            for text in (b"", whole_contents + b"x", b"other\n"):
                put(path, text)
                tests.compare("parents: contents that differ, not compared", export(root).stdout, nothing)
                told = export(root, "--verify")
                answered = (told.returncode, told.stdout, told.stderr, content_of(path))
                tests.compare("parents: contents that differ", answered, (0, lines(f"{name}: not what Mercurial has, written anew", compared), b"", whole_contents))
            os.remove(path)
            told = export(root, "--hook")
            tests.compare("parents: contents that are gone", (told.returncode, told.stdout, told.stderr, content_of(path)), (0, b"", b"", whole_contents))


def run_hook(tests):
    """As a hook it says nothing, and asks `hg` only where the store lacks something; as the hook `update` it says why not."""
    with tests.working_copy() as root:
        lay_out_commit(root)
        tests.compare("parents: a hook, the first time", (export(root, "--hook").stdout, len(store(root))), (b"", 5))
        for words in ([], ["--hook"]):
            env = {"HG": "/bin/false"}
            told = export(root, *words, env=env)
            wanted = (0, b"", b"") if words else (1, b"", lines("hgtrack-parents: hg: ended"))
            tests.compare(f"parents: nothing is missing, and no hg {words}", (told.returncode, told.stdout, told.stderr), wanted)
        told = export(root, env={"HG_HOOKTYPE": "update"})
        tests.compare("parents: as the hook of update", (told.returncode, told.stderr), (1, lines(
            "hgtrack-parents: a hook `update` makes `hg shelve` break the repository: take it out, and include hgtrack.hgrc")))
    with tests.working_copy() as root:
        lay_out(root, ["a"])
        for words in (["init"], ["add", "a"], ["commit", "-m", "one", "-u", "test"]):
            subprocess.run(["hg", *words], cwd=root, env={**os.environ, "HGRCPATH": ""}, stdin=subprocess.DEVNULL, check=True)
        told = export(root, "--hook")
        tests.compare("parents: a hook beside a dirstate of the first version", (told.returncode, told.stdout, told.stderr, os.path.exists(f"{root}/.hg/plain")), (0, b"", b"", False))


def run_empty(tests):
    """A commit without files is brought over once: then a hook asks no `hg`, but where its manifest, or the mark that it is empty by right, is gone."""
    with tests.working_copy() as root:
        init(root)
        for action in ("+a", "hg add a", "hg commit -m one", "hg remove a", "hg commit -m two"):
            act(tests, root, "no files", action)
        node = node_of(root)
        told = export(root, "--hook")
        tests.compare("parents: no files", (told.returncode, told.stdout, told.stderr, store(root)), (0, b"", b"", [f"e-{node}", f"m-{node}"]))
        before = seen(f"{root}/.hg/plain")
        told = export(root, "--hook", env={"HG": "/bin/false"})
        tests.compare("parents: no files: nothing is missing, and no hg", (told.returncode, told.stdout, told.stderr, seen(f"{root}/.hg/plain") == before), (0, b"", b"", True))
        tests.compare("parents: no files: by hand", export(root, "--verify").stdout, lines(f"{node}: 0 files compared"))
        for name in store(root):
            os.remove(f"{root}/.hg/plain/{name}")
            told = export(root, "--hook")
            tests.compare(f"parents: no files: {name[:2]} is gone", (told.returncode, told.stderr, store(root)), (0, b"", [f"e-{node}", f"m-{node}"]))
        tests.compare("parents: no files: pruned", (export(root, "--prune").stdout, store(root)), (lines("nothing new", "0 files of the store removed"), [f"e-{node}", f"m-{node}"]))
        hg(root, "update", "0")
        export(root, "--prune")
        tests.compare("parents: no files: both go", [it[:2] for it in store(root)], ["f-", "m-"])


MANY = 400


def lay_out_many(root):
    init(root)
    lay_out(root, [f"d{number % 9}/{number}" for number in range(MANY)])
    hg(root, "add")
    hg(root, "commit", "-m", "one")


def run_killed(tests):
    """What a killed run left behind goes with the next one, and one run waits for another."""
    with tests.working_copy() as room:
        root = f"{room}/root"
        os.mkdir(root)
        lay_out_many(root)
        with halted(root, room) as running:
            pass
        tests.compare("parents: killed", (running.returncode, len(glob.glob(f"{root}/.hg/plain/new-*")), glob.glob(f"{root}/.hg/plain/m-*")), (-9, 1, []))
        lay_out(f"{root}/.hg/plain", ["new-other/files/d/a", "new-other/manifest"])
        told = export(root)
        tests.compare("parents: after a run that was killed", (told.returncode, told.stderr, len(store(root)), glob.glob(f"{root}/.hg/plain/new-*")), (0, b"", MANY + 1, []))
        with open(f"{root}/.hg/plain/lock", "rb") as file:
            fcntl.flock(file, fcntl.LOCK_EX)
            waiting = subprocess.Popen([sys.executable, EXPORT], cwd=root, env={**os.environ, "HGRCPATH": ""}, stdin=subprocess.DEVNULL, stdout=subprocess.PIPE)
            try:
                ended = waiting.wait(2)
            except subprocess.TimeoutExpired:
                ended = None
        tests.compare("parents: one waits for another", (ended, waiting.communicate(timeout=60)[0], waiting.returncode), (None, lines("nothing new"), 0))


def run_refused(tests):
    """A name that isn't text and a large file are named, and nothing is written; outside of a repository and without `hg` the reason is told."""
    with tests.working_copy() as root:
        tests.compare("parents: no repository", (export(root).returncode, export(root).stderr), (1, lines("hgtrack-parents: no .hg here or above")))
        init(root)
        put(os.path.join(os.fsencode(root), b"caf\xe9"), b"x\n")
        put(f"{root}/a", b"x\n")
        hg(root, "add")
        hg(root, "commit", "-m", "one")
        told = export(root)
        tests.compare("parents: a name that isn't text", (told.returncode, told.stderr), (1, lines("hgtrack-parents: the name b'caf\\xe9' isn't UTF-8: nothing was written")))
        tests.compare("parents: nothing was written", os.path.exists(f"{root}/.hg/plain"), False)
    with tests.working_copy() as root:
        init(root)
        with open(f"{root}/.hg/hgrc", "a", encoding="utf-8") as file:
            file.write(f"[extensions]\nlargefiles =\n[largefiles]\nusercache = {root}/.hg/cached\n")
        lay_out(root, ["a", "d/big"])
        hg(root, "add", "a")
        hg(root, "add", "--large", "d/big")
        hg(root, "commit", "-m", "one")
        told = export(root)
        line = lines("hgtrack-parents: b'd/big' is a large file: nothing was written")
        tests.compare("parents: a large file", (told.returncode, told.stderr, os.path.exists(f"{root}/.hg/plain")), (1, line, False))
    with tests.working_copy() as root:
        lay_out(root, [".hg/"])
        put(f"{root}/.hg/requires", b"another\n")
        told = export(root)
        tests.compare("parents: no repository of Mercurial's", (told.returncode, told.stderr.startswith(b"hgtrack-parents: hg: abort: ")), (1, True))
        told = export(root, env={"HG": f"{root}/absent"})
        tests.compare("parents: no hg", (told.returncode, told.stderr), (1, lines("hgtrack-parents: hg: No such file or directory")))


def commit_names(room, root, *names):
    """Has the working copy be at a commit of these names, which the null parent precedes; answers whether Mercurial did it."""
    put(f"{room}/commitnames.py", COMMIT_NAMES)
    made = hg(root, "--config", f"extensions.commitnames={room}/commitnames.py", "commitnames", "\n".join(names))
    return made.returncode == 0 and hg(root, "debugsetparents", made.stdout.decode()).returncode == 0


def beside_store(room):
    """What stands below a folder, without what is below a folder `.hg`, where Mercurial writes."""
    return {path: it for path, it in seen(room).items() if b"/.hg/" not in path and not path.endswith(b"/.hg")}


def run_names(tests):
    """A name that leads elsewhere is told, and then nothing is written and nothing else changes; odd ones that lead nowhere are brought over."""
    for name in HOSTILE:
        with tests.working_copy() as room:
            root, bad = f"{room}/d/root", name.replace("ROOM", room)
            os.makedirs(root)
            init(root)
            for it in (f"{room}/mine", f"{room}/d/mine", f"{root}/mine"):
                put(it, b"mine\n")
            # (a name that comes before it and one that comes behind)
            if not commit_names(room, root, "!", bad, "z"):
                tests.skip(f"this hg has other insides, so no commit of {name} was made")
                continue
            before = beside_store(room)
            told = export(root)
            line = lines(f"hgtrack-parents: the name {bad.encode()!r} is none of a file in a working copy: nothing was written")
            tests.compare(f"parents: the name {name}", (told.returncode, told.stdout, told.stderr), (1, b"", line))
            tests.compare(f"parents: the name {name}: nothing changed", (beside_store(room), os.path.lexists(f"{root}/.hg/plain")), (before, False))
    # (Mercurial can't keep the contents of so long a name)
    fault_of, long = script().fault_of, b"d" * 255 + b"/"
    for name, is_fine in ((255 * long + 255 * b"x", True), (255 * long + 256 * b"x", False), (2_047 * b"d/" + b"x", True), (2_048 * b"d/" + b"x", False)):
        wanted = None if is_fine else f"the name {name[:40]!r}.. is over 65535 bytes or 2048 components"
        tests.compare(f"parents: a name of {len(name)} bytes", fault_of(name), wanted)
    odd = sorted([*ODD, "a\r", " ", "d/b\r/ c ", ".hgx/a", "a/...", "..a/b", ".../a", "d/.hg.", "%s%p"])
    for more in ([], [f"more/{number % 9}/{number}" for number in range(200)]):
        with tests.working_copy() as room:
            init(room)
            if not commit_names(room, room, *odd, *more):
                tests.skip("this hg has other insides, so no commit of odd names was made")
                continue
            told, node = export(room), node_of(room)
            count = len(odd) + len(more)
            tests.compare(f"parents: {count} names, some odd", (told.returncode, told.stdout, told.stderr), (0, lines(f"{node}: {count} files, {count} contents written"), b""))
            rows = re.findall("([^\\0]+)\\0([0-9a-f]{40})\n", (content_of(f"{room}/.hg/plain/m-{node}") or b"").decode())
            tests.compare(f"parents: {count} names, some odd: the texts", [(path, content_of(f"{room}/.hg/plain/f-{it}")) for path, it in rows],
                          [(path, path.encode()) for path in sorted([*odd, *more], key=str.encode)])


# Settings by which a working copy has other bytes than the commit, or `hg cat` prints others, or prints them otherwise.
SETTINGS = b"""[extensions]
%s
eol =
[keyword]
** =
[keywordmaps]
Id = {file|basename}
[encode]
*.txt = tr a-z A-Z
[decode]
*.txt = tr A-Z a-z
[alias]
cat = cat --decode
[defaults]
cat = --decode
[ui]
archivemeta = yes
verbose = yes
tweakdefaults = yes
"""


def run_settings(tests):
    """The contents are the commit's, whatever is set."""
    texts = {"a.txt": b"$Id$ ABC\n", "b": b"$Id$\none\ntwo\n", "c": b"one\r\n$Id$\r\n", ".hgeol": b"[patterns]\n** = native\n[repository]\nnative = CRLF\n"}
    for extension in (b"keyword =", b"hgext.keyword ="):
        with tests.working_copy() as root:
            init(root)
            for name, text in texts.items():
                put(f"{root}/{name}", text)
            hg(root, "add")
            hg(root, "commit", "-m", "one")
            with open(f"{root}/.hg/hgrc", "ab") as file:
                file.write(SETTINGS % extension)
            for words in ([], ["--verify"]):
                told = export(root, *words)
                rows = re.findall("([^\\0]+)\\0([0-9a-f]{40})\n", (content_of(f"{root}/.hg/plain/m-{node_of(root)}") or b"").decode())
                tests.compare(f"parents: settings, {extension}{words}", (told.returncode, told.stderr, {path: content_of(f"{root}/.hg/plain/f-{it}") for path, it in rows}), (0, b"", texts))


def run_trees(tests):
    """A repository that keeps a manifest for each directory."""
    with tests.working_copy() as root:
        init(root, "--config", "experimental.treemanifest=yes")
        lay_out(root, ["a", "d/b", "d/e/c", "d.c", "e -> a"])
        os.chmod(f"{root}/d/b", 0o755)
        hg(root, "add")
        hg(root, "commit", "-m", "one")
        told = export(root)
        tests.compare("parents: a manifest for each directory", (told.returncode, told.stdout, told.stderr), (0, lines(f"{node_of(root)}: 5 files, 5 contents written"), b""))
        tests.compare("parents: a manifest for each directory, the store", content_of(f"{root}/.hg/plain/m-{node_of(root)}").count(b"\n"), 5)
        tests.compare("parents: a manifest for each directory, once more", export(root).stdout, lines("nothing new"))


def run(tests):
    if shutil.which("hg") is None:
        tests.skip("the command hg is not installed, so no parents were brought over")
        return
    os.environ["HGRCPATH"] = ""
    mercurial = script().Mercurial
    for what, steps in CASES:
        run_case(tests, mercurial, what, steps)
    run_store(tests)
    run_damage(tests)
    run_hook(tests)
    run_empty(tests)
    run_killed(tests)
    run_refused(tests)
    run_names(tests)
    run_settings(tests)
    run_trees(tests)
