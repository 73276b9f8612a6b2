"""The order in which a save makes things sure, as strace sees it: the data file and what names it before the docket, the docket before the
rename, the rename before the old data file goes, where there is one; and each file by the very open file that was written."""

import os
import re
import shutil
import subprocess

from dirstate import written
from folder import SECONDS, lay_out, put_record

CALLS = "write,pwrite64,writev,pwritev,ftruncate,fsync,fdatasync,rename,renameat,renameat2,unlink,unlinkat,mkdir,mkdirat,link,linkat,symlink,symlinkat"
ROW = re.compile(r"^(?:\d+ +)?(\w+)\((.*)\) += 0$|^(?:\d+ +)?(p?writev?(?:64)?)\((.*)\) += [1-9]\d*$")
# A call on an open file: its name, the file's number and path.
OF_FILE = re.compile(r"^(?:\d+ +)?(\w+)\((\d+)<(/[^>]*)>")
OLD, NEW = (f"dirstate.{it:016x}" for it in (0, 1))


def events(tests, root, words):
    """What the program did below the root, in order: (call, name), with the root's own folder `.` and that of the record `.hg`; and what became
    of the open files that were written."""
    path = f"{tests.room}/strace"
    command = ["strace", "-f", "-y", "-s", "0", "-e", f"trace={CALLS},close,chdir", "-o", path, tests.program, *words]
    ran = subprocess.run(command, cwd=root, stdin=subprocess.DEVNULL, capture_output=True, timeout=SECONDS)
    with open(path, encoding="utf-8", errors="replace") as file:
        rows = file.read().splitlines()
    done, root = [], os.path.realpath(root)
    at = root
    for it in filter(None, map(ROW.match, rows)):
        call, rest = (it[1], it[2]) if it[1] else (it[3], it[4])
        # (the current folder is named where a path is told from it)
        paths = [os.path.join(at, name) for name in re.findall(r'[<"]([^>"]+)[>"]', re.sub("AT_FDCWD<[^>]*>", "", rest))]
        if call == "chdir":
            at = paths[0]
        elif call != "close":
            names = [os.path.relpath(path, root) for path in paths]
            done.append((call.rstrip("v46").removeprefix("p") if "write" in call else call.removesuffix("at2").removesuffix("at"), " ".join(names)))
    return ran, [(call, name) for call, name in done if name and not name.startswith("..")], behind_writes(rows)


def behind_writes(rows):
    """The calls on each open file below `.hg` from its first write on, each run of writes told once."""
    calls = {}
    for call, number, path in (it.groups() for it in filter(None, map(OF_FILE.match, rows))):
        if "/.hg/" in path and ("write" in call or (number, path) in calls):
            told = calls.setdefault((number, path), [])
            if call != "write" or told[-1:] != ["write"]:
                told.append(call)
    return sorted(calls.values())


def in_order(done, wanted):
    """Whether the wanted events are among those that were done, in this order."""
    left = iter(done)
    return all(any(it == event for it in left) for event in wanted)


def saves(new, old=None):
    """The events of a save in the order in which they have to be: the lock first. Before the first docket the folder that names `.hg` is made sure. A data file that
    is put behind is no other than the old one, and stays."""
    rows = [
        ("write", ".hg/wlock-new"), ("link", ".hg/wlock-new .hg/wlock"), ("unlink", ".hg/wlock-new"),
        ("write", f".hg/{new}"), ("fsync", f".hg/{new}"), ("fsync", ".hg"),
        ("write", ".hg/dirstate-new"), ("fsync", ".hg/dirstate-new"), *([] if old else [("fsync", ".")]),
        ("rename", ".hg/dirstate-new .hg/dirstate"), ("fsync", ".hg"),
    ]
    return rows + ([("unlink", f".hg/{old}")] if old and old != new else []) + [("unlink", ".hg/wlock")]


def run_order(tests, what, things, tracked, words, wanted):
    with tests.working_copy() as root:
        lay_out(root, things)
        if tracked:
            put_record(root, *written(tracked))
        ran, done, files = events(tests, root, words)
        tests.compare(f"{what}: its end", (ran.returncode, ran.stderr), (0, b""))
        if not tests.compare(f"{what}: in order", in_order(done, wanted), True):
            print(f"  done     {done}")
        changes = [it for it in done if it[0] not in ("fsync", "fdatasync") and ".hg" in it[1]]
        tests.compare(f"{what}: nothing else is written", changes, [it for it in wanted if it[0] != "fsync"])
        # (the lock needs not be sure)
        tests.compare(f"{what}: each file is made sure where it was written, and stays open", files, [["write"], *2 * [["write", "fsync"]]])
        last = max(i for i, it in enumerate(done) if it[0] == "write" and it[1].startswith(".hg/dirstate."))
        tests.compare(f"{what}: the data file isn't written again", done[last + 1][0] in ("fsync", "fdatasync") and done[last + 1][1] == done[last][1], True)


def run(tests):
    if shutil.which("strace") is None:
        tests.skip("strace is not installed, so the order of syncs was not looked at")
        return
    run_order(tests, "the first add", [".hg/", "a", "d/b"], [], ["add", "a", "d/b"], saves(OLD))
    run_order(tests, "another add", ["a", "d/b", "z"], [b"a", b"d/b"], ["add", "z"], saves(NEW, OLD))
    run_order(tests, "forget", ["a", "d/b"], [b"a", b"d/b"], ["forget", "a"], saves(NEW, OLD))
    behind = [f"d/{it}" for it in range(10)]
    run_order(tests, "an add behind the data file", [*behind, "z"], [it.encode() for it in behind], ["add", "z"], saves(OLD, OLD))
    run_order(tests, "a forget behind the data file", ["a", *behind], [b"a", *(it.encode() for it in behind)], ["forget", "a"], saves(OLD, OLD))
