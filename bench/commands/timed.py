"""Commands that change the record, over many files."""

import hashlib
import os
import shutil
import subprocess
import sys

from dirstate import P1_TRACKED, WDIR_TRACKED, written
from laying import PARENTS, in_directories, lay_record, make_files, manifest_of, put_new
from timing import FEW, MANY, RUNS


def contents_of(path):
    return b"%s\n" % path * 3


def adding(bench):
    """Adding many files by one command, each time to no record."""
    loop, root, paths = bench.compiled("commands/lstats"), f"{bench.room}/adding", in_directories(FEW)
    make_files(root, paths)
    own, other = [], []
    for _ in range(RUNS):
        shutil.rmtree(f"{root}/.hg", ignore_errors=True)
        os.makedirs(f"{root}/.hg")
        own.append(bench.once([bench.program, "add", *paths], root)[0])
        other.append(bench.once([loop, *paths], root)[0])
    print(f"| `add` of {FEW:,} files by one command, no record | {min(own):.3f} s, the C loop {min(other):.3f} s | | |")
    bench.tell("its time over the C loop's", min(own) / min(other), 3)
    shutil.rmtree(root)


def removing(bench):
    """Taking away clean files of a commit by one command, each time the same ones. The loop asks each by lstat, unlinks it and writes the record once;
    another one also reads and compares what the program has to."""
    loop, roots, listed = bench.compiled("commands/removed"), [f"{bench.room}/removing{name}" for name in ("", "-loop", "-compared")], f"{bench.room}/removing.txt"
    paths = sorted(it.encode() for it in in_directories(MANY))
    gone = paths[::MANY // 1_000]
    ids = {path: hashlib.sha1(path).hexdigest() for path in paths}
    record = written(paths, WDIR_TRACKED | P1_TRACKED, p1=PARENTS[0])
    manifest, stored = manifest_of(ids), f".hg/plain/m-{PARENTS[0].hex()}"
    old, new = f"{0:016x}", f"{1:016x}"
    with open(listed, "w", encoding="utf-8") as file:
        file.writelines(f"{path.decode()}\t{ids[path]}\n" for path in gone)
    for root in roots:
        make_files(root, [it.decode() for it in paths])
    taken, memory = [[], [], []], 0
    for _ in range(RUNS):
        for root in roots:
            lay_record(root, record)
            put_new(f"{root}/{stored}", manifest)
            for path in gone:
                put_new(os.fsencode(root) + b"/" + path, contents_of(path))
                put_new(f"{root}/.hg/plain/f-{ids[path]}", contents_of(path))
        seconds, most = bench.once([bench.program, "remove", *(it.decode() for it in gone)], roots[0])
        size = str(os.path.getsize(f"{roots[0]}/.hg/dirstate.{new}"))
        taken[0].append(seconds)
        taken[1].append(bench.once([loop, old, new, size, listed], roots[1])[0])
        taken[2].append(bench.once([loop, old, new, size, listed, stored], roots[2])[0])
        memory = max(memory, most)
        for root in roots:
            if any(os.path.lexists(os.fsencode(root) + b"/" + path) for path in gone):
                sys.exit(f"{root}: a file is left")
    own, other, comparing = (min(it) for it in taken)
    print(f"| `remove` of {len(gone):,} clean files of {MANY:,} | {own:.3f} s, the C loop {other:.3f} s, {own / other:.2f} times | | |")
    print(f"| the C loop that also reads the manifest and compares the bytes | {comparing:.3f} s, {own / comparing:.2f} times | | |")
    print(f"| its peak memory | {memory:.2f} MB | | |")
    for root in roots:
        shutil.rmtree(root)


def moving(bench):
    """Setting the parents, from one manifest to another that differs from it in each tenth path, and from one to both."""
    root, paths = f"{bench.room}/moving", sorted(it.encode() for it in in_directories(MANY))
    ids = [{path: hashlib.sha1(path + b"2" * (number and i % 10 == 0)).hexdigest() for i, path in enumerate(paths)} for number in (0, 1)]
    record = written(paths, WDIR_TRACKED | P1_TRACKED, p1=PARENTS[0])
    for what, nodes in (("one other parent", PARENTS[1:]), ("both", PARENTS)):
        seconds, most = [], 0
        for _ in range(RUNS):
            lay_record(root, record)
            for node, its in zip(PARENTS, ids):
                put_new(f"{root}/.hg/plain/m-{node.hex()}", manifest_of(its))
            at, memory = bench.once([bench.program, "debugsetparents", *(it.hex() for it in nodes)], root)
            seconds, most = [*seconds, at], max(most, memory)
        print(f"| `debugsetparents` over {MANY:,} files, {what}: manifests of {MANY:,} lines | {min(seconds):.3f} s, {most:.2f} MB | | |")
    shutil.rmtree(root)


def calls_of(bench, command, folder, given=None):
    """How many system calls a run makes, by strace; none where that isn't there."""
    strace, told = shutil.which("strace"), f"{bench.room}/strace"
    if strace is None:
        return None
    with open(given or os.devnull, "rb") as stdin:
        subprocess.run([strace, "-f", "-c", "-o", told, *command], cwd=folder, stdin=stdin, stdout=subprocess.DEVNULL, check=True, env=bench.env)
    # (a line `100.00 SECONDS PER_CALL CALLS [ERRORS] total`, in which the column per call may be empty)
    with open(told, encoding="utf-8") as file:
        total = [line.split() for line in file if line.rstrip().endswith(" total")][-1]
    return max(int(it) for it in total if it.isdigit())


def scripting(bench):
    """A thousand files added by a script of a line each, and by a call each, to a record of as many."""
    root, script, count = f"{bench.room}/scripting", f"{bench.room}/scripting.txt", 1_000
    paths = in_directories(2 * count)
    new = paths[1::2]
    make_files(root, paths)
    record = written([it.encode() for it in paths[::2]])
    with open(script, "w", encoding="utf-8") as file:
        file.writelines(f"add {it}\n" for it in new)
    lay_record(root, record)
    by_script, memory = bench.once([bench.program, "debugscript"], root, script)
    whole = subprocess.run([bench.program, "debugdirstate"], cwd=root, stdin=subprocess.DEVNULL, stdout=subprocess.PIPE, check=True).stdout
    lay_record(root, record)
    by_calls = sum(bench.once([bench.program, "add", it], root)[0] for it in new)
    if whole != subprocess.run([bench.program, "debugdirstate"], cwd=root, stdin=subprocess.DEVNULL, stdout=subprocess.PIPE, check=True).stdout:
        sys.exit("a script leaves another record than a call for each of its lines")
    print(f"| a script of {count:,} `add` lines over a record of {count:,} files | {by_script:.3f} s, {memory:.2f} MB | | |")
    print(f"| {count:,} single calls | {by_calls:.3f} s, {by_calls / by_script:.2f} times | | |")
    lay_record(root, record)
    in_script = calls_of(bench, [bench.program, "debugscript"], root, script)
    lay_record(root, record)
    if in_script is None:
        return
    single = sum(calls_of(bench, [bench.program, "add", it], root) for it in new)
    print(f"| its system calls | {in_script:,}; the single calls' {single:,} | | |")
    shutil.rmtree(root)
