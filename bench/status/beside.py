"""A status beside Mercurial's programs and git."""

import hashlib
import os
import shutil
import subprocess
import sys
import time

from dirstate import P1_TRACKED, WDIR_TRACKED, written
from folder import put_record
from laying import IN_EACH, in_directories, make_files, manifest_of, put_new
from timing import MANY, RUNS

# What the record of a repository needs besides for Mercurial's programs to read it.
REQUIRES = "dirstate-v2 dotencode fncache generaldelta revlogv1 sparserevlog store".split()


def committed(bench, root, paths, contents):
    """A repository of Mercurial's with a commit of these files, whose parent is in the plain store too. Answers the commit."""
    for path in paths:
        put_new(f"{root}/{path}", contents[path])
    for words in (["init"], ["add", "-q"], ["commit", "-q", "-m", "all"]):
        subprocess.run(["hg", *words], cwd=root, env=bench.env, check=True, stdin=subprocess.DEVNULL)
    node = subprocess.run(["hg", "log", "-r", ".", "-T", "{node}"], cwd=root, env=bench.env, check=True, stdout=subprocess.PIPE).stdout.decode()
    ids = {path.encode(): hashlib.sha1(path.encode()).hexdigest() for path in paths}
    for path in paths:
        put_new(f"{root}/.hg/plain/f-{ids[path.encode()]}", contents[path])
    put_new(f"{root}/.hg/plain/m-{node}", manifest_of(ids))
    return node


def count_of(bench, command, folder, call):
    """How many calls of one kind a run makes, by strace; none where that isn't there."""
    strace, told = shutil.which("strace"), f"{bench.room}/strace"
    if strace is None:
        return None
    subprocess.run([strace, "-f", "-c", "-e", f"trace={call}", "-o", told, *command], cwd=folder, stdin=subprocess.DEVNULL, stdout=subprocess.DEVNULL, check=True, env=bench.env)
    # (a line `100.00 SECONDS PER_CALL CALLS [ERRORS] CALL`)
    with open(told, encoding="utf-8") as file:
        rows = [line.split() for line in file if line.rstrip().endswith(f" {call}")]
    return int(rows[0][3]) if rows else 0


def remembered(bench):
    """A status of clean files of a commit whose times are recorded, beside the programs that a user would take else; and one that records them."""
    if shutil.which("hg") is None:
        print("| hg | it isn't installed, so nothing was committed | | |")
        return
    root, other = f"{bench.room}/remembered", f"{bench.room}/remembered-git"
    paths = in_directories(MANY)
    contents = {path: b"%s\n" % path.encode() * 3 for path in paths}
    node = committed(bench, root, paths, contents)
    # (a time in the very second of the clock counts for less)
    time.sleep(1.5)
    found = {name: bench.others.get(name) or shutil.which(name) for name in ("rhg", "git", "hg")}
    runs = {"hgtrack": ([bench.program, "status"], root)}
    runs |= {name: ([os.path.abspath(found[name]), "status"], root) for name in ("rhg", "hg") if found[name]}
    if found["git"]:
        for path in paths:
            put_new(f"{other}/{path}", contents[path])
        for words in (["init", "-q"], ["add", "-A"], ["-c", "user.name=b", "-c", "user.email=b@b", "commit", "-q", "-m", "all"]):
            subprocess.run([found["git"], *words], cwd=other, env=bench.env, check=True, stdin=subprocess.DEVNULL)
        runs["git"] = ([found["git"], "-c", "core.preloadIndex=false", "status", "--porcelain"], other)
    for name, (words, at) in runs.items():
        said = subprocess.run(words, cwd=at, env=bench.env, check=True, stdout=subprocess.PIPE).stdout
        if said:
            sys.exit(f"{name} prints {said[:200]!r} of a clean working copy")
    figures = dict(zip(runs, bench.least(*runs.values())))
    own, memory = figures["hgtrack"]
    print(f"| `status` of {MANY:,} clean files of a commit whose times are recorded, beside others in turn | {own:.3f} s | | |")
    for name in ("rhg", "git", "hg"):
        if name in figures:
            seconds, most = figures[name]
            print(f"| {name}{', one thread' if name == 'rhg' else ''} | {seconds:.3f} s, {most:.1f} MB | | |")
        else:
            print(f"| {name} | it isn't installed, and wasn't named | | |")
    if "rhg" in figures:
        bench.tell("its time over rhg's", own / figures["rhg"][0], 1.6)
    bench.tell("its peak memory", memory, 32, " MB")
    looks, opens = (count_of(bench, [bench.program, "status"], root, it) for it in ("statx", "openat"))
    if looks is not None:
        bench.tell("its calls of statx a file", looks / MANY, 1.2)
        print(f"| its calls of openat a directory | {opens / (MANY // IN_EACH):.2f} | | |")
    recording(bench, root, paths, node)
    shutil.rmtree(root)
    shutil.rmtree(other, ignore_errors=True)


def recording(bench, root, paths, node):
    """A status that compares all files and records their times, and one that compares them alone, since another has the lock."""
    names = [it.encode() for it in paths]
    record = written(names, WDIR_TRACKED | P1_TRACKED, p1=bytes.fromhex(node))
    lock, taken, most = f"{root}/.hg/wlock", {False: [], True: []}, 0
    for _ in range(RUNS):
        for is_locked, its in taken.items():
            for name in os.listdir(f"{root}/.hg"):
                if name.startswith("dirstate"):
                    os.remove(f"{root}/.hg/{name}")
            put_record(root, *record)
            if is_locked:
                os.symlink("another:1", lock)
            seconds, memory = bench.once([bench.program, "status"], root)
            its.append(seconds)
            if is_locked:
                os.remove(lock)
            else:
                most = max(most, memory)
    with_times = subprocess.run([bench.program, "debugdirstate"], cwd=root, stdin=subprocess.DEVNULL, stdout=subprocess.PIPE, check=True).stdout
    if with_times.count(b" - - - ") == 0:
        sys.exit("a status recorded times while another had the lock")
    both = [min(its) for its in taken.values()]
    print(f"| `status` of {MANY:,} clean files, all bytes compared, that records their times | {both[0]:.3f} s; without recording {both[1]:.3f} s | | |")
    bench.tell("what it takes to record them", both[0] - both[1], 0.6, " s")
    bench.tell("its peak memory where it records them", most, 45, " MB")


def peers(bench):
    """A status of tracked files beside the programs that a user would take else, each where it is there."""
    root, other = f"{bench.room}/peers", f"{bench.room}/peers-git"
    paths = in_directories(MANY)
    make_files(root, paths)
    put_record(root, *written([it.encode() for it in paths]))
    os.makedirs(f"{root}/.hg/store")
    with open(f"{root}/.hg/requires", "w", encoding="utf-8") as file:
        file.writelines(f"{it}\n" for it in REQUIRES)
    found = {name: bench.others.get(name) or shutil.which(name) for name in ("rhg", "git", "hg")}
    runs = {"hgtrack": ([bench.program, "status"], root)}
    for name in ("rhg", "hg"):
        if found[name]:
            runs[name] = ([os.path.abspath(found[name]), "status"], root)
    if found["git"]:
        make_files(other, paths)
        for words in (["init", "-q"], ["add", "-A"]):
            subprocess.run([found["git"], *words], cwd=other, env=bench.env, check=True, stdin=subprocess.DEVNULL)
        runs["git"] = ([found["git"], "-c", "core.preloadIndex=false", "status", "--porcelain"], other)
    lines = {name: subprocess.run(words, cwd=at, env=bench.env, check=True, stdout=subprocess.PIPE).stdout for name, (words, at) in runs.items()}
    figures = dict(zip(runs, bench.least(*runs.values())))
    own = figures["hgtrack"][0]
    print(f"| `status` of {MANY:,} tracked files, beside others in turn | {own:.3f} s | | |")
    for name in ("rhg", "git", "hg"):
        if name not in figures:
            print(f"| {name} | it isn't installed, and wasn't named | | |")
            continue
        seconds, memory = figures[name]
        if name != "git" and lines[name] != lines["hgtrack"]:
            bench.failed += 1
            print(f"| {name} | it prints other lines | | NOT HELD |")
        print(f"| {name}{', one thread' if name == 'rhg' else ''} | {seconds:.3f} s, {memory:.1f} MB | | |")
    if "rhg" in figures:
        bench.tell("its time over rhg's", own / figures["rhg"][0], 2.1)
    shutil.rmtree(root)
    shutil.rmtree(other, ignore_errors=True)
