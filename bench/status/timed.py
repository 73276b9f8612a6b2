"""A status, beside loops that make the same system calls."""

import hashlib
import os
import shutil
import subprocess

from dirstate import P1_TRACKED, WDIR_TRACKED, written
from folder import put_record
from laying import IN_EACH, in_directories, make_files, put_new
from timing import FEW, MANY


def listing(bench):
    """A status of files in the root, without a dirstate."""
    loop, figures = bench.compiled("status/listed"), {}
    for count in (MANY, FEW):
        root = f"{bench.room}/listing-{count}"
        make_files(root, [f"file{i:06}.txt" for i in range(count)])
        figures[count] = bench.least(([bench.program, "status"], root), ([loop], root))
        shutil.rmtree(root)
    compare(bench, f"`status` of {MANY:,} files in the root, no dirstate", figures, 3, 60)


def tracked(bench):
    """A status of tracked files in directories."""
    loop, figures = bench.compiled("status/tracked"), {}
    for count in (MANY, FEW):
        root, names = f"{bench.room}/tracked-{count}", f"{bench.room}/tracked-{count}.txt"
        paths = in_directories(count)
        make_files(root, paths)
        put_record(root, *written([it.encode() for it in paths]))
        with open(names, "w", encoding="utf-8") as file:
            file.writelines(f"{it}\n" for it in sorted(paths))
        earlier = [([bench.others["before"], "status"], root)] if "before" in bench.others else []
        figures[count] = bench.least(([bench.program, "status"], root), ([loop, names], root), *earlier)
        shutil.rmtree(root)
    compare(bench, f"`status` of {MANY:,} tracked files in {MANY // IN_EACH:,} directories", figures, 1.5, 30, 12)
    for (before, _) in figures[MANY][2:]:
        bench.tell(f"its time over that of the program before ({before:.3f} s)", figures[MANY][0][0] / before, 0.42)


def compared(bench):
    """A status of clean files of a commit, all of whose bytes are compared."""
    loop, root, names = bench.compiled("status/tracked"), f"{bench.room}/compared", f"{bench.room}/compared.txt"
    paths, parent = sorted(it.encode() for it in in_directories(MANY)), b"\x11" * 20
    contents = {path: b"%s\n" % path * 3 for path in paths}
    ids = {path: hashlib.sha1(path).hexdigest() for path in paths}
    for path in paths:
        put_new(os.fsencode(root) + b"/" + path, contents[path])
        put_new(f"{root}/.hg/plain/f-{ids[path]}", contents[path])
    manifest = b"".join(path + b"\0" + ids[path].encode() + b"\n" for path in paths)
    put_new(f"{root}/.hg/plain/m-{parent.hex()}", manifest)
    put_record(root, *written(paths, WDIR_TRACKED | P1_TRACKED, p1=parent))
    with open(names, "w", encoding="utf-8") as file:
        file.writelines(f"{path.decode()}\t{ids[path]}\n" for path in paths)
    (seconds, memory), (own, _) = bench.least(([bench.program, "status"], root), ([loop, names, "compared"], root))
    print(f"| `status` of {MANY:,} clean files of a commit, all bytes compared | {seconds:.3f} s, the C loop {own:.3f} s | | |")
    bench.tell("its time over the C loop's", seconds / own, 1.4)
    bench.tell("its peak memory without the manifest's bytes", memory - len(manifest) / 1e6, 60, " MB")
    shutil.rmtree(root)


def deep(bench):
    """A folder of many levels, with a tracked file in each."""
    levels, root = 2040, f"{bench.room}/deep"
    os.makedirs(root)
    at = os.open(root, os.O_RDONLY)
    for level in range(levels):
        if level:
            os.mkdir("d", dir_fd=at)
            below = os.open("d", os.O_RDONLY, dir_fd=at)
            os.close(at)
            at = below
        os.close(os.open("f", os.O_CREAT | os.O_WRONLY, 0o644, dir_fd=at))
    os.close(at)
    put_record(root, *written([b"d/" * level + b"f" for level in range(levels)]))
    [(seconds, memory)] = bench.least(([bench.program, "status"], root))
    bench.tell(f"`status` of {levels:,} folders, each in the one before, with a file in each", seconds, 0.3, " s")
    bench.tell("its peak memory", memory, 30, " MB")
    subprocess.run(["rm", "-rf", root], check=True)


def compare(bench, what, figures, most, megabytes, growth=13):
    (seconds, memory), (loop, _) = figures[MANY][:2]
    few = figures[FEW][0][0]
    print(f"| {what} | {seconds:.3f} s, the C loop {loop:.3f} s | | |")
    bench.tell("its time over the C loop's", seconds / loop, most)
    bench.tell(f"its time over that of {FEW:,} files ({few:.4f} s)", seconds / few, growth)
    bench.tell("its peak memory", memory, megabytes, " MB")
