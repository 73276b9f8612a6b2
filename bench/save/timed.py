"""A command that saves a large record."""

import os
import shutil
import sys
from statistics import median

from dirstate import written
from folder import put_record
from laying import IN_EACH, in_directories, make_files, put_new, read
from timing import MANY, SYNCED


def saving(bench):
    """Adding one file to a large record: each run adds another file, to the record that the run before left."""
    anew(bench)
    behind(bench)


def anew(bench):
    """A record of which half the bytes are said to be lost is written anew. The first C program has to write the same bytes; the other writes back what it read."""
    laid, saved = bench.compiled("save/laid"), bench.compiled("save/saved")
    roots = [f"{bench.room}/saving{name}" for name in ("", "-laid", "-saved")]
    record = written([it.encode() for it in in_directories(MANY)])
    for root in roots:
        make_files(root, [f"extra{i}" for i in range(SYNCED)])
        put_record(root, *record)
    taken, memory = [[], [], []], 0
    for i in range(SYNCED):
        old, new, name = f"{i:016x}", f"{i + 1:016x}", f"extra{i}"
        for root in roots:
            lose_half(root)
        seconds, most = bench.once([bench.program, "add", name], roots[0])
        written_bytes = [read(f"{roots[0]}/.hg/{it}") for it in ("dirstate", f"dirstate.{new}")]
        taken[0].append(seconds)
        taken[1].append(bench.once([laid, old, new, name], roots[1])[0])
        taken[2].append(bench.once([saved, old, new, str(len(written_bytes[1]))], roots[2])[0])
        memory = max(memory, most)
        if written_bytes != [read(f"{roots[1]}/.hg/{it}") for it in ("dirstate", f"dirstate.{new}")]:
            sys.exit(f"{laid} wrote other bytes")
    own, other, least = (median(it) for it in taken)
    print(f"| `add` of one file to a record of {MANY:,} files, written anew: {len(written_bytes[1]):,} bytes | {own:.3f} s, the C program {other:.3f} s | | |")
    bench.tell("its time over the C program's", own / other, 1.5)
    print(f"| the C program that writes back what it read | {least:.3f} s, {own / least:.2f} times | | |")
    print(f"| its peak memory | {memory:.2f} MB | | |")
    for root in roots:
        shutil.rmtree(root)


def lose_half(root):
    """Has a docket say that half of the used bytes are lost."""
    docket = bytearray(read(f"{root}/.hg/dirstate"))
    docket[92:96] = (int.from_bytes(docket[120:124], "big") // 2 + 1).to_bytes(4, "big")
    put_new(f"{root}/.hg/dirstate", docket)


def behind(bench):
    """A record of which few bytes are lost is put behind its data file. The C program has to leave the same bytes; an earlier program may write all anew."""
    loop, zeros = bench.compiled("save/behind"), f"{0:016x}"
    # (ten directories at the root, so that its list is none of a hundred)
    paths = [f"part{i // (MANY // 10)}/{it}" for i, it in enumerate(in_directories(MANY))]
    new = [f"{os.path.dirname(paths[MANY // 2 + 3 * IN_EACH])}/new{i:02}" for i in range(SYNCED)]
    record = written([it.encode() for it in paths])
    roots = [f"{bench.room}/behind-{name}" for name in ("own", "loop", "before")]
    for root in roots:
        make_files(root, new)
        put_record(root, *record)
    files = [[f"{root}/.hg/{it}" for it in ("dirstate", f"dirstate.{zeros}")] for root in roots]
    taken, memory, most_bytes = [[], [], []], 0, 0
    for name in new:
        size = os.path.getsize(files[0][1])
        seconds, most = bench.once([bench.program, "add", name], roots[0])
        taken[0].append(seconds)
        taken[1].append(bench.once([loop, zeros, name], roots[1])[0])
        if "before" in bench.others:
            taken[2].append(bench.once([bench.others["before"], "add", name], roots[2])[0])
        memory, most_bytes = max(memory, most), max(most_bytes, os.path.getsize(files[0][1]) - size)
        if [read(it) for it in files[0]] != [read(it) for it in files[1]]:
            sys.exit(f"{loop} wrote other bytes")
    own, other = (median(it) for it in taken[:2])
    print(f"| `add` of one file to a record of {MANY:,} files, {len(record[1]):,} bytes, behind the data file | {own:.3f} s, the C program {other:.3f} s | | |")
    bench.tell("its time over the C program's", own / other, 1.3)
    bench.tell("the bytes that it writes to the data file", most_bytes, 4_096)
    print(f"| its peak memory | {memory:.2f} MB | | |")
    if taken[2]:
        bench.tell(f"its time over that of the program before ({median(taken[2]):.3f} s)", own / median(taken[2]), 0.25)
    for root in roots:
        shutil.rmtree(root)
