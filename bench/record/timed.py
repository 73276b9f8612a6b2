"""A record in memory: opened, edited, and encoded."""

import subprocess

from dirstate import written
from laying import in_directories
from timing import MANY


def opening(bench):
    """Opening a data file: many rounds over one that is in memory already, less one round."""
    program, loop, rounds = bench.build("record/opening"), bench.compiled("record/opened"), 41
    paths = [it.encode() for it in in_directories(95_240)]
    docket, data = written(paths)
    for name, content in (("docket", docket), ("data", data), ("both", docket + data)):
        with open(f"{bench.room}/{name}", "wb") as file:
            file.write(content)
    both = f"{bench.room}/both"
    ours = [([program, str(it)], bench.room, both) for it in (rounds, 1)]
    theirs = [([loop, "docket", "data", str(it)], bench.room) for it in (rounds, 1)]
    (all_ours, _), (one_of_ours, _), (all_theirs, _), (one_of_theirs, _) = bench.least(*ours, *theirs)
    own, other = (all_ours - one_of_ours) / (rounds - 1), (all_theirs - one_of_theirs) / (rounds - 1)
    nodes = len(paths) + len({it.rpartition(b"/")[0] for it in paths})
    print(f"| opening a data file of {nodes:,} nodes, {len(data):,} bytes | {own * 1000:.2f} ms, the C loop {other * 1000:.2f} ms | | |")
    bench.tell("its time over the C loop's", own / other, 4)


def editing(bench):
    """Setting entries one by one in a table in memory, and dropping them all again; the runs of a program that reads the paths."""
    program = bench.build("record/editing")
    given = f"{bench.room}/editing.txt"
    with open(given, "w", encoding="utf-8") as file:
        file.writelines(f"{it}\n" for it in in_directories(MANY))
    (sets, _), (both, _) = bench.least(([program], bench.room, given), ([program, "drop"], bench.room, given))
    bench.tell(f"setting {MANY:,} new paths one by one in memory", sets, 1, " s")
    bench.tell(f"dropping {MANY:,} paths one by one", both - sets, 1, " s")


def encoding(bench):
    """Encoding a table in memory: many rounds, less one round."""
    program, loop, rounds = bench.build("record/encoding"), bench.compiled("record/encoded"), 41
    given = f"{bench.room}/encoding.txt"
    with open(given, "w", encoding="utf-8") as file:
        file.writelines(f"{it}\n" for it in sorted(in_directories(MANY), key=lambda it: it.split("/")))
    ours = [([program, "x" * it], bench.room, given) for it in (rounds, 1, 0)]
    theirs = [([loop, str(it)], bench.room, given) for it in (rounds, 1)]
    (all_ours, most), (one_of_ours, _), (_, table), (all_theirs, _), (one_of_theirs, _) = bench.least(*ours, *theirs)
    own, other = (all_ours - one_of_ours) / (rounds - 1), (all_theirs - one_of_theirs) / (rounds - 1)
    written = subprocess.run([program, "x"], stdin=open(given, "rb"), stdout=subprocess.PIPE, check=True).stdout
    print(f"| encoding {MANY:,} entries, {int(written):,} bytes | {own * 1000:.2f} ms, the C loop {other * 1000:.2f} ms | | |")
    bench.tell("its time over the C loop's", own / other, 4)
    bench.tell("its memory over the bytes", (most - table) * 1e6 / int(written), 3)


def appending(bench):
    """Opening a record, adding one file to it, and encoding that by the better way: many rounds, less one round."""
    program, rounds = bench.build("record/appending"), 41
    given = f"{bench.room}/appending.txt"
    with open(given, "w", encoding="utf-8") as file:
        file.writelines(f"{it}\n" for it in sorted(in_directories(MANY), key=lambda it: it.split("/")))
    (all_rounds, _), (one_round, _) = bench.least(*[([program, "x" * it], bench.room, given) for it in (rounds, 1)])
    written, behind = map(int, subprocess.run([program, "x"], stdin=open(given, "rb"), stdout=subprocess.PIPE, check=True).stdout.split())
    print(f"| one file added to a record of {MANY:,}: {written:,} bytes, {'behind the data file' if behind else 'anew'} | | | |")
    bench.tell("its time, from the bytes that were loaded to those that are to be written", (all_rounds - one_round) / (rounds - 1), 0.05, " s")
