"""What else is read into memory: a working copy, and a manifest."""

import hashlib

from laying import in_directories
from timing import MANY


def placing(bench):
    """Placing files one by one into the working copy in memory; the whole run of a program that reads the paths."""
    program = bench.build("inputs/placing")
    given = f"{bench.room}/placing.txt"
    with open(given, "w", encoding="utf-8") as file:
        file.writelines(f"{it}\n" for it in in_directories(30_000))
    bench.tell("placing 30,000 files one by one in memory", bench.least(([program], bench.room, given))[0][0], 2, " s")


def manifests(bench):
    """Loading a manifest: many rounds over one that is in memory already, less one round."""
    program, loop, rounds = bench.build("inputs/manifests"), bench.compiled("inputs/manifests"), 41
    paths = sorted(it.encode() for it in in_directories(MANY))
    flags = (b"x", b"l") + 8 * (b"",)
    text = b"".join(path + b"\0" + hashlib.sha1(path).hexdigest().encode() + flags[i % 10] + b"\n" for i, path in enumerate(paths))
    given = f"{bench.room}/manifest"
    with open(given, "wb") as file:
        file.write(text)
    ours = [([program, str(it)], bench.room, given) for it in (rounds, 1)]
    theirs = [([loop, given, str(it)], bench.room) for it in (rounds, 1)]
    (all_ours, _), (one_of_ours, _), (all_theirs, _), (one_of_theirs, _) = bench.least(*ours, *theirs)
    own, other = (all_ours - one_of_ours) / (rounds - 1), (all_theirs - one_of_theirs) / (rounds - 1)
    print(f"| loading a manifest of {len(paths):,} lines, {len(text):,} bytes | {own * 1000:.2f} ms, the C loop {other * 1000:.2f} ms | | |")
    bench.tell("its time over the C loop's", own / other, 2.5)
