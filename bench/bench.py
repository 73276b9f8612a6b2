#!/usr/bin/env python3
"""Times the built program against C loops that make the same system calls, and against other programs:
python3 bench/bench.py [PROGRAM] [PART ..] [rhg=PROGRAM] [before=PROGRAM].

PROGRAM is build/hgtrack where it isn't named. The parts are those of PARTS, a row a folder; all where none is named. `rhg` is
Mercurial's program of that name, which is looked for in PATH otherwise, and `before` an earlier hgtrack, which is timed beside this one. Every time
is the least of some runs, taken in turn with what it is compared with, or of saving the median. The status is 0 exactly where each figure is within its limit.
"""

import importlib
import os
import sys
import tempfile

sys.dont_write_bytecode = True
BENCH = os.path.dirname(os.path.abspath(__file__))
TOP = os.path.dirname(BENCH)
# (what lays out records is that of the tests)
sys.path.append(f"{TOP}/tests/real")

from timing import Bench

# The modules of each folder that time something, and the parts that are functions there, in the order in which they run.
PARTS = {
    "status.timed": "listing tracked compared deep",
    "status.beside": "remembered peers",
    "patterns.timed": "patterns",
    "record.timed": "opening editing encoding appending",
    "inputs.timed": "placing manifests",
    "save.timed": "saving",
    "commands.timed": "adding removing moving scripting",
}
MODULES = {part: module for module, parts in PARTS.items() for part in parts.split()}


def main(words):
    sys.setrecursionlimit(10_000)
    others = dict(it.split("=", 1) for it in words if "=" in it)
    named = [it for it in words if it not in MODULES and "=" not in it]
    program = os.path.abspath(named[0]) if named else f"{TOP}/build/hgtrack"
    with tempfile.TemporaryDirectory(prefix="hgtrack-bench-") as room:
        bench = Bench(program, room, {name: os.path.abspath(it) for name, it in others.items()})
        print("| what | figure | limit | |\n|---|---|---|---|")
        for part in [it for it in words if it in MODULES] or MODULES:
            getattr(importlib.import_module(MODULES[part]), part)(bench)
    return 1 if bench.failed else 0


if __name__ == "__main__":
    sys.exit(main(sys.argv[1:]))
