"""Streams that are closed at the start: no file that the program opens takes a stream's place, so nothing that is printed gets into one, and nothing is read from one."""

import os
from itertools import combinations

from dirstate import written
from folder import aborted, lay_out, put_record
from scripts import roomy

IN, OUT, ERR = 0, 1, 2
STREAMS = {IN: "input", OUT: "output", ERR: "error stream"}
SUBSETS = [its for count in (1, 2, 3) for its in combinations(STREAMS, count)]

# words, and what is read
COMMANDS = [
    (["debugscript"], b"add none\nfrob\n"), (["debugscript"], b""), (["debugscript"], b"status\n"), (["debugscript"], b"add a\nadd none\n"), (["add", "z"], None), (["add", "z", "none"], None), (["forget", "none"], None),
    (["status"], None), (["copy", "k", "l"], None), (["--help"], None), (["add", "--help"], None), (["--version"], None), (["frob"], None), ([], None),
]


def lay_new(root):
    lay_out(root, [".hg/", "a", "k", "z"])


def lay_recorded(root):
    lay_new(root)
    put_record(root, *written([b"k"]))


def standing(root):
    """What stands in a working copy and below `.hg`, but the file by which the clock is asked."""
    found = {}
    for at, _, names in os.walk(root):
        for name in names:
            with open(f"{at}/{name}", "rb") as file:
                found[os.path.relpath(f"{at}/{name}", root)] = file.read()
    probe = found.pop(".hg/probe", b"0")
    return found if not probe.strip(b"0") else {**found, ".hg/probe": probe}


def run_one(tests, root, words, given, closed):
    def close():
        roomy()
        for stream in closed:
            os.close(stream)

    how = {"stdin": None, "input": given} if given is not None else {}
    return tests.run(root, words, preexec_fn=close, **how)


def wanted_of(answer, reads, closed):
    """What is answered, by what is answered where all streams are open."""
    if IN in closed and reads:
        answer = 255, b"", aborted("input failed")
    elif OUT in closed and answer[1]:
        answer = 255, b"", aborted("output failed")
    status, out, err = answer
    # (lines for refused words that can't be written end a command as a fault does)
    return (255 if err else status, out, b"") if ERR in closed else answer


def run(tests):
    for lay in (lay_new, lay_recorded):
        for words, given in COMMANDS:
            with tests.working_copy() as root:
                lay(root)
                before = standing(root)
                answer = run_one(tests, root, words, given, ())
                after, record = standing(root), tests.run(root, ("debugdirstate",))
            for closed in SUBSETS:
                with tests.working_copy() as root:
                    lay(root)
                    case = f"{lay.__name__}: {' '.join(words)} {given or ''!r}: closed {', '.join(STREAMS[it] for it in closed)}"
                    wanted = wanted_of(answer, given is not None, closed)
                    tests.compare(case, run_one(tests, root, words, given, closed), wanted)
                    stands = standing(root)
                    if IN in closed and given is not None:
                        tests.compare(f"{case}: nothing is changed", stands, before)
                    elif wanted[0] == answer[0]:
                        tests.compare(f"{case}: what stands then", (stands, tests.run(root, ("debugdirstate",))), (after, record))
                    else:
                        tests.compare(f"{case}: what stands then", (stands in (before, after), tests.run(root, ("debugdirstate",))[0]), (True, 0))
