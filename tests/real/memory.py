"""Each command with each of its allocations failing, once, and from then on: it ends well, or with 255 and whole lines that say so; and the record is as it was
before or as it is after."""

import os

from calls import compiled, has_gcc
from folder import aborted, because, further, lay_out, lines, put, put_record
from dirstate import written
from saving import NO_WAY, told

# What may be told in place of the command's own lines: that there is no memory, or which device failed for want of it. A further line may say where.
LACKS = aborted("out of memory")
FAILED = [aborted("working copy failed"), aborted(".hg failed"), LACKS]
ALLOCATIONS = 2000

MISSING = lines("add gone: no such file")
SHOWN = lines("A a", "! b", "? c")


def lay(root):
    lay_out(root, [".hg/", "a", "c"])
    put(f"{root}/.hgignore", b"syntax: glob\n*.o\n.hgignore\n")
    put_record(root, *written([b"a", b"b"]))


def lay_nothing(root):
    lay_out(root, ["a"])


BEFORE = {"a": "a", "b": "a"}
# A command, what it is run over, what it answers and prints where there is memory, and what is tracked then.
ROWS = [
    (["status"], lay, (0, SHOWN, b""), BEFORE),
    (["add", "c"], lay, (0, b"", b""), {**BEFORE, "c": "a"}),
    (["add", "gone"], lay, (1, b"", MISSING), BEFORE),
    (["forget", "b"], lay, (0, b"", b""), {"a": "a"}),
    (["debugdirstate"], lay, (0, told(BEFORE), b""), BEFORE),
    (["status", "-x"], lay, (255, b"", lines("abort: wrong arguments") + further("status has no flag -x: see hgtrack status --help")), BEFORE),
    (["frobnicate"], lay, (255, b"", aborted("unknown command")), BEFORE),
    (["status"], lay_nothing, (0, lines("? a"), further("no .hg here or above")), None),
    (["add", "a"], lay_nothing, (255, b"", aborted("no repository here or above")
     + further("hg init --config format.use-dirstate-v2=yes makes one; a folder .hg alone serves hgtrack, and not hg")), None),
]


def is_told(ran, whole):
    """Whether what was answered says that there was no memory: the line of a fault, and behind it at most one whole further line. A front of the command's own
    text may stand in standard output, and on the error stream a line that it says first."""
    status, out, err = ran
    first = further("no .hg here or above")
    rest = err.removeprefix(first) if whole[2].startswith(first) else err
    if status != 255 or not whole[1].startswith(out):
        return False
    fault = next((it for it in FAILED if rest.startswith(it)), None)
    if fault is None:
        return False
    behind = rest.removeprefix(fault)
    return not behind or rest == NO_WAY or (behind.startswith(b"hgtrack: ") and behind.endswith(b"\n") and behind.count(b"\n") == 1)


def run(tests):
    if not has_gcc(tests, "so no allocation failed"):
        return
    library = compiled(tests, "memory.c", "-shared", "-fPIC")
    for words, laid, whole, after in ROWS:
        for on in (0, 1):
            wrong, number, kinds = [], 0, set()
            while number < ALLOCATIONS:
                number += 1
                with tests.working_copy() as root:
                    laid(root)
                    reader, writer = os.pipe()
                    env = {**os.environ, "LD_PRELOAD": library, "HGTRACK_MEMORY": f"{number} {on} {writer}"}
                    ran = tests.run(root, words, env=env, pass_fds=[writer])
                    os.close(writer)
                    with os.fdopen(reader, "rb") as file:
                        is_lacking = file.read() != b""
                    stands = after is None or tests.run(root, ("debugdirstate",)) in [(0, told(it), b"") for it in (BEFORE, after)]
                if not is_lacking:
                    break
                kinds.add(ran == whole)
                wrong += [] if stands and (ran == whole or is_told(ran, whole)) else [(number, ran, stands)]
            case = f"{' '.join(words)}{'' if laid is lay else ', outside of a repository'}: {number - 1} allocations fail{', and each behind them' if on else ''}"
            tests.compare(case, (wrong[:2], ran, number > 10, False in kinds), ([], whole, True, True))
