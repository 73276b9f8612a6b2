"""A status with each call in the working copy failing: it says which, or prints all that it prints else, and never a part."""

import os

from calls import ERRORS, Calls, has_gcc
from commits import lay_out_letters
from folder import aborted, lay_out, put_off
from saving import NO_WAY

# What the calls have to have among them.
KINDS = {"chdir", "getdents64", "openat", "read", "readlink", "statx"}
WORDS = ["status", "-A"]


def is_told(err, reason):
    """The line of the fault, and one with a name and the reason."""
    rows = err.split(b"\n")
    return len(rows) == 3 and rows[0] + b"\n" == aborted("working copy failed") and rows[1].startswith(b"hgtrack: ") and rows[1].endswith(os.fsencode(f": {reason}"))


def run(tests):
    if not has_gcc(tests, "so no call in a working copy was failed"):
        return
    calls = Calls(tests, "tree")
    with tests.working_copy() as root:
        lay_out_letters(root)
        lay_out(root, ["d/u", "d/e/w", "d/e/f/x.o", "k -> gone", "o.o", "p |"])
        with open(f"{root}/.hgignore", "wb") as file:
            file.write(b"syntax: glob\n*.o\n")
        # (a file whose time is recorded isn't read any more)
        put_off(root)
        whole = tests.run(root, WORDS)
        tests.compare("a status of all", (whole[0], whole[2], b"I d/e/f/x.o\n" in whole[1], b"C y\n" in whole[1]), (0, b"", True, True))
        names = calls.listed(root, WORDS)[1]
        tests.compare(f"a status of all: {len(names)} calls in the working copy", KINDS - {it.split(" ")[0] for it in names}, set())
        for reason, error in ERRORS.items():
            wrong, failed = [], 0
            for number, name in enumerate(names, 1):
                ran = calls.run(root, WORDS, "fail", number, error)
                is_refused = ran[:2] == (255, b"") and (is_told(ran[2], reason) or ran[2] == NO_WAY)
                failed += is_refused
                wrong += [] if is_refused or ran == whole else [(number, name, ran)]
            tests.compare(f"{reason} at each call: {failed} told, and else all is printed", (wrong[:3], failed > len(names) * 3 // 4), ([], True))
