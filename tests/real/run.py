#!/usr/bin/env python3
"""Black-box tests of the built program over real folders: python3 tests/real/run.py [PROGRAM] [PART ..].

PROGRAM is build/hgtrack where it isn't named. The parts are the modules of PARTS; all where none is named. A part is a module beside this one with a function
`run` that takes `Tests` (folder.py). The last line but one says how much was left out, for want of `hg`, `rhg`, gcc or root's rights, and the last line is
'N passed, M failed', and the status 0 exactly where M is 0.
"""

import importlib
import os
import sys
import tempfile

sys.dont_write_bytecode = True
# (a path of 2,049 components is laid out by recursion)
sys.setrecursionlimit(20_000)

from folder import MEMORY, Tests, stray

PARTS = """
cases listings commits damage outside standing meanwhile mercurial records parents stores hooks mixed ignoring refusing repository saving appends shared syncs
turns beside exchanged failing memory pages working stopping scripts times edges locks closed
""".split()


def main(words):
    top = os.path.dirname(os.path.dirname(os.path.dirname(os.path.abspath(__file__))))
    named = [it for it in words if it not in PARTS]
    program = os.path.abspath(named[0]) if named else f"{top}/build/hgtrack"
    if not os.path.isfile(program):
        print(f"{program} isn't there: make builds it\n0 passed, 1 failed")
        return 1
    with tempfile.TemporaryDirectory(prefix="hgtrack-real-") as room:
        os.chmod(room, 0o755)
        for folder in (room, MEMORY):
            if stray(folder):
                print(f"{stray(folder)} stands above {folder}, where the tests make their working copies: take it away, or set TMPDIR\n0 passed, 1 failed")
                return 1
        tests = Tests(program, room)
        for name in [it for it in words if it in PARTS] or PARTS:
            importlib.import_module(name).run(tests)
    print(f"{tests.skipped} left out")
    print(f"{tests.passed} passed, {tests.failed} failed")
    return 1 if tests.failed else 0


if __name__ == "__main__":
    sys.exit(main(sys.argv[1:]))
