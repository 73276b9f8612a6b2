#!/usr/bin/env python3
"""Tries wrong bodies that the gate leaves out: wrong_bodies.py [CRATE ..].

The edits `wrong-bodies/CRATE/*.edit` of the named crates (of all where none is named) are copied beside those that the gate tries, in a clone in a temporary
folder, and `rt must-fail` tries them there: the prover has to refuse each. What isn't committed is no part of it. The status is that of `rt must-fail`.
"""

import os
import shutil
import subprocess
import sys
import tempfile

TOP = os.path.dirname(os.path.dirname(os.path.abspath(__file__)))
BODIES = "wrong-bodies"


def lay_out(clone, crate):
    """Copies a crate's edits beside those of the gate, and answers how many."""
    into = f"{clone}/crates/{crate}/must-fail"
    os.makedirs(into, exist_ok=True)
    edits = sorted(it for it in os.listdir(f"{clone}/{BODIES}/{crate}") if it.endswith(".edit"))
    for it in edits:
        if os.path.exists(f"{into}/{it}"):
            raise SystemExit(f"{crate}/{it} is tried by the gate, too")
        shutil.copyfile(f"{clone}/{BODIES}/{crate}/{it}", f"{into}/{it}")
    return len(edits)


def main(words):
    crates = words or sorted(os.listdir(f"{TOP}/{BODIES}"))
    unknown = [it for it in crates if not os.path.isdir(f"{TOP}/{BODIES}/{it}")]
    if unknown:
        print(f"no wrong bodies of {' '.join(unknown)}", file=sys.stderr)
        return 2
    with tempfile.TemporaryDirectory(prefix="hgtrack-bodies-") as room:
        clone = f"{room}/clone"
        subprocess.run(["git", "clone", "--quiet", TOP, clone], check=True)
        for crate in crates:
            print(f"{crate}: {lay_out(clone, crate)} wrong bodies", flush=True)
        return subprocess.run(["rt", "must-fail", *crates], cwd=clone, check=False).returncode


if __name__ == "__main__":
    sys.exit(main(sys.argv[1:]))
