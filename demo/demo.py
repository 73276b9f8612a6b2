#!/usr/bin/env python3
"""Lays out a sample working copy in a temporary folder and runs `hgtrack status` on it: python3 demo/demo.py [PROGRAM]."""

import os
import subprocess
import sys
import tempfile

sys.dont_write_bytecode = True
TOP = os.path.dirname(os.path.dirname(os.path.abspath(__file__)))
sys.path.insert(0, f"{TOP}/tests/real")

from dirstate import written
from folder import lay_out, put_record

# What the dirstate has, each path marked for add.
TRACKED = ["README", "doc/intro.txt", "src/core/parse.c", "src/core/print.c", "src/main.c"]
# What stands in the folder: two tracked files are missing, and four things aren't tracked.
THERE = ["README", "doc/intro.txt", "src/core/parse.c", "notes.txt", "src/core.c", "src/core/parse.o", "tools/run -> ../src/main.c"]


def in_hexadecimal(data):
    """Lines of 16 bytes, each with the place of the first."""
    for at in range(0, len(data), 16):
        piece = data[at : at + 16]
        text = "".join(chr(it) if 32 <= it < 127 else "." for it in piece)
        print(f"  {at:4}  {piece.hex(' '):47}  {text}")


def main(words):
    program = os.path.abspath(words[0] if words else f"{TOP}/build/hgtrack")
    with tempfile.TemporaryDirectory(prefix="hgtrack-demo-") as root:
        lay_out(root, THERE)
        docket, data = written([it.encode() for it in TRACKED])
        put_record(root, docket, data)
        print(f"A working copy in {root}:")
        for it in THERE:
            print(f"  {it}")
        print(f"\nits dirstate, which tracks {', '.join(TRACKED)}:\n\n.hg/dirstate, {len(docket)} bytes")
        in_hexadecimal(docket)
        print(f"\n.hg/dirstate.0000000000000000, {len(data)} bytes, of which the first 64")
        in_hexadecimal(data[:64])
        print("\n$ hgtrack status", flush=True)
        return subprocess.run([program, "status"], cwd=root, stdin=subprocess.DEVNULL).returncode


if __name__ == "__main__":
    sys.exit(main(sys.argv[1:]))
