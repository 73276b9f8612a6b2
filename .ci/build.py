#!/usr/bin/env python3
"""Builds the program, by the toolchain's own gate over the crates that it uses.

  build.py [TO]              builds the program, to build/hgtrack where TO isn't named
  build.py --sum             prints the sum of all that the program is built from
  build.py --note SUM TO     notes that TO was built from what had this sum, unless something has changed since then

The crates that the program uses are laid out in a temporary folder, without their tests and must-fail edits, and `rt ci` proves each once there,
as many side by side as the machine holds, and builds the program. A line is printed as each crate ends, and one that tells what is at work meanwhile:
on a terminal one that is written over, elsewhere one a minute. What the toolchain says goes into build/log; at the first crate that isn't proved
the rest is ended, and the end of that log is shown.

Beside TO the file TO.sum keeps the sum of what TO was built from (each file, and the toolchain's line), and TO's own. Where both are as they were,
nothing is proved again.
"""

import hashlib
import os
import queue
import re
import shutil
import signal
import subprocess
import sys
import tempfile
import threading
import time

TOP = os.path.dirname(os.path.dirname(os.path.abspath(__file__)))
PROGRAM = "hgtrack"
PARTS = ("src", "specs", "proofs", "data")
FILES = ("stdin", "stdout", "args", "status")
TEST_MODULE = re.compile(rb"^#\[cfg\(test\)\]\n(?:#\[[^\n]*\]\n)*(?:pub )?mod (\w+);\n", re.MULTILINE)
END = 60
MINUTE = 60


def uses():
    """The line of crates.txt of each crate, and the crates of this repository that it uses."""
    with open(f"{TOP}/crates.txt", encoding="utf-8") as file:
        lines = {line.split(":")[0].split()[0]: line for line in file if ":" in line and not line.startswith("#")}
    return {name: (line, [it for it in line.split(":", 1)[1].split() if it in lines]) for name, line in lines.items()}


def in_order(crate, used, before):
    """Puts a crate behind those that it uses."""
    for it in used[crate][1]:
        in_order(it, used, before)
    if crate not in before:
        before.append(crate)
    return before


def files_of(crate):
    """The files that a crate is proved from, by their paths from the top, without its tests."""
    folder = f"crates/{crate}"
    named = [f"{folder}/{it}" for it in FILES if os.path.isfile(f"{TOP}/{folder}/{it}")]
    for part in PARTS:
        for at, _, names in os.walk(f"{TOP}/{folder}/{part}"):
            named += [os.path.relpath(f"{at}/{it}", TOP) for it in names]
    found = {}
    for path in named:
        with open(f"{TOP}/{path}", "rb") as file:
            found[path] = file.read()
    for path, text in list(found.items()):
        modules = TEST_MODULE.findall(text) if path.endswith(".rt") else []
        for it in modules:
            leave_out(found, folder, path, it.decode())
        if modules and path in found:
            found[path] = TEST_MODULE.sub(b"", text).rstrip(b"\n") + b"\n"
    return found


def leave_out(found, folder, path, module):
    """Leaves out a module that only tests read, and what is below it."""
    beside = os.path.dirname(path) if path.endswith(("/lib.rt", "/main.rt", "/mod.rt")) else path[: -len(".rt")]
    inside = os.path.relpath(beside, f"{folder}/src")
    proofs = os.path.normpath(f"{folder}/proofs/{inside}/{module}")
    for it in list(found):
        if it == f"{beside}/{module}.rt" or it.startswith((f"{beside}/{module}/", f"{proofs}/")):
            del found[it]


def laid_out():
    """The crates that the program uses, the lowest first, and all files that they are proved from."""
    used = uses()
    crates = in_order(PROGRAM, used, [])
    files = {"crates.txt": "".join(used[it][0] for it in crates).encode()}
    if os.path.isfile(f"{TOP}/HANDLES"):
        with open(f"{TOP}/HANDLES", "rb") as file:
            files["HANDLES"] = file.read()
    for crate in crates:
        files.update(files_of(crate))
    return crates, files


def sum_of(files):
    """The sum of these files and of the toolchain's line."""
    total = hashlib.sha256(subprocess.run(["rt", "version"], stdout=subprocess.PIPE, check=True).stdout)
    for path in sorted(files):
        total.update(b"%s %d\n" % (path.encode(), len(files[path])) + files[path])
    return total.hexdigest()


def own_sum(path):
    with open(path, "rb") as file:
        return hashlib.sha256(file.read()).hexdigest()


def is_built(total, to):
    """Whether TO is what was built from what has this sum."""
    try:
        with open(f"{to}.sum", encoding="utf-8") as file:
            return file.read().split() == [total, own_sum(to)]
    except FileNotFoundError:
        return False


def note(total, to):
    with open(f"{to}.sum", "w", encoding="utf-8") as file:
        file.write(f"{total}\n{own_sum(to)}\n")


def lay_out(room, files):
    for path, data in files.items():
        os.makedirs(os.path.dirname(f"{room}/{path}"), exist_ok=True)
        with open(f"{room}/{path}", "wb") as file:
            file.write(data)


def at_work(room):
    """The crates that a prover stands in."""
    found = set()
    for it in os.listdir("/proc") if os.path.isdir("/proc") else []:
        try:
            folder = os.readlink(f"/proc/{it}/cwd") if it.isdigit() else ""
        except OSError:
            continue
        if folder.startswith(f"{room}/crates/"):
            found.add(folder[len(f"{room}/crates/") :].split("/")[0])
    return found


def told(seconds):
    return f"{seconds:.0f} s" if seconds < 2 * MINUTE else f"{seconds // MINUTE:.0f} min {seconds % MINUTE:02.0f} s"


class Display:
    """A line for each crate that ends, and one that tells what is at work."""

    def __init__(self, crates, room):
        self.crates, self.room, self.ended = crates, room, 0
        self.begun = self.spoke = self.looked = time.monotonic()
        self.since, self.functions = {}, ""
        self.is_terminal = sys.stdout.isatty()

    def say(self, text):
        print("\r\x1b[K" * self.is_terminal + text, flush=True)
        self.spoke = time.monotonic()

    def look(self):
        """Notes once a second which crates are at work, and tells it."""
        now = time.monotonic()
        if now - self.looked < 1:
            return
        self.looked = now
        working = at_work(self.room)
        for crate in working:
            self.since.setdefault(crate, now)
        longest_first = sorted(working, key=lambda it: self.since[it])
        text = f"{told(now - self.begun)}, {len(self.crates) - self.ended} left"
        text += "; at work: " * bool(working) + ", ".join(f"{it} {told(now - self.since[it])}" for it in longest_first)
        if self.is_terminal:
            print(f"\r\x1b[K{text[: shutil.get_terminal_size().columns - 1]}", end="", flush=True)
        elif now - self.spoke >= MINUTE:
            self.say(text)

    def hear(self, line):
        """Takes a line of the toolchain, and answers whether it tells that a crate isn't proved."""
        if line.startswith("== "):
            self.functions = ""
        counted = re.match(r"logic=proved functions=(\d+)", line)
        if counted:
            self.functions = f"{counted[1]:>4} functions"
        ended = re.fullmatch(r"rt: (\w+) proved", line)
        if ended and ended[1] in self.crates:
            self.ended += 1
            seconds = time.monotonic() - self.since.get(ended[1], self.spoke)
            self.say(f"{ended[1]:12}{self.functions} proved in {told(seconds)}, {len(self.crates) - self.ended} of {len(self.crates)} crates left")
        return bool(re.fullmatch(r"rt: \w+ NOT PROVED(:.*)?", line))


def lines_of(started, room, log, display):
    """Reads what the toolchain says into the log and the display. Answers whether each crate was proved and it ended well."""
    said = queue.Queue()

    def read():
        for line in started.stdout:
            said.put(line)
        said.put(None)

    threading.Thread(target=read, daemon=True).start()
    while True:
        display.look()
        try:
            line = said.get(timeout=1)
        except queue.Empty:
            continue
        if line is None:
            return started.wait() == 0
        log.write(line)
        log.flush()
        if display.hear(line.decode(errors="replace").rstrip("\n")):
            return False


def built(crates, files, to):
    """Proves the crates in a folder of their own and puts the program to TO. Answers whether that went well."""
    with tempfile.TemporaryDirectory(prefix="hgtrack-build-") as folder, open(f"{TOP}/build/log", "wb") as log:
        # (as root, the toolchain runs the program as nobody, below its own temporary folders)
        os.chmod(folder, 0o711)
        room, other = f"{folder}/room", f"{folder}/temporary"
        os.makedirs(f"{room}/.git")
        os.mkdir(other)
        lay_out(room, files)
        how = {"cwd": room, "env": {**os.environ, "TMPDIR": other}, "start_new_session": True}
        started = subprocess.Popen(["rt", "ci"], stdin=subprocess.DEVNULL, stdout=subprocess.PIPE, stderr=subprocess.STDOUT, **how)
        try:
            is_good = lines_of(started, room, log, Display(crates, room))
        finally:
            # (its provers end with it)
            if started.poll() is None:
                os.killpg(started.pid, signal.SIGKILL)
                started.wait()
            wait_until_left(room)
        if is_good:
            # (under another name first, since the program that stood there may be running)
            shutil.copyfile(f"{room}/crates/{PROGRAM}/out/{PROGRAM}", f"{to}.new")
            os.chmod(f"{to}.new", 0o755)
            os.replace(f"{to}.new", to)
        return is_good


def wait_until_left(room):
    """Waits until no prover stands in the folder that is taken away next."""
    for _ in range(100):
        if not at_work(room):
            return
        time.sleep(0.1)


def build(to):
    crates, files = laid_out()
    total = sum_of(files)
    os.makedirs(os.path.dirname(to), exist_ok=True)
    os.makedirs(f"{TOP}/build", exist_ok=True)
    if is_built(total, to):
        os.utime(to)
        print("nothing has changed that the program is built from")
        return 0
    print(f"proving {len(crates)} crates and building the program; what the toolchain says goes into build/log", flush=True)
    begun = time.monotonic()
    if not built(crates, files, to):
        print("\nnot built; the end of build/log, without what was proved:\n")
        with open(f"{TOP}/build/log", encoding="utf-8", errors="replace") as log:
            print("".join([it for it in log if not it.endswith(": proved\n")][-END:]), end="")
        return 1
    note(total, to)
    print(f"built in {told(time.monotonic() - begun)}")
    return 0


def main(words):
    if not shutil.which("rt"):
        print("build: the toolchain's command `rt` is not in the PATH", file=sys.stderr)
        return 2
    if words == ["--sum"]:
        print(sum_of(laid_out()[1]))
        return 0
    if len(words) == 3 and words[0] == "--note":
        if sum_of(laid_out()[1]) == words[1]:
            note(words[1], os.path.abspath(words[2]))
        return 0
    # (an end by a signal takes the same way out as Ctrl-C)
    for it in (signal.SIGTERM, signal.SIGHUP):
        signal.signal(it, signal.default_int_handler)
    try:
        return build(os.path.abspath(words[0]) if words else f"{TOP}/build/{PROGRAM}")
    except KeyboardInterrupt:
        print("\nended before the program was built", file=sys.stderr)
        return 130


if __name__ == "__main__":
    sys.exit(main(sys.argv[1:]))
