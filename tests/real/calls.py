"""Counts, stops and fails the program's calls below `.hg`, by a library that is loaded before the program's own (preloaded.c), and watches
them from outside by ptrace (calls.c), where the system allows it."""

import errno
import os
import shutil
import subprocess

from folder import SECONDS

HERE = os.path.dirname(os.path.abspath(__file__))
# What calls.c ends with where nothing can be watched.
UNWATCHED = 99


def has_gcc(tests, what):
    """Whether there is a compiler; else the tests are skipped."""
    if shutil.which("gcc") is None:
        tests.skip(f"gcc is not installed: {what}")
        return False
    return True


def compiled(tests, name, *flags):
    """The path of what gcc makes of a file of this folder."""
    path = f"{tests.room}/{name.removesuffix('.c')}"
    subprocess.run(["gcc", "-O2", *flags, "-o", path, f"{HERE}/{name}", "-ldl"], check=True)
    return path


class Calls:
    """The library, and runs of the program that has it loaded. It counts the calls below `.hg`, or, where that is said, in the working copy."""

    def __init__(self, tests, where="record"):
        self.tests, self.where, self.library = tests, where, compiled(tests, "preloaded.c", "-shared", "-fPIC")

    def env(self, root, how, number, error=0):
        """The environment in which the library does something with the calls of a program."""
        return {**os.environ, "LD_PRELOAD": self.library, "HGTRACK_WHERE": self.where, "HGTRACK_CALLS": f"{how} {number} {error} {os.path.realpath(root)}"}

    def run(self, root, words, *how, **given):
        """Runs the program, and stops it at a call or has that fail. Answers its status, its standard output and its error stream."""
        return self.tests.run(root, words, env=self.env(root, *how), **given)

    def listed(self, root, words, watcher=None, **given):
        """The status and the calls of a whole run; the calls once more as the watcher sees them, where there is one."""
        path = f"{self.tests.room}/counted"
        with open(path, "wb") as told:
            env = self.env(root, "list", told.fileno())
            if watcher is None:
                return self.tests.run(root, words, env=env, pass_fds=[told.fileno()], **given)[0], rows_of(path), None
            status, rows = watcher.listed(root, words, env, told.fileno())
        return status, rows_of(path), rows


def rows_of(path):
    with open(path, encoding="utf-8", errors="replace") as file:
        return file.read().splitlines()


class Watcher:
    """The compiled watcher, and runs under it. It counts the calls below `.hg`, or, where that is said, in the working copy."""

    def __init__(self, tests, where="record"):
        self.tests, self.where, self.watcher = tests, {"HGTRACK_WHERE": where}, compiled(tests, "calls.c")

    def command(self, told, how, root, words):
        return [self.watcher, str(told), *how, os.path.realpath(root), self.tests.program, *words]

    def listed(self, root, words, env=None, *passed, **given):
        """The status and the calls of a whole run, as calls.c writes them."""
        path = f"{self.tests.room}/watched"
        with open(path, "wb") as told:
            command = self.command(told.fileno(), ["list"], root, words)
            ran = subprocess.run(command, cwd=root, env={**(env or os.environ), **self.where}, stdin=subprocess.DEVNULL, capture_output=True, timeout=SECONDS, pass_fds=[told.fileno(), *passed], **given)
        return ran.returncode, rows_of(path)

    def held(self, root, words, number, env=None, **given):
        """Starts the program, and answers when it is stopped before a call of it, which is told by its number or as `CALL FRONT`; at `let_go` it goes on."""
        reader, writer = os.pipe()
        command, env = self.command(writer, ["hold", str(number)], root, words), {**(env or os.environ), **self.where}
        at = subprocess.Popen(command, cwd=root, env=env, stdin=subprocess.PIPE, stdout=subprocess.PIPE, stderr=subprocess.PIPE, pass_fds=[writer], **given)
        os.close(writer)
        with os.fdopen(reader, "rb") as told:
            assert told.readline() == b"held\n", f"no call {number} of {words}"
        return at


def let_go(at):
    """Lets a program go on that was held. Answers its status, its standard output and its error stream."""
    out, err = at.communicate(timeout=SECONDS)
    return at.returncode, out, err


def watched(tests, what, where="record"):
    """A watcher; none, and what it is for is skipped, where there is no gcc or the system lets no program be watched."""
    if not has_gcc(tests, what):
        return None
    watcher = Watcher(tests, where)
    if watcher.listed(tests.room, ["--version"])[0] == UNWATCHED:
        tests.skip(f"the system lets no program be watched: {what}")
        return None
    return watcher


class Lacking:
    """A library that lets a file system lack something (lacking.c), and runs of the program that has it loaded."""

    def __init__(self, tests):
        self.tests, self.library = tests, compiled(tests, "lacking.c", "-shared", "-fPIC")

    def env(self, what, error):
        return {**os.environ, "LD_PRELOAD": self.library, "HGTRACK_LACKS": f"{what} {error}"}

    def run(self, root, words, what, error, **given):
        """Runs the program where that is lacking. Answers its status, its standard output and its error stream."""
        return self.tests.run(root, words, env=self.env(what, error), **given)


ERRORS = {"input/output error": errno.EIO, "no space left on device": errno.ENOSPC}
