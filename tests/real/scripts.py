"""Scripts from standard input: beside a call for each line, from a pipe a byte at a time, 10,000 lines, what a line may have, and an input that is closed or no file.

A script keeps up to 64 files open that have served, so it runs with room for 128, where single commands are tested with 16."""

import os
import random
import resource
import subprocess
import threading

from folder import SECONDS, aborted, lay_out, lines

LONGEST, MOST = 65_536, 67_108_864
FILES = 128


def roomy():
    resource.setrlimit(resource.RLIMIT_NOFILE, (FILES, FILES))


def script(tests, root, text, **how):
    return tests.run(root, ["debugscript"], stdin=None, input=text, timeout=4 * SECONDS, preexec_fn=roomy, **how)


def fed(tests, root, text):
    """A script whose bytes come one by one."""
    ran = subprocess.Popen([tests.program, "debugscript"], cwd=root, stdin=subprocess.PIPE, stdout=subprocess.PIPE, stderr=subprocess.PIPE, bufsize=0, preexec_fn=roomy)

    def feed():
        for at in range(len(text)):
            ran.stdin.write(text[at:at + 1])
        ran.stdin.close()

    feeder = threading.Thread(target=feed)
    feeder.start()
    out, err = ran.stdout.read(), ran.stderr.read()
    feeder.join()
    return ran.wait(SECONDS), out, err


def record(tests, root):
    return tests.run(root, ["debugdirstate"])


def steps(seed):
    """Some lines over a few files, with words that are refused among them."""
    pick = random.Random(seed)
    for _ in range(40):
        word, name = pick.choice(["add", "forget", "remove -A", "copy", "status"]), pick.choice(["a", "b", "d/c", "d/e", "none"])
        yield {"copy": f"copy {name} {pick.choice(['x', 'y', 'd/z'])}", "status": "status -A"}.get(word, f"{word} {name}")


def beside_calls(tests):
    """A script says and leaves what a call for each of its lines does, without a fault."""
    for seed in range(5):
        told = [b"", b""]
        with tests.working_copy() as one, tests.working_copy() as other:
            for root in (one, other):
                lay_out(root, [".hg/", "a", "b", "d/c", "d/e"])
            status = 0
            for line in steps(seed):
                code, out, err = tests.run(one, line.split())
                status, told = max(status, code), [told[0] + out, told[1] + b"".join(it for it in err.splitlines(True) if not it.startswith(b"hgtrack: "))]
            text = "\n".join(steps(seed)).encode()
            code, out, err = script(tests, other, text)
            err = b"".join(it for it in err.splitlines(True) if not it.startswith(b"hgtrack: "))
            tests.compare(f"script {seed}: status and output", (code, out, err), (status, *told))
            tests.compare(f"script {seed}: the record", record(tests, other), record(tests, one))
            tests.compare(f"script {seed}: the files", sorted(os.listdir(other)), sorted(os.listdir(one)))


def slowly(tests):
    with tests.working_copy() as root:
        lay_out(root, [".hg/", "a", "b"])
        tests.compare("a byte at a time", fed(tests, root, b"add a\n\nadd b\nstatus -a\nforget a\nstatus -n"), (0, lines("A a", "A b", "b", "a"), b""))


def moved_between(tests):
    """Between two lines a folder that was gone through is moved away, and a link to it is put in its place: nothing stands behind a link."""
    with tests.working_copy() as root:
        lay_out(root, [".hg/", "d/e/f", "d/e/g/h", "d/e/u"])
        tests.run(root, ["add", "d/e/f", "d/e/g/h"])
        ran = subprocess.Popen([tests.program, "debugscript"], cwd=root, stdin=subprocess.PIPE, stdout=subprocess.PIPE, stderr=subprocess.PIPE, bufsize=0)
        ran.stdin.write(b"status\n")
        first = b"".join(ran.stdout.readline() for _ in range(3))
        os.rename(f"{root}/d/e", f"{root}/moved")
        os.symlink("../moved", f"{root}/d/e")
        ran.stdin.write(b"status\n")
        ran.stdin.close()
        rest, err = ran.stdout.read(), ran.stderr.read()
        tests.compare("a folder moved between two lines: before", first, lines("A d/e/f", "A d/e/g/h", "? d/e/u"))
        behind = lines("! d/e/f", "! d/e/g/h", "? d/e", "? moved/f", "? moved/g/h", "? moved/u")
        tests.compare("a folder moved between two lines: behind", (ran.wait(SECONDS), rest, err), (0, behind, b""))


def many(tests):
    """10,000 lines, of which each changes the record."""
    with tests.working_copy() as root:
        lay_out(root, [".hg/", "a"])
        code, out, err = script(tests, root, b"add a\nforget a\n" * 5_000)
        tests.compare("10,000 lines", (code, out, err), (0, b"", b""))
        tests.compare("10,000 lines: the record", script(tests, root, b"add a\nstatus\n"), (0, lines("A a"), b""))


def limits(tests):
    none, unknown = (b"", b""), aborted("unknown command")
    rows = [
        ("no line", b"", 0, none),
        ("empty lines", b"\n" * 100_000, 0, none),
        ("a line of 65,536 bytes", b"a" * LONGEST, 255, (b"", unknown)),
        ("one byte more", b"a" * (LONGEST + 1), 255, (b"", aborted("script line 1 is too long"))),
        ("a line that is too long, behind others", b"add a\n\n" + b"a" * (LONGEST + 1) + b"\nadd b\n", 255, (b"", aborted("script line 3 is too long"))),
        ("a line that is no text", b"add a\nadd \xff\nadd b\n", 255, (b"", aborted("script line 2 is not text"))),
        ("a line that is too long and no text", b"\xff" * (LONGEST + 1), 255, (b"", aborted("script line 1 is too long"))),
        ("a script in a script", b"add a\ndebugscript\n", 255, (b"", aborted("script line 2 is a script"))),
        ("67,108,864 bytes", b"\n" * MOST, 0, none),
        ("one byte more", b"\n" * (MOST + 1), 255, (b"", aborted("script of more than 67108864 bytes"))),
    ]
    for what, text, status, (out, err) in rows:
        with tests.working_copy() as root:
            lay_out(root, [".hg/", "a", "b"])
            tests.compare(what, script(tests, root, text), (status, out, err))
            if text.startswith(b"add a\n"):
                tests.compare(f"{what}: the lines before were run", tests.run(root, ["status"]), (0, lines("A a", "? b"), b""))


def inputs(tests):
    """What can't be read: a directory; and standard input that is closed, which is an empty one or a failure, and never another file."""
    with tests.working_copy() as root:
        lay_out(root, [".hg/", "a"])
        folder = os.open(root, os.O_RDONLY)
        try:
            code, out, err = tests.run(root, ["debugscript"], stdin=folder)
        finally:
            os.close(folder)
        tests.compare("a directory as the input", (code, out, err.startswith(aborted("input failed"))), (255, b"", True))
        ran = subprocess.run(["sh", "-c", 'exec "$0" debugscript <&-', tests.program], cwd=root, capture_output=True, timeout=SECONDS)
        tests.compare("a closed input", (ran.stdout, ran.returncode, ran.stderr[:20]) in [(b"", 0, b""), (b"", 255, aborted("input failed")[:20])], True)
        tests.compare("a closed input: nothing is tracked", tests.run(root, ["status"]), (0, lines("? a"), b""))


def run(tests):
    for part in (beside_calls, slowly, moved_between, many, limits, inputs):
        part(tests)
