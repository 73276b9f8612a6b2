"""Repositories that Mercurial itself makes: `hgtrack status` and `hg status` print the same lines."""

import os
import shutil
import subprocess

from folder import aborted, lay_out, lines

OPTIONS = ["--config", "format.use-dirstate-v2=yes", "--config", "storage.dirstate-v2.slow-path=allow", "--config", "ui.username=test"]

TREE = [f"+{it}" for it in ("a", "b.c", "b/c", "b/d/e", "b/d/f", "src/core/k0.c", "src/core/k1.c", "src/s 0.c", "src/ui/w", "z/\u00e4/\u00f6.txt")]
MANY = [f"d{i:02}/e{j}/f{k}" for i in range(20) for j in range(3) for k in range(5)]

# what happens, and the steps of it, after each of which the two lists of lines are compared. In a step `hg ..` runs the command,
# `+name` makes what folder.lay_out reads, and `-name` takes a file or a directory away.
CASES = [
    ("nothing", [[]]),
    ("unknown files", [["+x", "+d/e/f", "+d/.x"]]),
    ("a file added", [["+a", "hg add a"]]),
    ("nested files added", [[*TREE, "hg add"]]),
    ("taken away", [[*TREE, "hg add"], ["-a"], ["-b/d", "-src/core/k1.c"], ["-z"]]),
    ("unknown ones made", [[*TREE, "hg add"], ["+b.d", "+b/d/g", "+src/core/k2.c"], ["+new/er/x"], ["-b/c", "+b/c/now"]]),
    ("added in turn", [["+a", "hg add a"], ["+b/c", "hg add b/c"], ["+b/a", "+0", "hg add b/a 0"], ["-b/c", "+b/d", "hg add b/d"]]),
    ("added and forgotten", [["+a", "+d/b", "+d/c", "hg add"], ["hg forget d/b"], ["hg forget a"], ["hg add a"]]),
    ("renamed while added", [["+a", "+d/b", "hg add"], ["hg mv a e/f/a"], ["hg cp d/b d/c"], ["-e", "-d/b"]]),
    ("links", [["+a", "+l -> a", "+m -> gone", "+d/x", "+n -> d", "hg add"], ["-l", "-a"], ["+l -> d"]]),
    ("a file in place of a directory", [["+d/x", "+d/y", "hg add"], ["-d", "+d"]]),
    ("a directory in place of a file", [["+d", "hg add"], ["-d", "+d/x"]]),
    ("a fifo", [["+a", "+p |", "hg add a"], ["-a", "+a |"]]),
    ("a repository below", [["+a", "+sub/y", "+sub/.hg/", "+sub/d/z", "hg add a"]]),
    ("300 files", [[*(f"+{it}" for it in MANY), "hg add"], [f"-{it}" for it in MANY[::7]], ["+d00/g", "+d19/e9/g"]]),
    ("odd names", [["+ a", "+b ", "+c'\"", "+\u20ac", "+-x", "+[y]", "hg add"], ["-\u20ac", "+#", "-b "]]),
]


def hg(root, *words):
    env = {**os.environ, "HGRCPATH": "", "HGPLAIN": "1", "HGENCODING": "UTF-8", "LANG": "C.UTF-8"}
    return subprocess.run(["hg", *words, *OPTIONS], cwd=root, env=env, stdin=subprocess.DEVNULL, capture_output=True, timeout=120)


def act(tests, root, what, action):
    """Does one action of a step; where `hg` refuses it, that is a failure of the case."""
    path = os.path.join(root, action[1:])
    if action.startswith("hg "):
        ran = hg(root, *action[3:].split(" "))
        if ran.returncode:
            tests.compare(f"hg: {what}: {action}", ran.stderr, b"")
    elif action.startswith("+"):
        lay_out(root, [action[1:]])
    elif os.path.isdir(path) and not os.path.islink(path):
        shutil.rmtree(path)
    else:
        os.remove(path)


def is_v2(root):
    """The dirstate, where there is one, is of the second version."""
    path = f"{root}/.hg/dirstate"
    if not os.path.exists(path):
        return True
    with open(path, "rb") as file:
        return file.read(12) in (b"", b"dirstate-v2\n")


def run_case(tests, what, steps):
    with tests.working_copy() as root:
        made = hg(root, "init")
        if made.returncode:
            tests.compare(f"hg: {what}: init", made.stderr, b"")
            return
        for number, step in enumerate(steps, 1):
            for action in step:
                act(tests, root, what, action)
            told, wanted = tests.run(root), hg(root, "status")
            tests.compare(f"hg: {what}: step {number}", (*told, is_v2(root)), (0, wanted.stdout, b"", True))


def run_commit(tests):
    """A commit whose files weren't brought into the plain store is told by its identifier, where bytes have to be compared."""
    with tests.working_copy() as root:
        hg(root, "init")
        lay_out(root, ["a"])
        hg(root, "add", "a")
        tests.compare("hg: added before the commit", tests.run(root), (0, lines("A a"), b""))
        hg(root, "commit", "-m", "first")
        node = hg(root, "log", "-r", ".", "-T", "{node}").stdout.decode()
        # (a file that shows the time which hg recorded isn't compared)
        os.utime(f"{root}/a", (0, 0))
        tests.compare("hg: after a commit", tests.run(root), (255, b"", aborted(f"no manifest {node}")))
        tests.compare("hg: after a commit, without comparing", tests.run(root, ("status", "-a", "-r", "-d", "-u")), (0, b"", b""))


def run(tests):
    if shutil.which("hg") is None:
        tests.skip("the command hg is not installed, so nothing was compared with Mercurial's own status")
        return
    for what, steps in CASES:
        run_case(tests, what, steps)
    run_commit(tests)
