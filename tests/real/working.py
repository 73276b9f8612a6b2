"""`remove`, `copy` and `debugsetparents` beside Mercurial's own program: in turn with it over one working copy, and where the two differ."""

import os
import random
import shutil

from folder import aborted, lay_out, lines, put
from mercurial import hg
from parents import export, init
from turns import FILES, STEPS, both_told, letters

NAMES = [f"{('', 'd/', 'd/e/', 'src/')[i % 4]}file{i:02}" for i in range(FILES)]


def commits(tests, root):
    """Three commits of some of the files, each of which the plain store has: their identifiers. The last one is the parent."""
    init(root)
    found = []
    for number, its in enumerate((NAMES[:12], NAMES[6:18], NAMES[3:15]), 1):
        if found:
            hg(root, "update", "null")
        for name in its:
            lay_out(root, [name])
            # (some have the same contents in each of them)
            if NAMES.index(name) % 3:
                put(f"{root}/{name}", f"{number}\n".encode())
        os.chmod(f"{root}/{its[0]}", 0o755)
        hg(root, "add", *its)
        hg(root, "commit", "-m", f"commit {number}")
        found.append(hg(root, "log", "-r", ".", "-T", "{node}").stdout.decode())
        tests.compare(f"commit {number} is brought over", (len(found[-1]), export(root).returncode), (40, 0))
    return found


class Turn:
    """A working copy that is changed in turn, and what its next step is."""

    def __init__(self, root, nodes):
        self.root, self.nodes, self.chance = root, nodes, random.Random(7)
        self.see()

    def see(self):
        """The letter of each path, as Mercurial has it."""
        self.have = letters(b"\n".join(it for it in hg(self.root, "status", "-A").stdout.split(b"\n") if it[:2] != b"  "))

    def is_there(self, name):
        return os.path.lexists(f"{self.root}/{name}")

    def some(self, wanted, most):
        fit = [it for it in NAMES if wanted(it)]
        return sorted(self.chance.sample(fit, min(len(fit), self.chance.randint(1, most))))

    def fits(self, command):
        """Words for which the command does something, where there are any."""
        tracked = [it for it in NAMES if self.have.get(it) in ("M", "A", "C")]
        if command == "add":
            return self.some(lambda it: self.have.get(it) in ("?", "R") and self.is_there(it), 3)
        if command == "forget":
            return self.some(lambda it: self.have.get(it) in ("A", "C", "M", "!"), 2)
        if command == "remove":
            return self.some(lambda it: self.have.get(it) == "C", 3)
        if command == "remove -A":
            return self.some(lambda it: self.have.get(it) == "!", 3)
        free = [it for it in NAMES if not self.is_there(it) and self.have.get(it) in (None, "R")]
        return [self.chance.choice(tracked), self.chance.choice(free)] if tracked and free else []

    def outside(self):
        """Another writes into a file, takes one away, or makes one."""
        name = self.chance.choice(NAMES)
        if self.is_there(name) and self.chance.random() < 0.5:
            os.remove(f"{self.root}/{name}")
        else:
            os.makedirs(os.path.dirname(f"{self.root}/{name}"), exist_ok=True)
            put(f"{self.root}/{name}", f"{self.chance.randint(1, 3)}\n".encode())

    def next_one(self, is_theirs):
        """A command and its words. Other parents are set by ours alone: Mercurial's own leaves the entries as they were for the parents before."""
        for _ in range(50):
            command = self.chance.choice(["add", "forget", "remove", "remove", "remove -A", "copy", "copy", "copy", "debugsetparents"])
            if command == "debugsetparents":
                nodes = self.chance.sample(self.nodes, self.chance.choice([1, 1, 2]))
                if not is_theirs:
                    return [command, *nodes]
            elif words := self.fits(command):
                return [*command.split(" "), *words]
            self.outside()
            self.see()
        return ["status"]


def run_turns(tests):
    """Commands by either program in turn, while files are changed from outside: after each both print the same."""
    with tests.working_copy() as root:
        turn = Turn(root, commits(tests, root))
        wrong, done = 0, {}
        for step in range(STEPS):
            turn.outside()
            turn.see()
            words = turn.next_one(step % 2)
            ran = hg(root, *words) if step % 2 else None
            answer = (ran.returncode,) if ran else tests.run(root, words)
            ours, theirs = both_told(tests, root)
            turn.see()
            done[words[0]] = done.get(words[0], 0) + 1
            case = f"in turn with hg, over commits: step {step}, {'hg' if step % 2 else 'hgtrack'} {' '.join(words):.200}"
            wrong += not tests.compare(case, (answer, ours), ((0,) if ran else (0, b"", b""), theirs))
            if wrong > 3:
                return
        tests.compare("in turn with hg, over commits: each command was among the steps", {"add", "forget", "remove", "copy", "debugsetparents"} - set(done), set())


# what happens before, the words of ours, what they answer on the error stream, the words of Mercurial's, and its status; whether both leave the same. `-name` is
# taken away, `+name` made, and `hg ..` run. The commit has `a`, `c` and `d/b`.
SAME, OTHER = True, False
BESIDE = [
    ("a file of the commit", [], ["remove", "a"], [], ["remove", "a"], 0, SAME),
    ("two, by a missing one", ["-a"], ["remove", "a", "c"], [], ["remove", "a", "c"], 0, SAME),
    ("a missing one", ["-a"], ["remove", "-A", "a"], [], ["remove", "-A", "a"], 0, SAME),
    ("one that is still there", [], ["remove", "-A", "a"], ["remove a: still there"], ["remove", "-A", "a"], 1, SAME),
    ("a changed one", ["*a"], ["remove", "a"], ["remove a: modified"], ["remove", "a"], 1, SAME),
    ("an added one", ["+n", "hg add n"], ["remove", "n"], ["remove n: marked for add"], ["remove", "n"], 1, SAME),
    ("an unknown one", ["+n"], ["remove", "n"], ["remove n: not tracked"], ["remove", "n"], 1, SAME),
    ("a missing added one, as missing", ["+n", "hg add n", "-n"], ["remove", "-A", "n"], [], ["remove", "-A", "n"], 0, SAME),
    # hg forgets it; ours wants to be told that it is missing
    ("a missing added one", ["+n", "hg add n", "-n"], ["remove", "n"], ["remove n: marked for add"], ["remove", "n"], 0, OTHER),
    # hg removes all that stands below; ours takes files alone
    ("a folder", [], ["remove", "d"], ["remove d: not tracked"], ["remove", "d"], 0, OTHER),
    ("a copy", [], ["copy", "a", "b"], [], ["copy", "a", "b"], 0, SAME),
    ("a copy into a new folder", [], ["copy", "d/b", "e/f/b"], [], ["copy", "d/b", "e/f/b"], 0, SAME),
    ("a copy of an added one", ["+n", "hg add n"], ["copy", "n", "m"], [], ["copy", "n", "m"], 0, SAME),
    ("a copy of a copy", ["hg copy a b"], ["copy", "b", "e"], [], ["copy", "b", "e"], 0, SAME),
    ("a copy of a changed one", ["*a"], ["copy", "a", "b"], [], ["copy", "a", "b"], 0, SAME),
    ("a copy over a removed one", ["hg remove c"], ["copy", "a", "c"], [], ["copy", "a", "c"], 0, SAME),
    ("a copy back over its source", ["hg copy a b", "hg remove a"], ["copy", "b", "a"], [], ["copy", "b", "a"], 0, SAME),
    ("a copy of a link", ["hg copy l b"], ["copy", "l", "m"], [], ["copy", "l", "m"], 0, SAME),
    ("a copy of an executable one", [], ["copy", "x", "y"], [], ["copy", "x", "y"], 0, SAME),
    ("a copy of an unknown one", ["+n"], ["copy", "n", "m"], ["copy n: not tracked"], ["copy", "n", "m"], 255, SAME),
    ("a copy over a tracked one", [], ["copy", "a", "c"], ["copy c: exists"], ["copy", "a", "c"], 1, SAME),
    ("a copy over itself", [], ["copy", "a", "a"], ["copy a: exists"], ["copy", "a", "a"], 1, SAME),
    ("a copy over an unknown one", ["+n"], ["copy", "a", "n"], ["copy n: exists"], ["copy", "a", "n"], 1, SAME),
    # hg says so, and ends with 0
    ("a copy of a missing one", ["-a"], ["copy", "a", "b"], ["copy a: no such file"], ["copy", "a", "b"], 0, SAME),
    # hg puts it into the folder; ours takes a file's name alone
    ("a copy onto a folder", [], ["copy", "a", "d"], ["copy d: exists"], ["copy", "a", "d"], 0, OTHER),
]


def committed(root):
    """A working copy of a commit, which the plain store has."""
    init(root)
    lay_out(root, ["a", "c", "d/b", "l -> a", "x"])
    os.chmod(f"{root}/x", 0o755)
    hg(root, "add")
    hg(root, "commit", "-m", "one")
    export(root)


def prepared(tests, template, root, steps):
    """A copy of such a one, in which something has happened."""
    shutil.copytree(template, root, symlinks=True)
    for step in steps:
        path = f"{root}/{step[1:]}"
        if step.startswith("hg "):
            ran = hg(root, *step[3:].split(" "))
            if ran.returncode:
                tests.compare(f"beside hg: {step}", ran.stderr, b"")
        elif step[0] == "-":
            os.remove(path)
        elif step[0] == "+":
            lay_out(root, [step[1:]])
        else:
            put(path, b"another\n")


def standing(root):
    """Each file and link of the working copy: what it holds, and whether it can be run."""
    found = {}
    for at, folders, files in os.walk(root):
        folders[:] = [it for it in folders if it != ".hg"]
        for name in files:
            path = os.path.join(at, name)
            if os.path.islink(path):
                found[os.path.relpath(path, root)] = os.readlink(path)
            else:
                with open(path, "rb") as file:
                    found[os.path.relpath(path, root)] = (file.read(), bool(os.stat(path).st_mode & 0o100))
    return found


def run_beside(tests, template):
    for what, steps, words, said, their_words, their_status, is_same in BESIDE:
        with tests.working_copy() as room:
            ours, theirs = f"{room}/ours", f"{room}/theirs"
            prepared(tests, template, ours, steps)
            shutil.copytree(ours, theirs, symlinks=True)
            before = standing(ours)
            answer = tests.run(ours, words)
            ran = hg(theirs, *their_words)
            told, theirs_told = both_told(tests, ours)
            tests.compare(f"beside hg: {what}", (answer, ran.returncode, told), ((1 if said else 0, b"", lines(*said)), their_status, theirs_told))
            after = standing(ours), hg(ours, "status", "-A").stdout
            tests.compare(f"beside hg: {what}: both leave the same", after == (standing(theirs), hg(theirs, "status", "-A").stdout), is_same)
            if said:
                tests.compare(f"beside hg: {what}: a refusal leaves all", after[0] == before, True)


def run_folders_left(tests, template):
    """Mercurial takes a folder away with its last file; ours leaves it."""
    with tests.working_copy() as room:
        root = f"{room}/root"
        prepared(tests, template, root, [])
        answer = tests.run(root, ("remove", "d/b"))
        tests.compare("the folder of the last file that was removed", (answer, os.listdir(f"{root}/d"), hg(root, "status").stdout), ((0, b"", b""), [], b"R d/b\n"))
        hg(root, "revert", "-q", "d/b")
        hg(root, "remove", "d/b")
        tests.compare("and where hg removes it", os.path.lexists(f"{root}/d"), False)


def run_nodes(tests, template):
    """Words of `debugsetparents`, and commits that the plain store doesn't have."""
    with tests.working_copy() as room:
        root = f"{room}/root"
        prepared(tests, template, root, [])
        node = hg(root, "log", "-r", ".", "-T", "{node}").stdout.decode()
        before = tests.run(root, ("debugdirstate",))
        for words, line in [
            ([node[:-1]], "argument 1 is not a node"), ([node, f"{node}0"], "argument 2 is not a node"), (["tip"], "argument 1 is not a node"), ([], "wrong arguments"),
            ([node, node, node], "wrong arguments"),
        ]:
            tests.compare(f"debugsetparents {words!r:.100}", tests.run(root, ["debugsetparents", *words]), (255, b"", aborted(line)))
        other = "12" * 20
        for words in ([other], [node, other], [other, node]):
            status, out, err = tests.run(root, ["debugsetparents", *words])
            tests.compare(f"debugsetparents {words!r:.100}: no manifest", (status, out, err.split(b"\n")[0]), (255, b"", b"abort: no manifest " + other.encode()))
        tests.compare("and the record is as before", tests.run(root, ("debugdirstate",)), before)
        answer = tests.run(root, ("debugsetparents", "0" * 40)), tests.run(root, ("status",))
        tests.compare("debugsetparents to none", answer, ((0, b"", b""), (0, lines("A a", "A c", "A d/b", "A l", "A x"), b"")))
        answer = tests.run(root, ("debugsetparents", node, "0" * 40)), tests.run(root, ("status", "-A")), hg(root, "status", "-A").stdout
        tests.compare("debugsetparents back", answer, ((0, b"", b""), (0, lines("C a", "C c", "C d/b", "C l", "C x"), b""), lines("C a", "C c", "C d/b", "C l", "C x")))


def run(tests):
    if shutil.which("hg") is None:
        tests.skip("the command hg is not installed, so nothing was removed, copied or given other parents beside it")
        return
    with tests.working_copy() as template:
        committed(template)
        for part in (run_beside, run_folders_left, run_nodes):
            part(tests, template)
    run_turns(tests)
