"""`remove` and `copy` stopped before and after each call, and with each call failing; with folders exchanged for links meanwhile; where something may only be
read; and where the disk is full. The record is as before or as after, the next command succeeds, nothing outside is written or taken away, and a copy that
didn't come to its end is a front of its source."""

import os
import shutil
import stat

from calls import ERRORS, Calls, has_gcc, let_go, watched
from commits import P1, PARENT, W, put_commit
from dirstate import written
from folder import NOBODY, aborted, as_nobody, because, lay_out, lines, put, put_record, seen
from refusing import files_of
from saving import NEXT, Scene, copied, counted, failed, run_failures, run_stops, short, stopped, told

ONE, OTHER = b"one\n", b"other\n"
LARGE = bytes(i * i % 251 for i in range(200_000))


def put_tracked(root, tracked):
    """The record of these paths, each in the commit and tracked (`n`) or added (`a`)."""
    flags = {os.fsencode(path): W | P1 if letter == "n" else W for path, letter in tracked.items()}
    put_record(root, *written(list(flags), flags, p1=PARENT))


class Changed(Scene):
    """A working copy of a commit, and a command that changes it: which files and links it touches, and the copies that it records."""

    def __init__(self, what, words, before, after, copies=(), touched=(), missing=()):
        super().__init__(what, words, before, after, PARENT)
        self.copies, self.touched, self.missing = copies, touched, missing

    def make(self, root):
        lay_out(root, [NEXT])
        put_commit(root, [(path, ONE, b"") for path, letter in self.before.items() if letter == "n"])
        put_tracked(root, self.before)
        for path in set(self.before) - set(self.missing):
            os.makedirs(os.path.dirname(f"{root}/{path}"), exist_ok=True)
            if path == "l":
                os.symlink("a", f"{root}/l")
            else:
                put(f"{root}/{path}", ONE)

    def texts(self):
        behind = lines(*self.copies)
        with_next = [{**it, NEXT: "a"} for it in (self.before, self.after)]
        return [told(self.before, PARENT), told(self.after, PARENT) + behind, told(with_next[0], PARENT), told(with_next[1], PARENT) + behind]


SCENES = [
    Changed("remove files of a commit", ["remove", "a", "d/b"], {"a": "n", "c": "n", "d/b": "n"}, {"a": "r", "c": "n", "d/b": "r"}, touched=["a", "d/b"]),
    Changed("remove missing ones", ["remove", "-A", "a", "new"], {"a": "n", "c": "n", "new": "a"}, {"a": "r", "c": "n"}, missing=["a", "new"]),
    Changed("copy a file of a commit", ["copy", "a", "d/e/new"], {"a": "n", "d/b": "n"}, {"a": "n", "d/b": "n", "d/e/new": "a"}, ["copy: a -> d/e/new"], ["d/e/new"]),
    Changed("copy an added link", ["copy", "l", "m"], {"a": "n", "l": "a"}, {"a": "n", "l": "a", "m": "a"}, touched=["m"]),
]


def standing(root, paths):
    """What stands at some paths: the bytes of a file, the target of a link as text, or nothing."""
    found = {}
    for path in paths:
        at = f"{root}/{path}"
        if os.path.islink(at):
            found[path] = os.readlink(at)
        elif os.path.isfile(at):
            with open(at, "rb") as file:
                found[path] = file.read()
        else:
            found[path] = None
    return found


def is_meant(scene, root, is_done):
    """What stands is what the scene laid out but for what the command touches: that is gone, or a front of the source, and is so where it is done."""
    was = {path: None if path in scene.missing else "a" if path == "l" else ONE for path in scene.before}
    source = was.get(scene.words[1])
    for path, now in standing(root, {**was, **dict.fromkeys(scene.touched)}).items():
        if path not in scene.touched:
            good = now == was[path]
        elif scene.words[0] == "remove":
            good = now is None or not is_done and now == was[path]
        else:
            good = now == source or not is_done and (now is None or isinstance(source, bytes) and isinstance(now, bytes) and source.startswith(now))
        if not good:
            return False
    return True


def run_tree_stops(tests, calls, scene, template):
    """A scene stopped before and after each call in the working copy, and with each of these calls failing."""
    status, names, _ = copied(tests, template, lambda root: calls.listed(root, scene.words))
    tests.compare(f"{scene.what}: {len(names)} calls in the working copy", (status, bool(names)), (0, True))

    def end(root, how, number):
        which, wrong = stopped(tests, calls, scene, root, how, number)
        return which in (0, 1), wrong, is_meant(scene, root, which == 1)

    def fail(root, reason, number, name):
        status, wrong = failed(tests, calls, scene, root, reason, number, name)
        return wrong, is_meant(scene, root, status == 0)

    for number, name in enumerate(names, 1):
        for how in ("before", "after"):
            ended = copied(tests, template, lambda root: end(root, how, number))
            tests.compare(f"{scene.what}: killed {how} call {number} in the working copy, {short(name)}", ended, (True, None, True))
        for reason in ERRORS:
            ended = copied(tests, template, lambda root: fail(root, reason, number, name))
            tests.compare(f"{scene.what}: {reason} at call {number} in the working copy, {short(name)}", ended, (None, True))


def run_stopped(tests):
    calls, tree, watcher = Calls(tests), Calls(tests, "tree"), watched(tests, "so no call of remove and copy was looked for that isn't counted")
    stops, passed = 0, set()
    for scene in SCENES:
        with tests.working_copy() as template:
            scene.make(template)
            names = counted(tests, calls, watcher, scene, template)
            stops += run_stops(tests, calls, scene, template, names)
            passed |= run_failures(tests, calls, scene, template, names)
            run_tree_stops(tests, tree, scene, template)
    tests.compare(f"{stops} stops of remove and copy", stops >= 100, True)
    tests.compare("calls whose failure changes nothing, of remove and copy", passed, {"statx of copy", "statx of .hg"})


# What is done while the folder `d` is exchanged.
EXCHANGED = [["copy", "a", "d/new"], ["copy", "a", "d/e/f/new"], ["copy", "d/b", "new"], ["remove", "d/b"], ["remove", "d/e/c", "a"]]


def lay_exchanged(room):
    root = f"{room}/root"
    names = ["a", "d/b", "d/e/c"]
    put_commit(root, [(it, ONE, b"") for it in names])
    put_tracked(root, dict.fromkeys(names, "n"))
    for folder, content in ((root, ONE), (f"{room}/outside", OTHER)):
        for name in ("a", "d/b", "d/e/c", "b", "e/c"):
            if folder != root or name in names:
                os.makedirs(os.path.dirname(f"{folder}/{name}"), exist_ok=True)
                put(f"{folder}/{name}", content)
    os.makedirs(f"{room}/outside/e/f", exist_ok=True)
    return root


def exchanged_at(tests, watcher, words, number):
    """Exchanges the folder `d` for a link to one outside, before a call. Answers what is wrong, where something is."""
    with tests.working_copy() as room:
        root = lay_exchanged(room)
        before = seen(f"{room}/outside")
        at = watcher.held(root, words, number)
        os.rename(f"{root}/d", f"{root}/away")
        os.symlink("../outside", f"{root}/d")
        status, out, err = let_go(at)
        if seen(f"{room}/outside") != before:
            return "something outside was changed"
        copy = standing(root, ["new"])["new"]
        if copy is not None and not ONE.startswith(copy):
            return "something outside was copied"
        if status not in (0, 1, 255) or out or bool(err) != bool(status):
            return status, out, err
        return tests.run(root, ("debugdirstate",))[2] or None


def run_exchanged(tests):
    watcher = watched(tests, "so no folder was exchanged for a link while something was copied or removed in it", "tree")
    if watcher is None:
        return
    for words in EXCHANGED:
        with tests.working_copy() as room:
            status, names = watcher.listed(lay_exchanged(room), words)
        tests.compare(f"{' '.join(words)}: {len(names)} calls in the working copy are seen", (status, len(names) > 5), (0, True))
        wrong = [(number, name, it) for number, name in enumerate(names, 1) if (it := exchanged_at(tests, watcher, words, number))]
        tests.compare(f"{' '.join(words)}: a folder is exchanged for a link before each call", wrong[:3], [])


DENIED = "permission denied"
# what may be used how, the words, the name of what fails, where something does, and what stands then: whether `a` and `d/b` do, and `new`, `d/new` and `d/e/new`
RIGHTS = [
    ({"a": 0o444}, ["remove", "a"], None, [False, True, False, False, False]),
    ({"a": 0o000}, ["remove", "a"], "a", [True, True, False, False, False]),
    ({"d": 0o555}, ["remove", "d/b"], "d/b", [True, True, False, False, False]),
    ({"d": 0o000}, ["remove", "d/b"], "d", [True, True, False, False, False]),
    ({"d": 0o555}, ["remove", "a", "d/b"], "d/b", [False, True, False, False, False]),
    ({"a": 0o400}, ["copy", "a", "new"], None, [True, True, True, False, False]),
    ({"a": 0o000}, ["copy", "a", "new"], "a", [True, True, False, False, False]),
    ({"d": 0o555}, ["copy", "a", "d/new"], "d/new", [True, True, False, False, False]),
    ({"d": 0o555}, ["copy", "a", "d/e/new"], "d/e", [True, True, False, False, False]),
    ({"d": 0o000}, ["copy", "a", "d/new"], "d", [True, True, False, False, False]),
    ({"": 0o555}, ["copy", "a", "new"], "new", [True, True, False, False, False]),
    ({"": 0o555}, ["remove", "a"], "a", [True, True, False, False, False]),
]
PATHS = ["a", "d/b", "new", "d/new", "d/e/new"]


def give(root):
    """Gives all of a folder to who has no rights of root's, where there is a way to run as that one."""
    if as_nobody():
        for at, folders, files in os.walk(root):
            for name in (".", *folders, *files):
                os.chown(f"{at}/{name}", NOBODY, NOBODY, follow_symlinks=False)


def run_rights(tests):
    """Where files and folders may only be read, or not even that: what fails is named, and what stands there stays."""
    scene = Changed("rights", [], {"a": "n", "d/b": "n"}, {})
    for modes, words, name, stand in RIGHTS:
        with tests.working_copy() as root:
            scene.make(root)
            give(root)
            before = tests.run(root, ("debugdirstate",))
            for path, mode in modes.items():
                os.chmod(f"{root}/{path}", mode)
            how = {"preexec_fn": lambda: os.umask(0o022), **as_nobody()}
            answer = tests.run(root, words, **how)
            for path in modes:
                if os.path.lexists(f"{root}/{path}"):
                    os.chmod(f"{root}/{path}", 0o755 if os.path.isdir(f"{root}/{path}") else 0o644)
            wanted = (255, b"", aborted("working copy failed") + because(name, DENIED)) if name else (0, b"", b"")
            named = ", ".join(f"{mode:03o} {path or '.'}" for path, mode in modes.items())
            case = f"{named}: {' '.join(words)}"
            tests.compare(case, (answer, [os.path.lexists(f"{root}/{it}") for it in PATHS]), (wanted, stand))
            tests.compare(f"{case}: the record", (tests.run(root, ("debugdirstate",)) == before, os.path.lexists(f"{root}/.hg/wlock")), (name is not None, False))
            if os.path.lexists(f"{root}/new"):
                tests.compare(f"{case}: the copy is as the user's mask has it", stat.S_IMODE(os.lstat(f"{root}/new").st_mode), 0o644)


# how many bytes a file may have, the target, and how many the copy then has
NO_ROOM = [(1_000, "new", 1_000), (70_000, "d/e/new", 70_000), (131_072, "new", 131_072), (199_999, "d/new", 199_999)]


def run_no_room(tests):
    for most, target, part in NO_ROOM:
        with tests.working_copy() as root:
            lay_out(root, ["d/b"])
            put_commit(root, [("a", LARGE, b"")])
            put_tracked(root, {"a": "n"})
            put(f"{root}/a", LARGE)
            before = tests.run(root, ("debugdirstate",))
            answer = tests.run(root, ("copy", "a", target), preexec_fn=files_of(most))
            case = f"no file of more than {most:,} bytes: copy a {target}"
            tests.compare(case, answer, (255, b"", aborted("working copy failed") + because(target, "file too large")))
            tests.compare(f"{case}: a front is there", standing(root, [target])[target] == LARGE[:part], True)
            tests.compare(f"{case}: the record is as before", (tests.run(root, ("debugdirstate",)), os.path.lexists(f"{root}/.hg/wlock")), (before, False))
            tests.compare(f"{case}: once more", tests.run(root, ("copy", "a", target)), (1, b"", lines(f"copy {target}: exists")))
            if os.path.lexists(f"{root}/{target}"):
                os.remove(f"{root}/{target}")
            tests.compare(f"{case}: and then there is room", tests.run(root, ("copy", "a", target)), (0, b"", b""))
            tests.compare(f"{case}: the copy is whole", (standing(root, [target])[target] == LARGE, tests.run(root, ("status", "-C"))[1]), (True, lines(f"A {target}", "  a", "? d/b")))
    with tests.working_copy() as root:
        put_commit(root, [("a", LARGE, b"x"), ("empty", b"", b"")])
        put_tracked(root, {"a": "n", "empty": "n"})
        put(f"{root}/a", LARGE)
        put(f"{root}/empty", b"")
        os.chmod(f"{root}/a", 0o755)
        answers = [tests.run(root, ("copy", it, f"d/{it}")) for it in ("a", "empty")]
        found = standing(root, ["d/a", "d/empty"]) == {"d/a": LARGE, "d/empty": b""}, [os.access(f"{root}/d/{it}", os.X_OK) for it in ("a", "empty")]
        tests.compare("copy a large program and an empty file", (answers, found), (2 * [(0, b"", b"")], (True, [True, False])))


def run(tests):
    run_rights(tests)
    run_no_room(tests)
    if not has_gcc(tests, "so remove and copy were neither stopped nor failed"):
        return
    run_stopped(tests)
    run_exchanged(tests)
