"""What stands at the edge of the program: rights, second names, other users and file systems, and what others do between a look and a change."""

import errno
import os
import shutil
import stat
import subprocess
from contextlib import contextmanager

from calls import Lacking, has_gcc, let_go, watched
from dirstate import docket, put_list, tree_of, written
from folder import NOBODY, aborted, as_nobody, because, lay_out, lines, put, put_record, seen
from locks import DONE, in_like, is_rename, number_where
from mercurial import hg
from parents import init
from saving import ANEW, BEHIND, BESIDE, DATA, SOME, added, read, record_of, told, way_of
from scripts import script
from shared import give
from times import LONG_PAST, many_files, stamps_of

# The bits that are handed on: who sets others on a file means that one alone.
READ_WRITE = 0o666
# A program of Linux, as far as its first bytes tell.
PROGRAM = b"\x7fELF\x02\x01\x01".ljust(16, b"\0") + (2).to_bytes(2, "little") + (62).to_bytes(2, "little") + bytes(100)


def mode_of(path):
    return stat.S_IMODE(os.stat(path).st_mode)


def is_root(tests, what):
    """Whether files of several users can be made; else the tests are skipped."""
    if os.geteuid() != 0:
        tests.skip(f"this is not root: {what}")
        return False
    return True


# ---- rights

MODES = (0o4777, 0o6777, 0o2777, 0o1777, 0o755, 0o4755, 0o666, 0o644, 0o640, 0o600)


def own(path, user, mode):
    os.chown(path, user, user)
    os.chmod(path, mode)


def run_docket_bits(tests):
    """A docket that takes another one's place has the rights to read and to write of that one, and none beyond."""
    users = [("one's own", os.geteuid(), {})] + [("root's, that of nobody", NOBODY, {}), ("nobody's", NOBODY, as_nobody())] * (os.geteuid() == 0)
    for what, user, given in users:
        for mode in MODES:
            for tracked, way in ((SOME, ANEW), (BESIDE, BEHIND)):
                with tests.working_copy() as root:
                    lay_out(root, ["z"])
                    put_record(root, *written([os.fsencode(it) for it in sorted(tracked)]))
                    if user != os.geteuid() or given:
                        give(root, user)
                    own(f"{root}/.hg/dirstate", user, mode)
                    before = record_of(root)
                    ran = tests.run(root, ("add", "z"), **given)
                    tests.compare(f"a docket of {mode:o}, {what}, {way}", (ran, way_of(root, before), f"{mode_of(f'{root}/.hg/dirstate'):o}"), (DONE, way, f"{mode & READ_WRITE:o}"))


def behind_program(tail):
    """A record whose data file has a program in front, or behind what is used."""
    paths = [b"d/file%02d" % i for i in range(40)] + [b"y"]
    if tail:
        head, data = written(paths)
        return head, data + PROGRAM
    data = bytearray(PROGRAM)
    root_list, total = put_list(data, tree_of(paths), b"")
    return docket(len(data), root_list, counts=(total, 0, len(PROGRAM))), bytes(data)


def linked(path):
    os.link(path, f"{os.path.dirname(path)}/other")


def run_data_bits(tests):
    """A copy that takes a data file's place is no program of whoever saves, whatever that file is to its own user."""
    if not is_root(tests, "no data file was another user's"):
        return
    rows = [(mode, NOBODY, True, {}) for mode in (0o4755, 0o6777, 0o1777, 0o755, 0o644)] + [(mode, 0, False, as_nobody()) for mode in (0o444, 0o4555, 0o2555, 0o4755, 0o644)]
    for mode, user, is_linked, given in rows:
        for tail in (True, False):
            with tests.working_copy() as root:
                lay_out(root, ["z"])
                put_record(root, *behind_program(tail))
                give(root, NOBODY)
                path = f"{root}/.hg/{DATA[0]}"
                if is_linked:
                    linked(path)
                own(path, user, mode)
                before, it = record_of(root), os.stat(path)
                ran = tests.run(root, ("add", "z"), **given)
                now = os.stat(path)
                case = f"a data file of {mode:o}, user {user}, a program {'behind' if tail else 'in front'}"
                wanted = DONE, BEHIND, True, NOBODY if given else 0, f"{mode & READ_WRITE:o}"
                tests.compare(case, (ran, way_of(root, before), now.st_ino != it.st_ino, now.st_uid, f"{mode_of(path):o}"), wanted)


def run_new_modes(tests):
    """A new file below `.hg` has the rights to read and to write of that folder, whatever the user's mask, as Mercurial's own."""
    watcher = watched(tests, "so no lock's file was seen")
    if watcher is None:
        return
    number = in_like(tests, lambda root: number_where(watcher, root, ["add", "a"], is_rename))
    has_hg = shutil.which("hg") is not None
    if not has_hg:
        tests.skip("the command hg is not installed, so the modes of its files were not compared")
    for mode in (0o755, 0o775, 0o2775, 0o700, 0o770):
        for mask in (0o022, 0o002, 0o077, 0o007, 0o000):
            case, wanted, masked = f".hg of {mode:o}, mask {mask:o}", f"{mode & READ_WRITE:o}", lambda: os.umask(mask)
            with tests.working_copy() as root:
                lay_out(root, [".hg/", "a"])
                os.chmod(f"{root}/.hg", mode)
                at = watcher.held(root, ["add", "a"], number, preexec_fn=masked)
                lock = f"{mode_of(f'{root}/.hg/wlock'):o}"
                ran = let_go(at)
                modes = [f"{mode_of(f'{root}/.hg/{it}'):o}" for it in ("dirstate", DATA[0])]
                tests.compare(f"{case}: add", (ran, lock, modes), (DONE, wanted, 2 * [wanted]))
            with tests.working_copy() as root:
                many_files(root, ["a", "b"])
                os.chmod(f"{root}/.hg", mode)
                ran = tests.run(root, ("status", "-m"), preexec_fn=masked)
                tests.compare(f"{case}: status", (ran, f"{mode_of(f'{root}/.hg/probe'):o}", stamps_of(tests, root)), (DONE, wanted, ["a", "b"]))
            if has_hg:
                tests.compare(f"{case}: hg's own", hg_mode(tests, mode, mask), wanted)


def hg_mode(tests, mode, mask):
    """The mode of the docket that Mercurial makes with that mask in a repository whose folders have that mode."""
    with tests.working_copy() as root:
        init(root)
        lay_out(root, ["a"])
        for it in (".hg", ".hg/store"):
            os.chmod(f"{root}/{it}", mode)
        before = os.umask(mask)
        try:
            hg(root, "add", "a")
        finally:
            os.umask(before)
        return f"{mode_of(f'{root}/.hg/dirstate'):o}"


# ---- what earlier commands left, of one's own and of others

LEFT = ["dirstate-new", DATA[1]]
BYTES = b"\xff" * 9_000


def leave(root, names):
    for name in names:
        put(f"{root}/.hg/{name}", BYTES)


def run_linked(tests):
    """Of working copies that share their files by links each saves for itself, also over what an earlier save left: what stands at the other names stays as it is."""
    for what, tracked, names in [("anew", SOME, LEFT), ("behind", BESIDE, ["dirstate-new"]), ("the docket alone", SOME, ["dirstate-new"]), ("the data file alone", SOME, [DATA[1]])]:
        with tests.working_copy() as room:
            one, two, kept = (f"{room}/{it}" for it in ("one", "two", "kept"))
            lay_out(one, [*tracked, "y", "z"])
            put_record(one, *written([os.fsencode(it) for it in sorted(tracked)]))
            leave(one, names)
            for other in (two, kept):
                shutil.copytree(one, other, copy_function=os.link)
            before = seen(f"{kept}/.hg")
            for root, name in ((one, "z"), (two, "y")):
                case = f"left and linked, {what}: add {name} in {os.path.basename(root)}"
                tests.compare(case, tests.run(root, ("add", name)), DONE)
                tests.compare(f"{case}: another one's files", seen(f"{kept}/.hg") == before, True)
            found = [tests.run(it, ("debugdirstate",)) for it in (one, two, kept)]
            tests.compare(f"left and linked, {what}: what each tracks", found, [(0, told({**tracked, **more}), b"") for more in (added("z"), added("y"), {})])


def run_left_by_others(tests):
    """What another user left is in nobody's way: what takes its place is one's own."""
    if not is_root(tests, "nothing was left by another user"):
        return
    for names in (["dirstate-new"], [DATA[1]], LEFT):
        for mode in (0o666, 0o644, 0o600):
            for words, tracked in ((("add", "z"), added("z")), (("status", "-m"), {})):
                with tests.working_copy() as root:
                    many_files(root, sorted(SOME))
                    lay_out(root, ["z"])
                    give(root, NOBODY)
                    leave(root, names)
                    for name in names:
                        own(f"{root}/.hg/{name}", 0, mode)
                    case = f"{', '.join(names)} of another user, {mode:o}: {words[0]}"
                    ran = tests.run(root, words, **as_nobody())
                    record = record_of(root)
                    users = [os.stat(f"{root}/.hg/{it}").st_uid for it in ("dirstate", record[2])]
                    tests.compare(case, (ran, users, os.path.exists(f"{root}/.hg/dirstate-new")), (DONE, 2 * [NOBODY], False))
                    told_now = tests.run(root, ("status", "-a", "-n"))
                    tests.compare(f"{case}: what is added, and the times", (told_now, stamps_of(tests, root)), ((0, lines(*tracked), b""), sorted(SOME) if words[0] == "status" else []))


def run_probe(tests):
    """The file by which the clock is asked: another user's is made anew, one with other names isn't written, and where no record can be saved a status says nothing."""
    with tests.working_copy() as root:
        many_files(root, ["a", "b"])
        put(f"{root}/mine", b"mine\n")
        os.link(f"{root}/mine", f"{root}/.hg/probe")
        ran = tests.run(root, ("status", "-c"))
        tests.compare("a probe with another name", (ran, read(f"{root}/mine"), stamps_of(tests, root)), ((0, b"C a\nC b\n", b""), b"mine\n", ["a", "b"]))
    if is_root(tests, "no probe was another user's"):
        for mode in (0o644, 0o666, 0o600, 0o4777):
            with tests.working_copy() as root:
                many_files(root, ["a", "b"])
                give(root, NOBODY)
                put(f"{root}/.hg/probe", b"0")
                own(f"{root}/.hg/probe", 0, mode)
                ran = tests.run(root, ("status", "-c"), **as_nobody())
                tests.compare(f"a probe of another user, {mode:o}", (ran, stamps_of(tests, root)), ((0, b"C a\nC b\n", b""), ["a", "b"]))
    for things in [".hg/probe/"], [".hg/probe |"], [".hg/probe -> gone"]:
        with tests.working_copy() as root:
            many_files(root, ["a", "b"])
            lay_out(root, [*things, "z"])
            ran = script(tests, root, b"status -c\nadd z\nstatus -a\n")
            tests.compare(f"no probe for {things[0]}: a script", (ran, stamps_of(tests, root)), ((0, b"C a\nC b\nA z\n", b""), []))
    run_probe_shut(tests)


def run_probe_shut(tests):
    """Where nothing may be written below `.hg` a status has nothing to say of that, and a command that changes something says why it can't."""
    refused = 255, b"", aborted(".hg failed") + because(".hg/wlock", "permission denied")
    with tests.working_copy() as root:
        many_files(root, ["a", "b"])
        put(f"{root}/.hg/probe", b"0")
        if os.geteuid() == 0:
            give(root, NOBODY)
        os.chmod(f"{root}/.hg", 0o555)
        ran = [tests.run(root, words, **as_nobody()) for words in (("status", "-c"), ("forget", "a"))]
        told_by_script = script(tests, root, b"status -c\nforget a\n", **as_nobody())
        os.chmod(f"{root}/.hg", 0o755)
        tests.compare("a .hg that may only be read", (ran, stamps_of(tests, root)), ([(0, b"C a\nC b\n", b""), refused], []))
        tests.compare("a .hg that may only be read: a script", told_by_script, (255, b"C a\nC b\n", refused[2]))


# ---- file systems

@contextmanager
def mounted(path):
    """Has another file system stand at a folder, where that may be done: whether it does."""
    done = os.geteuid() == 0 and shutil.which("mount") is not None and subprocess.run(["mount", "-t", "tmpfs", "none", path], capture_output=True).returncode == 0
    try:
        yield done
    finally:
        if done:
            subprocess.run(["umount", path], check=True, capture_output=True)


def clean(root, name):
    put(f"{root}/{name}", os.fsencode(name) + b"\n")
    os.utime(f"{root}/{name}", ns=(LONG_PAST, LONG_PAST))


def run_other_file_system(tests):
    """The clock is that of the file system on which `.hg` stands: of what stands on another one no time is recorded, and none is trusted that was."""
    for is_recorded in (False, True):
        with tests.working_copy() as root:
            names = ["a", "d/e/b", "other/b", "other/c/d"]
            many_files(root, names)
            if is_recorded:
                tests.run(root, ("status", "-m"))
                tests.compare("on one file system: the times", stamps_of(tests, root), sorted(names))
            with mounted(f"{root}/other") as done:
                if not done:
                    tests.skip("no other file system can be mounted in a working copy: nothing stood on one")
                    return
                os.mkdir(f"{root}/other/c")
                for name in names[2:]:
                    clean(root, name)
                what = "on another file system, with times" if is_recorded else "on another file system"
                give(f"{root}/.hg", NOBODY)
                tests.compare(f"{what}: status", tests.run(root, ("status", "-A"), **as_nobody()), (0, lines(*(f"C {it}" for it in sorted(names))), b""))
                if not is_recorded:
                    tests.compare(f"{what}: the times", stamps_of(tests, root), ["a", "d/e/b"])
                put(f"{root}/other/b", b"OTHER/B\n")
                os.utime(f"{root}/other/b", ns=(LONG_PAST, LONG_PAST))
                changed = 0, lines("M other/b", "C a", "C d/e/b", "C other/c/d"), b""
                for mode in 0o555, 0o755:
                    os.chmod(f"{root}/.hg", mode)
                    tests.compare(f"{what}: a change of the same size and time, .hg of {mode:o}", tests.run(root, ("status", "-m", "-c"), **as_nobody()), changed)


def run_syncs(tests):
    """A folder that no file system makes sure is taken as it is; each other failure is told."""
    lacking = Lacking(tests)
    for what, error, reason in [("sync-folder", errno.EINVAL, None), ("sync-folder", errno.EIO, "input/output error"), ("sync-file", errno.EINVAL, "invalid argument"), ("sync-file", errno.EIO, "input/output error")]:
        for lay, words in ((lambda root: lay_out(root, [".hg/", "a"]), ("add", "a")), (lambda root: many_files(root, ["a", "b"]), ("forget", "a"))):
            with tests.working_copy() as root:
                lay(root)
                before = tests.run(root, ("debugdirstate",))
                status, out, err = lacking.run(root, words, what, error)
                is_told = err.startswith(aborted(".hg failed") + b"hgtrack: .hg") and err.endswith(f": {reason}\n".encode())
                after = tests.run(root, ("debugdirstate",))
                answer = status, out, is_told if reason else err, after != before
                tests.compare(f"{what} fails, {errno.errorcode[error]}: {words[0]}", answer, (255, b"", True, False) if reason else (0, b"", b"", True))


# ---- what others do in between

def lay_copied(root):
    """A working copy with files, and a link, that can be copied."""
    lay_out(root, [".hg/", "a", "d/c", "l -> a", "x"])
    os.chmod(f"{root}/x", 0o755)
    put_record(root, *written([b"a", b"d/c", b"l", b"x"]))


def put_in_the_way(root, kind, path):
    """Puts something at a path, in folders that are made."""
    lay_out(root, [{"a file": path, "a link": f"{path} -> nowhere", "a folder": f"{path}/", "a fifo": f"{path} |"}[kind]])


def outside(root):
    """What stands in a working copy: the kind and the mode of each path, and the bytes of each file."""
    return {path: (it[0], it[3]) for path, it in seen(root).items() if b"/.hg" not in path}


# what is copied and where to, what is put there meanwhile, and what is said of it
MEANWHILE = aborted("working copy failed"), ": something was put there meanwhile"
EXISTS = b"", None
PUTS = [(source, target, "a file", MEANWHILE) for source, target in (("a", "b"), ("l", "b"), ("x", "b"), ("a", "d/b"), ("a", "new/er/b"), ("l", "new/b"))] + [
    ("a", "b", "a link", MEANWHILE), ("l", "b", "a link", MEANWHILE), ("a", "b", "a folder", EXISTS), ("a", "b", "a fifo", EXISTS),
]


def run_put(tests):
    """What an editor saves between a look at a copy's target, which shows nothing, and the making of it stays, and nothing is tracked there."""
    watcher = watched(tests, "so nothing was put in a copy's way", "tree")
    if watcher is None:
        return
    for source, target, kind, (fault, reason) in PUTS:
        words = ["copy", source, target]
        wanted = (255, b"", fault + lines(f"hgtrack: {target}{reason}")) if reason else (1, b"", lines(f"copy {target}: exists"))
        with tests.working_copy() as root:
            lay_copied(root)
            rows = watcher.listed(root, words)[1]
        at_target = [(number, it.partition(" ")[0]) for number, it in enumerate(rows, 1) if it.endswith(f"/{target}") or os.path.basename(it) == "b"]
        making = next(at for at, (_, call) in enumerate(at_target) if call in ("openat", "symlink", "symlinkat"))
        # (it counts as absent behind the first look)
        for number, call in at_target[1:making + 1]:
            with tests.working_copy() as root:
                lay_copied(root)
                before = tests.run(root, ("debugdirstate",))
                at = watcher.held(root, words, number)
                put_in_the_way(root, kind, target)
                stands = outside(root)
                case = f"{' '.join(words)}: {kind} is put there before call {number}, {call}"
                tests.compare(case, (let_go(at), outside(root) == stands, tests.run(root, ("debugdirstate",))), (wanted, True, before))


BREAK = aborted("working copy failed") + because("a\\x0db", "the manifests of Mercurial can't hold such a name: rename the file")


def run_breaks(tests):
    """In a script, too, no name is tracked that Mercurial's manifests can't hold, where Mercurial keeps the repository."""
    for is_required in (True, False):
        for text in (b"add a\rb\n", b"add a\nadd a\rb\n", b"add a\rb a\n", b"copy a a\rb\n"):
            with tests.working_copy() as root:
                lay_out(root, ["a", "a\rb"])
                put_record(root, *written([b"a"]))
                if text.startswith(b"copy"):
                    os.remove(f"{root}/a\rb")
                if is_required:
                    put(f"{root}/.hg/requires", b"dirstate-v2\n")
                before = tests.run(root, ("debugdirstate",))
                ran = script(tests, root, text)
                after = tests.run(root, ("debugdirstate",))
                case = f"a script's {text!r}{', where something is required' if is_required else ''}"
                if is_required:
                    tests.compare(case, (ran, after), ((255, b"", BREAK), before))
                else:
                    tests.compare(case, (ran, b"a\rb" in after[1]), (DONE, True))
        with tests.working_copy() as root:
            lay_out(root, ["a", "a\rb", ".hg/"])
            if is_required:
                put(f"{root}/.hg/requires", b"dirstate-v2\n")
            tests.compare("a status beside such a name", tests.run(root), (0, b"? a\n? a\rb\n", b""))


def run_long_names(tests):
    """A data file whose name leaves no room for a longer one beside it."""
    for length in (200, 242, 243, 244, 245, 246):
        with tests.working_copy() as root:
            identifier = "8" * length
            lay_out(root, [*BESIDE, "z"])
            head, data = written([os.fsencode(it) for it in sorted(BESIDE)], identifier=identifier.encode())
            put_record(root, head, data, identifier)
            linked(f"{root}/.hg/dirstate.{identifier}")
            before, names = record_of(root), sorted(os.listdir(f"{root}/.hg"))
            ran = tests.run(root, ("add", "z"))
            tests.compare(f"an identifier of {length} bytes, a data file with another name", (ran, way_of(root, before), sorted(os.listdir(f"{root}/.hg")), read(f"{root}/.hg/other")), (DONE, BEHIND, names, data))


def run(tests):
    run_docket_bits(tests)
    run_data_bits(tests)
    run_new_modes(tests)
    run_linked(tests)
    run_left_by_others(tests)
    run_probe(tests)
    run_other_file_system(tests)
    if has_gcc(tests, "so no folder failed to be made sure"):
        run_syncs(tests)
    run_put(tests)
    run_breaks(tests)
    run_long_names(tests)
