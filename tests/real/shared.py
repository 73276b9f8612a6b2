"""Saves behind a data file that isn't the working copy's own alone: one that has other names, as where a folder was copied by links, and one that may only be read, as
another user's. A copy takes its place first, so what stands at the other names stays as it is; and what a stop leaves on the way is in nobody's way."""

import os
import shutil
import stat

from calls import Calls, has_gcc
from dirstate import written
from folder import NOBODY, aborted, as_nobody, because, lay_out, put, put_record, seen
from saving import BEHIND, BESIDE, COPY, DATA, KILLED, NEXT, added, read, record_of, short, told, wait_for_early, way_of
from times import LONG_PAST, many_files, stamps_of

NAME = DATA[0]
FILES = [*BESIDE, "y", "z", NEXT]
WITH_Z = {**BESIDE, **added("z")}


def lay(root):
    """A working copy whose next change is put behind the data file. Answers that file's bytes."""
    lay_out(root, FILES)
    head, data = written([os.fsencode(it) for it in sorted(BESIDE)])
    put_record(root, head, data)
    return data


def give(root, user):
    """Has all that stands in a working copy be a user's."""
    for at, folders, files in os.walk(root):
        for it in [at, *(os.path.join(at, name) for name in folders + files)]:
            os.chown(it, user, user, follow_symlinks=False)


def linked(root):
    """Gives the data file another name."""
    os.link(f"{root}/.hg/{NAME}", f"{root}/.hg/other")


def readable(root):
    """Has the data file be of the right to read it alone: root's, or one's own without the right to write it. Then the program has to be run without root's rights."""
    if os.geteuid() == 0:
        give(root, NOBODY)
        os.chown(f"{root}/.hg/{record_of(root)[2]}", 0, 0)
    else:
        os.chmod(f"{root}/.hg/{record_of(root)[2]}", 0o444)


def left(root):
    """What stands below `.hg` beside the record."""
    return {it for it in os.listdir(f"{root}/.hg") if it not in ("dirstate", NAME, "other")}


def run_two(tests):
    """Of two working copies that share their files each goes its own way: what one puts behind its data file is none of the other's."""
    with tests.working_copy() as room:
        one, two = f"{room}/one", f"{room}/two"
        lay(one)
        shutil.copytree(one, two, copy_function=os.link)
        tracked = {one: dict(BESIDE), two: dict(BESIDE)}
        steps = [(one, "add", "z"), (two, "add", "y"), (one, "forget", "a"), (two, "add", NEXT), (two, "forget", "a"), (one, "add", "y")]
        for root, word, name in steps:
            what = f"shared by two: {word} {name} in {os.path.basename(root)}"
            other = two if root == one else one
            before, beside = record_of(root), seen(f"{other}/.hg")
            tests.compare(what, (tests.run(root, (word, name)), way_of(root, before)), ((0, b"", b""), BEHIND))
            tracked[root] = {**tracked[root], name: "a"} if word == "add" else {path: it for path, it in tracked[root].items() if path != name}
            tests.compare(f"{what}: the other one's files", seen(f"{other}/.hg") == beside, True)
            for it in one, two:
                tests.compare(f"{what}: what {os.path.basename(it)} tracks", tests.run(it, ("debugdirstate",)), (0, told(tracked[it]), b""))
        tests.compare("shared by two: and nothing else stands there", (left(one), left(two)), (set(), set()))


def run_rights(tests):
    """The copy has the rights of what it takes the place of, whatever the user's mask, and the other name keeps the file."""
    for mode in (0o644, 0o600, 0o664, 0o444):
        with tests.working_copy() as root:
            data = lay(root)
            os.chmod(f"{root}/.hg/{NAME}", mode)
            linked(root)
            before = record_of(root)
            ran = tests.run(root, ("add", "z"), preexec_fn=lambda: os.umask(0o077))
            tests.compare(f"rights {mode:o}: add", (ran, way_of(root, before), left(root)), ((0, b"", b""), BEHIND, set()))
            its = [os.stat(f"{root}/.hg/{it}") for it in (NAME, "other")]
            tests.compare(f"rights {mode:o}: of both", [(stat.S_IMODE(it.st_mode), it.st_nlink) for it in its], 2 * [(mode, 1)])
            tests.compare(f"rights {mode:o}: the other one's bytes", read(f"{root}/.hg/other"), data)


def run_readable(tests):
    """Behind a data file that may only be read a status saves the times that it saw, and a change of what is tracked is saved."""
    with tests.working_copy() as root:
        names = [it for it in FILES if it not in ("y", NEXT)]
        many_files(root, names)
        lay_out(root, ["y"])
        if os.geteuid() == 0:
            give(root, NOBODY)
        tests.compare("may only be read: the first status", (tests.run(root, ("status", "-m"), **as_nobody()), sorted(stamps_of(tests, root))), ((0, b"", b""), sorted(names)))
        for words in ("status", "-m"), ("add", "y"):
            os.utime(f"{root}/z", ns=(LONG_PAST + 7, LONG_PAST + 7))
            readable(root)
            before = record_of(root)
            path = f"{root}/.hg/{before[2]}"
            old, data = os.stat(path), read(path)
            what = f"may only be read: {' '.join(words)}"
            tests.compare(what, (tests.run(root, words, **as_nobody()), way_of(root, before)), ((0, b"", b""), BEHIND))
            new = os.stat(path)
            tests.compare(f"{what}: the file", (new.st_ino != old.st_ino, new.st_mode, new.st_uid, read(path)[:len(data)] == data), (True, old.st_mode, NOBODY if os.geteuid() == 0 else os.geteuid(), True))
            tests.compare(f"{what}: nothing is left", [it for it in os.listdir(f"{root}/.hg") if it.endswith("-new")], [])
        tests.compare("may only be read: the times at last", sorted(stamps_of(tests, root)), sorted(names))
        tests.compare("may only be read: what is new", tests.run(root, ("status", "-a"), **as_nobody()), (0, b"A y\n", b""))


def leave_bytes(root):
    put(f"{root}/.hg/{COPY}", b"\xff" * 9_000)


def leave_link(root):
    os.symlink("../y", f"{root}/.hg/{COPY}")


def leave_loose_link(root):
    os.symlink("../none", f"{root}/.hg/{COPY}")


def leave_name(root):
    os.link(f"{root}/.hg/{NAME}", f"{root}/.hg/{COPY}")


def leave_fifo(root):
    os.mkfifo(f"{root}/.hg/{COPY}")


LEAVES = {"bytes": leave_bytes, "a link": leave_link, "a link to nothing": leave_loose_link, "a name of the file itself": leave_name, "a fifo": leave_fifo}


def run_left(tests):
    """What stands at the copy's name is in nobody's way, and nothing is written through it."""
    for what, leave in LEAVES.items():
        with tests.working_copy() as root:
            data = lay(root)
            linked(root)
            leave(root)
            before = record_of(root)
            tests.compare(f"left there: {what}: read", tests.run(root, ("debugdirstate",)), (0, told(BESIDE), b""))
            tests.compare(f"left there: {what}: add", (tests.run(root, ("add", "z")), way_of(root, before), left(root)), ((0, b"", b""), BEHIND, set()))
            tests.compare(f"left there: {what}: read then", tests.run(root, ("debugdirstate",)), (0, told(WITH_Z), b""))
            tests.compare(f"left there: {what}: other files", (read(f"{root}/.hg/other"), read(f"{root}/y"), os.path.exists(f"{root}/none")), (data, b"y\n", False))
    with tests.working_copy() as root:
        lay(root)
        linked(root)
        os.mkdir(f"{root}/.hg/{COPY}")
        before = seen(f"{root}/.hg")
        tests.compare("left there: a folder: add", tests.run(root, ("add", "z")), (255, b"", aborted(".hg failed") + because(f".hg/{NAME}", "is a directory")))
        tests.compare("left there: a folder: all is as it was", seen(f"{root}/.hg"), before)


# What is done at the data file, by the names of the files below `.hg`: it is looked at, opened and is the one that was seen; what is at the copy's name goes, the copy is made, has its
# rights and bytes, as many as are used, and is made sure before it takes the other's place; that is made sure, and then the copy is written to.
IN_ORDER = [
    f"statx {NAME}", f"openat {NAME}", f"statx {NAME}", f"unlink {COPY}", f"openat {COPY}", f"statx {COPY}", f"read {NAME}", f"write {COPY}", f"fsync {COPY}",
    f"rename {COPY}", "openat .", "fsync .hg", f"statx {NAME}", f"lseek {NAME}", f"write {NAME}", f"statx {NAME}", f"fsync {NAME}",
]


def run_order(tests, calls):
    with tests.working_copy() as root:
        lay(root)
        linked(root)
        names = [f"{it.partition(' ')[0]} {os.path.basename(it)}" for it in calls.listed(root, ["add", "z"])[1]]
        at = names.index(f"unlink {COPY}") - 3
        tests.compare(f"in order: {len(IN_ORDER)} calls", names[at:at + len(IN_ORDER)], IN_ORDER)


def run_stops(tests, calls, what, share, given):
    """A save behind such a data file that is killed before and after each call: the record is the one before and then the one after, another name keeps its bytes, and the next change is saved."""
    texts, known, killed = [told(BESIDE), told(WITH_Z)], [], 0
    with tests.working_copy() as root:
        wait_for_early()
        lay(root)
        share(root)
        names = calls.listed(root, ["add", "z"], **given)[1]
    for number, name in enumerate(names, 1):
        for how in ("before", "after"):
            with tests.working_copy() as root:
                # (so that the docket has changed in the very second in which it is saved anew)
                wait_for_early()
                data = lay(root)
                share(root)
                status = calls.run(root, ["add", "z"], how, number, **given)[0]
                # (where a run takes longer it has some calls less, and isn't killed behind them)
                killed += status == KILLED
                now = tests.run(root, ("debugdirstate",), **given)[1]
                known.append(texts.index(now) if now in texts else None)
                next_one = tests.run(root, ("add", NEXT), **given), tests.run(root, ("debugdirstate",), **given)[1]
                wanted = (0, b"", b""), told({**(WITH_Z if known[-1] else BESIDE), **added(NEXT)})
                other = read(f"{root}/.hg/other") if os.path.exists(f"{root}/.hg/other") else data
                tests.compare(f"{what}: killed {how} call {number}, {short(name)}", (status in (0, KILLED), known[-1] in (0, 1), next_one, left(root), other == data), (True, True, wanted, set(), True))
    tests.compare(f"{what}: killed {killed} times, the record before and then the one after", (killed >= 2 * len(names) - 10, known == sorted(known, key=bool), set(known)), (True, True, {0, 1}))


def run(tests):
    run_two(tests)
    run_rights(tests)
    run_readable(tests)
    run_left(tests)
    if not has_gcc(tests, "so no save behind a shared data file was stopped"):
        return
    calls = Calls(tests)
    run_order(tests, calls)
    run_stops(tests, calls, "of two names", linked, {})
    run_stops(tests, calls, "may only be read", readable, as_nobody())
