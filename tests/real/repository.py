"""What a repository requires (`.hg/requires`) and which command is refused for it, by hand and beside Mercurial's own program; and what is said
behind the line of a fault or of a refused word. Nothing is written where a command is refused, and Mercurial goes on as before."""

import os
import shutil
import subprocess

from calls import ERRORS, Calls, has_gcc
from dirstate import written
from folder import CONVERT, NO_HG, OUTSIDE, aborted, as_nobody, because, further, lay_out, lines, no_flag, put, put_record, seen

LARGEST = 65_536
V2 = "dirstate-v2\n"
# what Mercurial 6.3 itself writes for a repository with dirstate-v2, in one file and in two
WHOLE = "dirstate-v2\ndotencode\nfncache\ngeneraldelta\nrevlog-compression-zstd\nrevlogv1\nsparserevlog\nstore\n"
OWN, STORE = "dirstate-v2\nshare-safe\n", "dotencode\nfncache\ngeneraldelta\nrevlog-compression-zstd\nrevlogv1\nsparserevlog\nstore\n"

NO_PARENT = "0" * 40
ALL = (("status",), ("debugdirstate",), ("add", "a"), ("forget", "b"), ("copy", "a", "c"), ("remove", "-A", "c"), ("debugsetparents", NO_PARENT))
CHANGING = ALL[2:]


def refused(text, next_one):
    """The answer of a command that is refused before it begins."""
    return 255, b"", aborted(text) + further(next_one)


def unsupported(name):
    return refused(f"repository requires {name}, which is not supported", "hg itself answers here")


def unknown(name):
    return refused(f"repository requires {name}, which is not known", "hg itself answers here, where it knows it")


def writers(name):
    return refused(f"repository requires {name}, which is not supported in commands that change something",
                   "hg itself does that here; status and debugdirstate are answered")


OLD = refused(".hg/requires doesn't name dirstate-v2", CONVERT)
NO_REPOSITORY = refused("no repository here or above", "hg init --config format.use-dirstate-v2=yes makes one; a folder .hg alone serves hgtrack, and not hg")
TRACKED_KEY = "dirstate-tracked-key-v1"

# what is required, and in the store where that stands apart; which commands are refused, and how
REQUIRES = [
    ("what Mercurial writes", WHOLE, None, (), None),
    ("what it writes in two files", OWN, STORE, (), None),
    ("dirstate-v2 alone", V2, None, (), None),
    ("no line feed at the end", "store\ndirstate-v2", None, (), None),
    ("lines that end as on windows", "store\r\ndirstate-v2\r\n", None, (), None),
    ("a requirement twice", V2 + V2, None, (), None),
    ("all that is known of a store", V2 + "bookmarksinstore\nexp-archived-phase\nexp-changelog-v2\nexp-copies-sidedata-changeset\nexp-revlogv2.2\ninternal-phase-2\npersistent-nodemap\ntreemanifest\n"
     "exp-compression-none\nexp-compression-zlib\nexp-compression-zstd\n", None, (), None),
    ("nothing", "", None, ALL, OLD),
    ("an older dirstate", STORE, None, ALL, OLD),
    ("an older dirstate, in two files", "share-safe\n", STORE, ALL, OLD),
    ("dirstate-v2 in the store's alone", "share-safe\n", STORE + V2, ALL, OLD),
    ("a longer name than dirstate-v2", "dirstate-v22\nstore\n", None, ALL, unknown("dirstate-v22")),
    ("a shorter name than dirstate-v2", "dirstate-v\nstore\n", None, ALL, unknown("dirstate-v")),
    ("a name of two that are known", "dirstate-v2 store\n", None, ALL, unknown("dirstate-v2 store")),
    ("a blank before a name", V2 + " store\n", None, ALL, unknown(" store")),
    ("a line of nothing", "store\n\ndirstate-v2\n", None, ALL, unknown("")),
    ("letters of another size", V2 + "Store\n", None, ALL, unknown("Store")),
    ("one that isn't known", V2 + "new-kind-7\n", None, ALL, unknown("new-kind-7")),
    ("one that isn't known, in the store's", OWN, STORE + "new-kind-7\n", ALL, unknown("new-kind-7")),
    ("one that isn't known, in a store's that isn't asked for", V2, "new-kind-7\n", (), None),
    ("one that isn't known, and an older dirstate", "new-kind-7\n", None, ALL, unknown("new-kind-7")),
    ("one with a carriage return inside", V2 + "a\rb\n", None, ALL, unknown("a\\x0db")),
    ("largefiles", WHOLE + "largefiles\n", None, ALL, unsupported("largefiles")),
    ("largefiles, in the store's", OWN, STORE + "largefiles\n", ALL, unsupported("largefiles")),
    ("lfs", WHOLE + "lfs\n", None, ALL, unsupported("lfs")),
    ("sparse", OWN + "exp-sparse\n", STORE, ALL, unsupported("exp-sparse")),
    ("narrow", OWN, STORE + "narrowhg-experimental\n", ALL, unsupported("narrowhg-experimental")),
    ("narrow and an older dirstate", "narrowhg-experimental\n", None, ALL, unsupported("narrowhg-experimental")),
    ("git", "git\n" + V2, None, ALL, unsupported("git")),
    ("the first of two", V2 + "largefiles\nnew-kind-7\n", None, ALL, unsupported("largefiles")),
    ("the first of two, the other way round", V2 + "new-kind-7\nlargefiles\n", None, ALL, unknown("new-kind-7")),
    ("the repository's own before its store's", OWN + "exp-sparse\n", "new-kind-7\n", ALL, unsupported("exp-sparse")),
    ("a tracked key", WHOLE + TRACKED_KEY + "\n", None, CHANGING, writers(TRACKED_KEY)),
    ("a tracked key, in two files", OWN + TRACKED_KEY + "\n", STORE, CHANGING, writers(TRACKED_KEY)),
]


def unread(name, reason):
    """The answer where a file of the requirements can't be read."""
    return 255, b"", aborted(".hg failed") + because(name, reason)


NO_FILE, ABSENT = "not a regular file", "no such file or directory"
REQUIRED, IN_STORE, SHARED = ".hg/requires", ".hg/store/requires", ".hg/sharedpath"
# what stands below `.hg`, as folder.lay_out reads it or as a name and its bytes, and the answer
UNREAD = [
    ("a folder as requires", [f"{REQUIRED}/"], unread(REQUIRED, NO_FILE)),
    ("a fifo as requires", [f"{REQUIRED} |"], unread(REQUIRED, NO_FILE)),
    ("a link as requires", [f"{REQUIRED} -> ../kept"], unread(REQUIRED, NO_FILE)),
    ("a link that leads nowhere as requires", [f"{REQUIRED} -> gone"], unread(REQUIRED, NO_FILE)),
    ("requires that isn't text", [(REQUIRED, b"dirstate-v2\nstore\xff\n")], unread(REQUIRED, "not text")),
    ("requires that is too large", [(REQUIRED, b"dirstate-v2\n".ljust(LARGEST + 1, b"\n"))], unread(REQUIRED, "over 65,536 bytes")),
    ("requires of 4 GiB", [(REQUIRED, 1 << 32)], unread(REQUIRED, "over 65,536 bytes")),
    ("no requires of the store", [(REQUIRED, OWN.encode())], unread(IN_STORE, ABSENT)),
    ("a folder as the store's", [(REQUIRED, OWN.encode()), f"{IN_STORE}/"], unread(IN_STORE, NO_FILE)),
    ("the store's that isn't text", [(REQUIRED, OWN.encode()), (IN_STORE, b"\x80")], unread(IN_STORE, "not text")),
    ("no path to what is shared", [(REQUIRED, (OWN + "shared\n").encode()), (IN_STORE, STORE.encode())], unread(SHARED, ABSENT)),
    ("a path that leads nowhere", [(REQUIRED, (OWN + "shared\n").encode()), (SHARED, b"/gone/.hg\n")], unread("/gone/.hg/store/requires", ABSENT)),
    ("a path from .hg that leads nowhere", [(REQUIRED, (OWN + "relshared\n").encode()), (SHARED, b"../gone/.hg\n")], unread(".hg/../gone/.hg/store/requires", ABSENT)),
    ("a folder as the path", [(REQUIRED, (OWN + "shared\n").encode()), f"{SHARED}/"], unread(SHARED, NO_FILE)),
]

# words behind add, each a kind of word that is no path, and what is said of it, once a kind
EMPTY = "an empty word is no path"
ABSOLUTE = "a path is told from the current folder, without a slash in front"
DIRECTORY = "a directory isn't tracked, its files are: without a slash at the end"
BAD_PATHS = [
    ("", [""], [""], [EMPTY]),
    ("", ["/a"], ["/a"], [ABSOLUTE]),
    ("", ["../a"], ["../a"], [OUTSIDE]),
    ("", [".."], [".."], [OUTSIDE]),
    ("", ["./../a"], ["./../a"], [OUTSIDE]),
    ("", ["d/"], ["d/"], [DIRECTORY]),
    ("", ["/a", "", "/b", ""], ["/a", "", "/b", ""], [EMPTY, ABSOLUTE]),
    ("", ["d/", "../x", "e/"], ["d/", "../x", "e/"], [OUTSIDE, DIRECTORY]),
    ("", ["/d/"], ["/d/"], [ABSOLUTE, DIRECTORY]),
    ("", ["a//b"], ["a//b"], []),
    ("", [".hg/x"], [".hg/x"], []),
    ("d", ["../../x"], ["../../x"], [OUTSIDE]),
    ("d", ["e/"], ["d/e/"], [DIRECTORY]),
    ("d", ["e/../f"], ["d/e/../f"], []),
]


def lay_repository(root, own, store):
    """A working copy with an unknown file and a tracked one, which requires this."""
    lay_out(root, ["a", "b", ".hg/store/"])
    put_record(root, *written([b"b"]))
    put(f"{root}/{REQUIRED}", own.encode())
    if store is not None:
        put(f"{root}/{IN_STORE}", store.encode())


def answers(tests, root):
    """What each command answers, and whether anything was written by those that ended with 255."""
    found, same = {}, True
    for words in ALL:
        before = seen(root)
        found[words] = tests.run(root, words)
        same = same and (found[words][0] != 255 or seen(root) == before)
    return found, same


def run_requires(tests):
    free = {("status",): (0, lines("A b", "? a"), b""), ("remove", "-A", "c"): (1, b"", lines("remove c: still there"))}
    free |= dict.fromkeys([("add", "a"), ("forget", "b"), ("copy", "a", "c"), ("debugsetparents", NO_PARENT)], (0, b"", b""))
    for what, own, store, commands, answer in REQUIRES:
        with tests.working_copy() as root:
            lay_repository(root, own, store)
            found, same = answers(tests, root)
            told = found[("debugdirstate",)]
            tests.compare(f"requires: {what}: debugdirstate", (told[0], told[2]), (answer[0], answer[2]) if ALL[1] in commands else (0, b""))
            for words in ALL:
                if words in commands or words in free:
                    tests.compare(f"requires: {what}: {' '.join(words)}", found[words], answer if words in commands else free[words])
            tests.compare(f"requires: {what}: nothing is written where a command is refused", same, True)
    with tests.working_copy() as root:
        lay_repository(root, TRACKED_KEY + "\n", None)
        found = answers(tests, root)[0]
        tests.compare("requires: a tracked key and an older dirstate", [found[it] for it in ALL], 2 * [OLD] + len(CHANGING) * [writers(TRACKED_KEY)])
    with tests.working_copy() as root:
        lay_out(root, ["a", ".hg/"])
        tests.compare("no requires: as for any folder .hg", (tests.run(root), tests.run(root, ("add", "a")), tests.run(root)), ((0, lines("? a"), b""), (0, b"", b""), (0, lines("A a"), b"")))


def run_unread(tests):
    for what, things, answer in UNREAD:
        with tests.working_copy() as root:
            lay_out(root, ["a", "b", "kept", ".hg/store/"])
            put_record(root, *written([b"b"]))
            put(f"{root}/kept", V2.encode())
            for thing in things:
                if isinstance(thing, str):
                    lay_out(root, [thing])
                elif isinstance(thing[1], int):
                    with open(f"{root}/{thing[0]}", "wb") as file:
                        file.truncate(thing[1])
                else:
                    put(f"{root}/{thing[0]}", thing[1])
            for words in ALL:
                before = seen(root)
                tests.compare(f"requires: {what}: {' '.join(words)}", (*tests.run(root, words), seen(root) == before), (*answer, True))
    with tests.working_copy() as root:
        lay_repository(root, WHOLE.ljust(LARGEST, "\n")[:LARGEST - 1] + "\n", None)
        tests.compare("requires: the longest that is read", tests.run(root), unknown(""))
        put(f"{root}/{REQUIRED}", WHOLE.encode())
        os.chmod(f"{root}/{REQUIRED}", 0)
        tests.compare("requires: it may not be read", tests.run(root, **as_nobody()), unread(REQUIRED, "permission denied"))


def run_failing(tests):
    """Each call on the files of the requirements fails: the failure is told by its file, and no command begins."""
    if not has_gcc(tests, "so no call on the requirements failed"):
        return
    calls, words = Calls(tests), ("debugdirstate",)
    with tests.working_copy() as root:
        root = os.path.realpath(root)
        lay_repository(root, OWN, STORE)
        free, rows = tests.run(root, words), calls.listed(root, words)[1]
        named = [(number, *row.partition(" ")[::2]) for number, row in enumerate(rows, 1)]
        looked = [(number, call, os.path.relpath(os.path.join(root, path), root)) for number, call, path in named if path.endswith("/requires")]
        tests.compare("the files that are read", sorted({path for _, _, path in looked}), [REQUIRED, IN_STORE])
        for number, call, path in looked:
            for reason, error in ERRORS.items():
                wanted = free if call == "close" else unread(path, reason)
                tests.compare(f"{reason}: {call} of {path}", calls.run(root, words, "fail", number, error), wanted)


def run_nowhere(tests):
    """Where no repository is, here or above, nothing is made."""
    for at in ("", "d", "d/e"):
        for words in (("add", "a"), ("forget", "a"), ("add", "d/e/f"), ("add", "gone", "a"), ("remove", "a"), ("copy", "a", "b"), ("debugsetparents", NO_PARENT)):
            with tests.working_copy() as root:
                lay_out(root, ["a", "d/a", "d/e/a", "d/e/f"])
                before = seen(root)
                case = f"no repository, in {at or '.'}: {' '.join(words)}"
                tests.compare(case, (tests.run(os.path.join(root, at), words), seen(root) == before), (NO_REPOSITORY, True))
                tests.compare(f"{case}: and a status is as before", tests.run(root), (0, lines("? a", "? d/a", "? d/e/a", "? d/e/f"), NO_HG))
    with tests.working_copy() as root:
        lay_out(root, ["a", "below/.hg/", "below/b"])
        tests.compare("no repository above one: add", tests.run(root, ("add", "a")), NO_REPOSITORY)
        tests.compare("and the one below is its own root", tests.run(f"{root}/below"), (0, lines("? b"), b""))
        for words, said in ((("add",), aborted("wrong arguments")), (("forget",), aborted("wrong arguments")), (("add", "-x"), no_flag("add", "-x")), (("forget", "--"), aborted("wrong arguments"))):
            tests.compare(f"no repository: {' '.join(words)}", tests.run(root, words), (255, b"", NO_HG + said))


def run_breaks(tests):
    """A name that Mercurial's manifests can't hold, where Mercurial keeps the repository."""
    for name, told in (("x\ny", "x\\x0ay"), ("x\r", "x\\x0d"), ("\n", "\\x0a"), ("d/\r\n", "d/\\x0d\\x0a")):
        for words in (["add", name], ["add", "a", name], ["forget", name]):
            with tests.working_copy() as root:
                lay_repository(root, WHOLE, None)
                lay_out(root, [name])
                before = seen(root)
                answer = refused(f"line feed or carriage return in {told}", "the manifests of Mercurial can't hold such a name: rename the file")
                tests.compare(f"a line break: {words!r}", (tests.run(root, words), seen(root) == before), (answer, True))
                os.remove(f"{root}/{REQUIRED}")
                tests.compare(f"a line break where nothing is required: {words!r}", tests.run(root, words)[0], 1 if words[0] == "forget" else 0)


def run_bad_paths(tests):
    for at, given, told, kinds in BAD_PATHS:
        for command in ("add", "forget", "remove"):
            with tests.working_copy() as root:
                lay_out(root, ["a", "d/e/f", ".hg/"])
                wanted = lines(*(f"{command} {it}: bad path" for it in told)) + b"".join(further(it) for it in kinds)
                tests.compare(f"bad paths in {at or '.'}: {command} {given!r}", tests.run(os.path.join(root, at), (command, *given)), (1, b"", wanted))
    with tests.working_copy() as root:
        lay_out(root, ["a", "d/e/f", ".hg/"])
        tests.compare("a bad path between others", tests.run(root, ("add", "gone", "/a", "a")), (1, b"", lines("add gone: no such file", "add /a: bad path") + further(ABSOLUTE)))
        for words, said in ((("/a", "../b"), ["copy /a: bad path"]), (("a", "../b"), ["copy ../b: bad path"]), (("", "b"), ["copy : bad path"]), (("a", "d/"), ["copy d/: bad path"])):
            kind = {"/": ABSOLUTE, ".": OUTSIDE, "d": DIRECTORY, ":": EMPTY}[said[0][5]]
            tests.compare(f"bad paths: copy {words!r}", tests.run(root, ("copy", *words)), (1, b"", lines(*said) + further(kind)))
        # (of a source that is no path, and of which nothing is said, nothing is said of the target either)
        tests.compare("bad paths: copy 'd//e' '../b'", tests.run(root, ("copy", "d//e", "../b")), (1, b"", lines("copy d//e: bad path")))
        tests.compare("no path is bad", tests.run(root, ("add", "d", "a")), (1, b"", lines("add d: not a file")))
        tests.compare("a bad path, and what stands before it stopped the command", tests.run(root, ("add", "/a", "-x")), (255, b"", no_flag("add", "-x")))


# ---- beside Mercurial's own program

SLOW = ("--config", "storage.dirstate-v2.slow-path=allow", "--config", "ui.username=test")
NEW = ("--config", "format.use-dirstate-v2=yes")
LARGE, SPARSE, SHARE = (("--config", f"extensions.{it}=") for it in ("largefiles", "sparse", "share"))


def hg(root, *words, more=SLOW):
    env = {**os.environ, "HGRCPATH": "", "HGPLAIN": "1", "HGENCODING": "UTF-8", "LANG": "C.UTF-8"}
    return subprocess.run(["hg", *words, *more], cwd=root, env=env, stdin=subprocess.DEVNULL, capture_output=True, timeout=120)


def make(tests, root, *steps):
    """Runs each step, the words of an hg command; one that fails is a failure of the test."""
    for words in steps:
        ran = hg(root, *words)
        if ran.returncode:
            tests.compare(f"hg: {words}", ran.stderr, b"")


def committed(tests, root, *how):
    """A repository with a commit of the files `a` and `d/b`."""
    os.makedirs(root, exist_ok=True)
    make(tests, root, ("init", *how))
    lay_out(root, ["a", "d/b"])
    make(tests, root, ("add", *how), ("commit", "-m", "first", *how))


def beside(tests, what, root, commands, answer, *how):
    """One case: these commands are refused, nothing is written by them, and Mercurial goes on as before."""
    lay_out(root, ["new"])
    shown = hg(root, "status", "-A", *how).stdout
    for words in (("status",), ("debugdirstate",), ("add", "new"), ("forget", "a")):
        if words in commands:
            before = seen(root)
            tests.compare(f"hg: {what}: {' '.join(words)}", (tests.run(root, words), seen(root) == before), (answer, True))
    after = hg(root, "status", "-A", *how)
    tests.compare(f"hg: {what}: hg goes on", (after.returncode, after.stdout, after.stderr), (0, shown, b""))
    make(tests, root, ("add", "new", *how), ("commit", "-m", "next", *how), ("verify", "-q", *how))


CHANGES = (("add", "new"), ("forget", "a"))
EACH = (("status",), ("debugdirstate",), *CHANGES)


def run_kinds(tests):
    """Repositories of each kind that Mercurial makes."""
    with tests.working_copy() as root:
        committed(tests, root)
        beside(tests, "an ordinary repository", root, EACH, OLD)
    with tests.working_copy() as root:
        make(tests, root, ("init",))
        lay_out(root, ["a"])
        beside(tests, "an ordinary repository without a commit", root, EACH[:3], OLD)
    with tests.working_copy() as root:
        committed(tests, root, "--config", "format.use-share-safe=no")
        beside(tests, "an ordinary repository, in one file", root, EACH, OLD)
    with tests.working_copy() as root:
        committed(tests, root, *NEW, *LARGE)
        lay_out(root, ["large"])
        make(tests, root, ("add", "--large", "large", *LARGE), ("commit", "-m", "large", *LARGE))
        beside(tests, "largefiles", root, EACH, unsupported("largefiles"), *LARGE)
    with tests.working_copy() as root:
        committed(tests, root, *NEW)
        make(tests, root, ("debugsparse", "--include", "a", *SPARSE), ("debugsparse", "--include", "new", *SPARSE))
        beside(tests, "sparse", root, EACH, unsupported("exp-sparse"), *SPARSE)
    with tests.working_copy() as root:
        committed(tests, root, *NEW, "--config", "format.use-dirstate-tracked-hint=yes")
        beside(tests, "a tracked key", root, CHANGES, writers(TRACKED_KEY))
    for what, name, answer in (("narrow", "narrowhg-experimental", unsupported), ("one that isn't known", "new-kind-7", unknown)):
        with tests.working_copy() as root:
            committed(tests, root, *NEW)
            for at in (REQUIRED, IN_STORE):
                with open(f"{root}/{at}", "rb") as file:
                    kept = file.read()
                put(f"{root}/{at}", kept + name.encode() + b"\n")
                for words in EACH:
                    before = seen(root)
                    tests.compare(f"hg: {what} in {at}: {' '.join(words)}", (tests.run(root, words), seen(root) == before), (answer(name), True))
                put(f"{root}/{at}", kept)
            tests.compare(f"hg: {what}: without it hg goes on", hg(root, "status").returncode, 0)


def follows(tests, what, root):
    """One case: all commands are answered, and Mercurial takes what they did."""
    lay_out(root, ["new"])
    answered = tests.run(root, ("add", "new")), tests.run(root, ("forget", "a")), tests.run(root, ("status", "-a", "-r", "-u"))
    wanted = hg(root, "status", "-a", "-r", "-u")
    tests.compare(f"hg: {what}: answered", answered, ((0, b"", b""), (0, b"", b""), (0, lines("A new", "R a"), b"")))
    tests.compare(f"hg: {what}: hg says the same", (wanted.returncode, wanted.stdout), (0, answered[2][1]))
    make(tests, root, ("commit", "-m", "next"), ("verify", "-q"))


def run_served(tests):
    with tests.working_copy() as root:
        committed(tests, root, *NEW)
        follows(tests, "a repository of the new kind", root)
    with tests.working_copy() as root:
        committed(tests, root, *NEW, "--config", "format.use-share-safe=no")
        follows(tests, "a repository of the new kind, in one file", root)
    with tests.working_copy() as root:
        committed(tests, root)
        there, back, _ = CONVERT.removeprefix("to convert the dirstate: ").split("; ")
        commands = there, back.removeprefix("and back: ")
        tests.compare("the two commands", [it.split()[0] for it in commands], ["hg", "hg"])
        tests.compare("hg: before it is converted", tests.run(root), OLD)
        make(tests, root, commands[0].split()[1:])
        follows(tests, "a repository that was converted", root)
        put(f"{root}/.hg/hgrc", b"[storage]\ndirstate-v2.slow-path = allow\n")
        tests.compare("hg: converted, with that line in its configuration alone", hg(root, "status", "-q", more=()).returncode, 0)
        make(tests, root, commands[1].split()[1:])
        tests.compare("hg: converted back", tests.run(root), OLD)
    for what, kind in (("shared", ()), ("shared by a relative path", ("--relative",))):
        with tests.working_copy() as room:
            committed(tests, f"{room}/source", *NEW)
            make(tests, room, ("share", *kind, "source", "other", *SHARE, *NEW))
            follows(tests, what, f"{room}/other")
            store = f"{room}/source/{IN_STORE}"
            with open(store, "ab") as file:
                file.write(b"new-kind-7\n")
            tests.compare(f"hg: {what}: what the source requires counts", tests.run(f"{room}/other"), unknown("new-kind-7"))
            os.rename(f"{room}/source", f"{room}/moved")
            name = f"{room}/source/.hg" if not kind else ".hg/../../source/.hg"
            tests.compare(f"hg: {what}: the source is gone", tests.run(f"{room}/other"), unread(f"{name}/store/requires", ABSENT))


def run(tests):
    for part in (run_requires, run_unread, run_failing, run_nowhere, run_breaks, run_bad_paths):
        part(tests)
    if shutil.which("hg") is None:
        tests.skip("the command hg is not installed, so no repository of Mercurial's own was tried")
        return
    run_kinds(tests)
    run_served(tests)
