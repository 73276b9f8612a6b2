"""What the program does where the system refuses: words, streams, rights, and names that are no text."""

import os
import subprocess
import sys

from dirstate import docket, written
from folder import NO_HG, aborted, as_nobody, because, lay_out, lines, no_flag, put, put_record
from helps import HELPS

GOOD, DATA = written([b"a"])
UNKNOWN = aborted("unknown command")
OUT = aborted("output failed")
DATA_FILE = ".hg/dirstate.0000000000000000"


def tree(name, reason="permission denied"):
    """What is said where the working copy failed."""
    return aborted("working copy failed") + because(name, reason)


def shelf(name, reason="permission denied"):
    """What is said where .hg failed."""
    return aborted(".hg failed") + because(name, reason)


# words that are no command, each with its line
WORDS = [
    (aborted("no command"), [[]]),
    (aborted("unknown command"), [["stat"], ["-m", "status"], ["--", "status"], [""], ["Status"], ["status "], ["debugstate"], ["help"], ["-h"], ["-V"], ["--help", "status"], ["stat", "--help"], ["", "--help"], ["--version", "--version"], ["s" * 100_000]]),
    (aborted("wrong arguments"), [
        ["status", "x"], ["status", ""], ["status", "-"], ["status", "-m", "x"], ["status", "--", "-m"], ["status", "-m", "--", "--help"], ["add"], ["forget", "--"], ["copy", "a"], ["copy", "a", "b", "c"], ["remove"],
        ["remove", "-A"], ["remove", "--"], ["debugsetparents"], ["debugsetparents", *3 * ["0" * 40]], ["debugload", "0"], ["debugscript", "x"], [b"\xff"], [b"status", b"\xff"],
    ]),
    (no_flag("status", "-x"), [["status", "-x"], ["status", "-mx"], ["status", "-mxy"], ["status", "-x", "-y"], ["status", "x", "-x"], ["status", "-A", "--all", "-x", "--", "-y"]]),
    (no_flag("status", "-M"), [["status", "-M"]]),
    (no_flag("status", "--no"), [["status", "--no"], ["status", "--modified", "--no"]]),
    (no_flag("status", "--modified=x"), [["status", "--modified=x"]]),
    (no_flag("status", "---"), [["status", "---"], ["status", "-m", "---", "--"]]),
    (no_flag("status", "-é"), [["status", "-é"]]),
    (no_flag("status", "-mé"), [["status", "-mé"]]),
    (no_flag("status", "-\\x0a"), [["status", "-m\n"]]),
    (no_flag("status", "--a\\x0d\\x0ab"), [["status", "--a\r\nb"]]),
    (no_flag("add", "-x"), [["add", "-x", "a"], ["add", "a", "-x"]]),
    (no_flag("debugdirstate", "--all"), [["debugdirstate", "--all"]]),
    (no_flag("copy", "-A"), [["copy", "-A", "a", "b"]]),
    (no_flag("remove", "-f"), [["remove", "-f", "a"], ["remove", "-Af", "a"]]),
    (no_flag("remove", "--afte"), [["remove", "--after", "--afte", "a"]]),
    (no_flag("debugload", "-1"), [["debugload", "-1"]]),
    (lines("abort: wrong arguments", "hgtrack: status --help takes no other word"), [["status", "-m", "--help"], ["status", "--help", "--help"], ["status", "--help", "x"]]),
    (aborted("argument 1 is not a node"), [["debugsetparents", "tip"], ["debugsetparents", "", "0" * 40]]),
    (aborted("argument 2 is not a node"), [["debugsetparents", "0" * 40, "0" * 39]]),
]

# what is in the way, what is made of the folder (a path and its mode), the line that is printed to nobody's program
RIGHTS = [
    ("a dirstate that may not be read", ".hg/dirstate", 0o000, b"", shelf(".hg/dirstate")),
    ("a data file that may not be read", DATA_FILE, 0o000, b"", shelf(DATA_FILE)),
    ("a .hg that may not be searched", ".hg", 0o000, b"", shelf(".hg/requires")),
    ("a .hg that may only be read", ".hg", 0o555, lines("A a", "? d/x"), b""),
    ("a dirstate that may only be read", ".hg/dirstate", 0o444, lines("A a", "? d/x"), b""),
    ("a root that may not be listed", ".", 0o311, b"", tree(".")),
    ("a directory that may not be listed", "d", 0o311, b"", tree("d")),
    ("a directory that may not be searched", "d", 0o644, b"", tree("d")),
    ("an empty directory that may not be searched", "e", 0o444, lines("A a", "? d/x"), b""),
    ("a directory below another that may not be searched", "f/g", 0o644, b"", tree("f/g")),
    ("a file that may not be read", "a", 0o000, lines("A a", "? d/x"), b""),
]

NO_FILE, LINKS, NO_TEXT = "not a regular file", "too many levels of symbolic links", "a name that isn't text"

# what stands where a file of .hg should, as folder.lay_out writes it, and the answer
STRANGE = [
    ("a directory as the dirstate", [".hg/dirstate/"], shelf(".hg/dirstate", NO_FILE), b""),
    ("a fifo as the dirstate", [".hg/dirstate |"], shelf(".hg/dirstate", NO_FILE), b""),
    ("a dangling link as the dirstate", [".hg/dirstate -> gone", "b"], b"", lines("? b")),
    ("a dirstate behind a link that leads to itself", [".hg/dirstate -> dirstate"], shelf(".hg/dirstate", LINKS), b""),
    (".hg as a link that leads to itself", [".hg -> .hg"], shelf(".hg/dirstate", LINKS), b""),
    (".hg as a link to a folder", [".hg -> ../", "b"], b"", lines("? b")),
]


def run_words(tests):
    for line, words in [(line, words) for line, all_words in WORDS for words in all_words]:
        with tests.working_copy() as root:
            lay_out(root, ["a", ".hg/"])
            if all(isinstance(it, str) for it in words):
                tests.check(f"words {words!r:.60}", root, b"", line, words)
            else:
                tests.compare(f"words that are no text {words!r}", tests.run(root, words), (255, b"", line))
    with tests.working_copy() as root:
        put_record(root, b"damaged")
        tests.check("words before the docket", root, b"", UNKNOWN, ["stat"])
        for words, out in HELPS:
            tests.compare(" ".join(words), tests.run(root, words), (0, out.encode(), b""))


def run_streams(tests):
    with tests.working_copy() as root:
        lay_out(root, ["a", "b"])
        put_record(root, GOOD, DATA)
        for what, words, status, line in (("status", ["status"], 255, OUT), ("debugdirstate", ["debugdirstate"], 255, OUT), ("help", ["--help"], 255, OUT), ("the help of a command", ["add", "--help"], 255, OUT), ("version", ["--version"], 255, OUT)):
            with open("/dev/full", "wb") as full:
                at = tests.run(root, words, stdout=full)
            tests.compare(f"{what}: output to a full device", (at[0], at[2]), (status, line))
            at = tests.run(root, ["-c", '"$0" "$@" >&-', tests.program, *words], executable="/bin/sh")
            tests.compare(f"{what}: output closed", (at[0], at[2]), (status, line))
            reader, writer = os.pipe()
            os.close(reader)
            at = tests.run(root, words, stdout=writer)
            os.close(writer)
            tests.compare(f"{what}: output into a pipe that nobody reads", (at[0], at[2]), (status, line))
        with open(os.devnull, "rb") as only_read:
            tests.compare("output that may only be read", tests.run(root, stdout=only_read)[0], 255)
        with open("/dev/full", "wb") as full:
            tests.compare("error stream full", tests.run(root, ["x"], stderr=full)[0], 255)
            tests.compare("both streams full", tests.run(root, stdout=full, stderr=full)[0], 255)
        shell = {"executable": "/bin/sh"}
        tests.compare("error stream closed", tests.run(root, ["-c", '"$0" x 2>&-', tests.program], **shell)[0], 255)
        tests.compare("all streams closed", tests.run(root, ["-c", '"$0" status <&- >&- 2>&-', tests.program], **shell)[0], 255)
        told = (0, lines("A a", "? b"), b"")
        tests.compare("input closed", tests.run(root, ["-c", '"$0" status <&-', tests.program], **shell), told)
        tests.compare("no environment", tests.run(root, env={}), told)


def run_large(tests):
    """A listing much longer than a pipe holds, read to its end and read in part."""
    names = sorted(f"{i:05}-{'x' * 60}" for i in range(3000))
    with tests.working_copy() as root:
        lay_out(root, names)
        tests.check("200 kB of lines", root, lines(*(f"? {it}" for it in names)))
        with subprocess.Popen([tests.program, "status"], cwd=root, stdout=subprocess.PIPE, stderr=subprocess.PIPE) as at:
            first = at.stdout.read(3)
            at.stdout.close()
            err = at.stderr.read()
        tests.compare("a reader that leaves early", (at.returncode, first, err), (255, b"? 0", NO_HG + OUT))


def run_rights(tests):
    if os.geteuid() == 0 and sys.version_info < (3, 9):
        tests.skip("this python3 cannot start a program as nobody, and root may read everything")
        return
    for what, path, mode, out, err in RIGHTS:
        with tests.working_copy() as root:
            lay_out(root, ["a", "d/x", "e/"] + (["f/g/h"] if path == "f/g" else []))
            put_record(root, GOOD, DATA)
            os.chmod(f"{root}/{path}", mode)
            status, said, told = tests.run(root, **as_nobody())
            os.chmod(f"{root}/{path}", 0o755)
            tests.compare(what, (status, said, told), (255 if err else 0, out, err))


def run_strange(tests):
    for what, things, err, out in STRANGE:
        with tests.working_copy() as root:
            lay_out(root, things)
            tests.check(what, root, out, err)
    with tests.working_copy() as root:
        lay_out(root, [".hg/elsewhere -> ../.hg/real", "a"])
        put_record(root, GOOD, DATA)
        os.rename(f"{root}/.hg/dirstate", f"{root}/.hg/real")
        os.symlink("real", f"{root}/.hg/dirstate")
        tests.check("a link to the dirstate", root, lines("A a"))
    with tests.working_copy() as root:
        lay_out(root, ["a", ".hg/dirstate.0000000000000000/"])
        put(f"{root}/.hg/dirstate", GOOD)
        tests.check("a directory as the data file", root, b"", shelf(DATA_FILE, NO_FILE))


def run_names(tests):
    """Names that aren't text: `list` names them all, and no path can be made of them."""
    for what, things, out, err in [
        ("a name that is not text", ["a", os.fsdecode(b"b\xff")], b"", tree("b\\xff", NO_TEXT)),
        ("a name that is not text, below", ["a", os.fsdecode(b"d/\xc3")], b"", tree("d/\\xc3", NO_TEXT)),
        ("a directory that is not text", [os.fsdecode(b"\xfe/x")], b"", tree("\\xfe", NO_TEXT)),
        ("a link's target that is not text", [os.fsdecode(b"l -> \xff")], lines("? l"), b""),
        ("in .hg a name that is not text", [os.fsdecode(b".hg/\xff"), "a"], lines("? a"), b""),
    ]:
        with tests.working_copy() as root:
            lay_out(root, things)
            tests.check(what, root, out, err)
    with tests.working_copy() as root:
        lay_out(root, [os.fsdecode(b"b\xff")])
        put_record(root, docket(45, (1, 1), p1=b"\x11" * 20), DATA)
        tests.check("the working copy behind a commit's record", root, b"", tree("b\\xff", NO_TEXT))
        tests.check("and not listed where nothing unknown is wanted", root, lines("! a"), b"", ["status", "-d"])


def run_stray(tests):
    """These tests name a folder `.hg` that stands above their own folders, in place of failing."""
    with tests.working_copy() as root:
        lay_out(root, [".hg/", "below/"])
        command = [sys.executable, os.path.join(os.path.dirname(os.path.abspath(__file__)), "run.py"), tests.program, "damage"]
        ran = subprocess.run(command, env={**os.environ, "TMPDIR": f"{root}/below"}, capture_output=True, timeout=60)
        at = os.fsencode(os.path.realpath(root))
        tests.compare("a folder .hg above the tests", (ran.returncode, ran.stdout.startswith(at + b"/.hg stands above " + at), ran.stdout.endswith(b"\n0 passed, 1 failed\n")), (1, True, True))


def run(tests):
    for part in (run_words, run_streams, run_large, run_rights, run_strange, run_names, run_stray):
        part(tests)
