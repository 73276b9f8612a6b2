"""Ignore texts: what real projects write, beside `hg status`; texts that are refused, by the line that says so; warnings, and an error stream that fails."""

import os
import re
import shutil

from dirstate import written
from folder import aborted, lay_out, lines, put, put_record
from mercurial import hg
from parents import init

# Sixty paths, of which the first four are tracked.
TRACKED = ["a.o", "src/main.c", "build/kept", "notes.txt~"]
TREE = TRACKED + [
    "a.c", "A.C", "core", "src/core", "src/core.c", "score", "x.pyc", "x.pyo", "x.pyd", "lib/x.py", "lib/x.pyc", "lib/__pycache__/y.cpython-311.pyc",
    "build/out", "build/deep/er/out", "src/build/out", "src/gen/a.c", "rebuild/x", "dist/p.egg-info/PKG", "p.egg-info/PKG", "target/classes/A.class", "sub/target/B.class", "A.class", "A.java",
    "node_modules/m/index.js", "web/node_modules/n.js", "npm-debug.log", "npm-debug.log.1", ".idea/workspace.xml", "web/.idea/x", ".vscode/settings.json", ".DS_Store", "web/.DS_Store",
    ".a.swp", "src/.b.swo", "a~", "src/b~", "#a#", "src/#b#", "a.orig", "src/a.rej", "a.so", "a.so.1", "lib/liba.so.1.2", "config.log", "config.h", "Makefile", "sub/Makefile",
    "doc/api/index.html", "doc/index.html", "doc/\u00e4.txt", "doc/\u20acx", "a b", "a,b", "[x]", "x{y}", "t/u/v/w", "t/u.v",
]

# What a text is for, and its lines. Each gives the same as `hg status -A`.
TEXTS = [
    ("nothing", b""),
    ("Python", b"syntax: glob\n*.py[co]\n__pycache__\n*.egg-info\nbuild\ndist\n"),
    ("Python by regexps", rb"\.py[co]$" b"\n" rb"(^|/)__pycache__/" b"\n" rb"\.egg-info/" b"\n" rb"^build/" b"\n"),
    ("Python, mixed", b"\\.py[cod]$\nsyntax: glob\n*.egg-info\nsyntax: regexp\n^dist/\n"),
    ("C", b"syntax: glob\n*.o\n*.so\n*.so.*\n*~\n*.orig\n*.rej\ncore\nconfig.log\n"),
    ("C by regexps", rb"\.o$" b"\n" rb"\.so(\.\d+)*$" b"\n" rb"(^|/)core$" b"\n" rb"~$" b"\n"),
    ("C at the root alone", b"rootglob:*.so\nrootglob:Makefile\nrootglob:core\n"),
    ("a rootglob in a directory", b"syntax: rootglob\nsrc/*.c\nbuild\n"),
    ("Java", b"syntax: glob\n*.class\ntarget\n.idea\n"),
    ("Java in every directory", b"syntax: glob\n**/target\n**/*.class\n"),
    ("Java by regexps", rb"^target/" b"\n" rb"^\.idea/" b"\n" rb"\.class$" b"\n"),
    ("Node", b"syntax: glob\nnode_modules\nnpm-debug.log*\n.DS_Store\n"),
    ("Node by regexps", rb"(^|/)node_modules/" b"\n" rb"^npm-debug\.log" b"\n" rb"\.DS_Store$" b"\n"),
    ("editors", b"syntax: glob\n*~\n.*.sw[a-p]\n\\#*\\#\n.vscode\n"),
    ("editors by regexps", rb"~$" b"\n" rb"\.sw[op]$" b"\n" rb"(^|/)\#.*\#$" b"\n"),
    ("a slash at the end", b"syntax: glob\nbuild/\nnode_modules/\n"),
    ("a dot in front", b"syntax: glob\n./build\n./src//gen/\n"),
    ("a directory in a directory", b"syntax: glob\nsrc/build\ndoc/api\n"),
    ("what stands below a directory", b"syntax: glob\nbuild/**\nsrc/**/core\n"),
    ("stars", b"syntax: glob\n*.c\ndoc/*.html\n"),
    ("a star for a directory", b"syntax: glob\n*/Makefile\nt/*/v\n"),
    ("two stars in a name", b"syntax: glob\nt**w\n"),
    ("one character", b"syntax: glob\n?.c\nt/u?v\n"),
    ("classes", b"syntax: glob\n[aA].[cC]\n[!a-m]*.c\n"),
    ("a class of signs", b"syntax: glob\n[[]x]\nx[{]y[}]\n"),
    ("choices", b"syntax: glob\n*.{c,h,java}\n{build,dist}\n"),
    ("choices in choices", b"syntax: glob\n*.{so{,.1},py{c,o}}\n"),
    ("an empty choice", b"syntax: glob\nx.py{,c}\n"),
    ("a comma", b"syntax: glob\na,b\n"),
    ("a space", b"syntax: glob\na b\n"),
    ("spaces behind", b"syntax: glob\n*.o  \t\nbuild \n"),
    ("windows line ends", b"syntax: glob\r\n*.o\r\nbuild\r\nsyntax: regexp\r\n\\.c$\r\n"),
    ("no line feed at the end", b"syntax: glob\n*.c"),
    ("comments", b"# all\n\nsyntax: glob # globs\n*.o # objects\n  # nothing\nbuild#\n"),
    ("an escaped sign", b"syntax: glob\n\\#a\\#\n#b#\n"),
    ("a sign in a regexp", rb"^\#a" b"\n" rb"core # a comment" b"\n"),
    ("backslashes before a sign", b"syntax: glob\na\\\\#b\n"),
    ("names of syntaxes", b"syntax: re\n\\.o$\nsyntax: glob\n*.c\nsyntax: regexp\n^build/\n"),
    ("white space round a name", b"syntax:\tglob \n*.o\n"),
    ("lines of their own syntax", b"glob:*.o\nre:^build/\nregexp:\\.c$\nrelglob:core\nrelre:egg\n"),
    ("an own syntax among globs", b"syntax: glob\n*.o\nre:^doc/.*\\.html$\ncore\n"),
    ("a prefix once", b"syntax: glob\nglob:*.o\n"),
    ("a colon in a pattern", b"syntax: glob\na:b\n*.c\n"),
    ("characters beyond ASCII", "syntax: glob\n\u00e4.txt\n\u20ac?\n".encode()),
    ("beyond ASCII in a regexp", "\u00e4\\.txt$\n^doc/\u20ac\n".encode()),
    ("anywhere in the path", b"build\n"),
    ("from the beginning", b"^build\n^src/.*/out$\n"),
    ("to the end", b"out$\nMakefile$\n"),
    ("groups", rb"^(src|lib)/.*\.(c|pyc)$" b"\n"),
    ("a choice behind a beginning", rb"^(?:build|dist)/" b"\n"),
    ("counts", rb"^t/u/v/w{1}$" b"\n" rb"\.so(\.[0-9]){1,2}$" b"\n"),
    ("classes in a regexp", rb"^[A-Z]+\.[A-Z]$" b"\n" rb"\.[^/]*log$" b"\n"),
    ("small letters and capitals", rb"(?i)^a\.c$" b"\n"),
    ("everything", b".\n"),
    ("everything by a glob", b"syntax: glob\n*\n"),
    ("everything in directories", b"syntax: glob\n*/**\n"),
    ("the ignore file itself", b"syntax: glob\n.hgignore\n"),
    ("tracked files", b"syntax: glob\n*.o\nsrc/main.c\nnotes.txt~\n"),
    ("what is above a tracked file", b"syntax: glob\nsrc\nbuild\n"),
    ("many lines", b"syntax: glob\n" + b"".join(b"*.ext%d\nno%d/such\n" % (i, i) for i in range(300)) + b"*.c\n"),
    ("many regexps", b"".join(b"\\.ext%d$\n(^|/)no%d/such\n" % (i, i) for i in range(300)) + b"\\.c$\n"),
]

# Where the two differ (docs/DECISIONS.md): what for, the text, what of these files is ignored by ours, and by hg.
OTHERS = [
    "a", "a.txt", "bar", "foo/x", "include/config.h", "include/x", "lib/include/config.h", "line\nfeed.txt", "myinclude", "sub/bar", "[!]x", "\u00e4.txt", "\u20ac",
]
ALL = [".hgignore", *OTHERS]
BEYOND = "\u00e4.txt"
CONFIGS = ["include/config.h", "lib/include/config.h"]
DIFFERENT = [
    ("the word include", b"include\n", ["include/config.h", "include/x", "lib/include/config.h", "myinclude"], ["include/config.h", "include/x"]),
    ("the word include as a glob", b"syntax: glob\ninclude\n", ["include/config.h", "include/x", "lib/include/config.h"], ["include/config.h", "include/x"]),
    ("include in front", b"include/config.h\n", CONFIGS, ["include/config.h"]),
    ("include in front of a glob", b"syntax: glob\ninclude/config.h\n", CONFIGS, ["include/config.h"]),
    ("one character of two bytes in a glob", b"syntax: glob\n?.txt\n", ["a.txt", BEYOND], ["a.txt"]),
    ("one character of three bytes", b"syntax: glob\n?\n", ["a", "foo/x", "include/x", "\u20ac"], ["a", "foo/x", "include/x"]),
    ("a character of two bytes in a class", "syntax: glob\n[\u00e4\u00f6].txt\n".encode(), [BEYOND], []),
    ("one character of two bytes in a regexp", rb"^.\.txt$" b"\n", ["a.txt", BEYOND], ["a.txt"]),
    ("a character of two bytes in a regexp's class", "^[\u00e4\u00f6]\\.txt$\n".encode(), [BEYOND], []),
    ("two dots in a glob", b"syntax: glob\nfoo/../bar\n", [], ["bar", "sub/bar"]),
    ("a regexp of the empty path", b"^$\n", [], ALL),
    ("a glob of the empty path", b"syntax: glob\n{,a}\n", ["a"], ALL),
    ("a glob over a line feed", b"syntax: glob\n*.txt\n", ["a.txt", "line\nfeed.txt", BEYOND], ["a.txt", BEYOND]),
    ("a bracket without its end", b"syntax: glob\n[!]x\n", ["[!]x"], None),
]

MOST = 1_048_576
# What a text is refused for.
REFUSED = [
    ("a byte that isn't text, the first", b"\xff\n", ".hgignore: byte 0 is not text"),
    ("a byte that isn't text, further on", b"a\nb\xc3\n", ".hgignore: byte 3 is not text"),
    ("a brace without its end", b"syntax: glob\n*.o\n{a,b\n", ".hgignore line 3: glob"),
    ("a reversed range", b"glob:[b-a]\n", ".hgignore line 1: glob"),
    ("a glob of 4,096 bytes", b"syntax: glob\n" + 4096 * b"a" + b"\n", ".hgignore line 2: glob"),
    ("a glob of 4,095 bytes is taken", b"syntax: glob\n" + 4095 * b"a" + b"\n", None),
    ("a look ahead", b"a\n(?=a)\n", ".hgignore line 2: regexp"),
    ("a look behind", b"(?<=a)b\n", ".hgignore line 1: regexp"),
    ("a back reference", rb"(a)\1" b"\n", ".hgignore line 1: regexp"),
    ("the end of a text by \\Z", rb"a\Z" b"\n", ".hgignore line 1: regexp"),
    ("a group without its end", b"(a\n", ".hgignore line 1: regexp"),
    ("a regexp that is too big", b"((a{1000}){1000}){1000}\n", ".hgignore line 1: size"),
    ("one that is too heavy", b"a\na{100000}\n", ".hgignore line 2: size"),
    ("4,000 regexps", b"".join(b"^no\\w+%d\\.(?:tmp|bak)$\n" % i for i in range(4_000)), None),
    ("another file", b"# a comment\ninclude:other\n", ".hgignore line 2: include"),
    ("another file below", b"subinclude:d/other\n", ".hgignore line 1: include"),
    ("the first of two", b"glob:{a\n(a\n", ".hgignore line 1: glob"),
    ("a fault behind a warning", b"syntax: foo\n(a\n", ".hgignore line 2: regexp"),
    ("too large", (MOST + 1) * b"#", f".hgignore of {MOST + 1} bytes"),
    ("as large as may be", MOST * b"#", None),
]

WARNED = b"syntax: foo\nsyntax: glob\n*.o\nsyntax:\nsyntax: a b\n"
WARNINGS = lines(".hgignore line 1: unknown syntax foo", ".hgignore line 4: unknown syntax ", ".hgignore line 5: unknown syntax a b")


def run_texts(tests):
    with tests.working_copy() as root:
        init(root)
        lay_out(root, TREE)
        hg(root, "add", *TRACKED)
        for what, text in TEXTS:
            put(f"{root}/.hgignore", text)
            for words in (("status", "-A"), ("status",), ("status", "-i"), ("status", "-u")):
                wanted = hg(root, *words)
                tests.compare(f"ignoring: {what}: {' '.join(words)}", tests.run(root, words), (0, wanted.stdout, b""))


def ended(paths):
    """The bytes of a listing of these paths, each ended by NUL."""
    return b"".join(it + b"\0" for it in sorted(map(os.fsencode, paths)))


def run_different(tests, with_hg):
    """What the two differ in: each by what ours says, and by what hg says where it is there."""
    with tests.working_copy() as root:
        if with_hg:
            init(root)
        lay_out(root, [".hg/", *OTHERS])
        for what, text, ours, theirs in DIFFERENT:
            put(f"{root}/.hgignore", text)
            tests.compare(f"ignoring, other than hg: {what}", tests.run(root, ("status", "-i", "-n", "-0")), (0, ended(ours), b""))
            if with_hg:
                ran = hg(root, "status", "-i", "-n", "-0")
                tests.compare(f"ignoring, other than hg: {what}: hg", (ran.returncode, ran.stdout), (255, b"") if theirs is None else (0, ended(theirs)))
        put(f"{root}/.hgignore", b"syntax: include\nfoo\n")
        warned = lines(".hgignore line 1: unknown syntax include")
        tests.compare("ignoring, other than hg: the syntax include", tests.run(root, ("status", "-i", "-n", "-0")), (0, ended(["foo/x"]), warned))


def run_refused(tests):
    for what, text, line in REFUSED:
        with tests.working_copy() as root:
            lay_out(root, [".hg/", "a", "t"])
            put_record(root, *written([b"t"]))
            put(f"{root}/.hgignore", text)
            out = b"" if line else lines("A t", "? .hgignore", "? a")
            tests.check(f"ignoring: {what}", root, out, aborted(line) if line else b"")
            tests.check(f"ignoring: {what}, no letter that patterns decide", root, lines("A t"), b"", ("status", "-m", "-a", "-r", "-d", "-c"))


def run_heavy(tests):
    """Regexps that are each taken may be too heavy together; which of them is told then is no matter here."""
    with tests.working_copy() as root:
        lay_out(root, [".hg/", "a"])
        put(f"{root}/.hgignore", 100 * b"a{3000}\n")
        status, out, err = tests.run(root)
        told = re.fullmatch(rb"abort: \.hgignore line (\d+): size\n", err)
        tests.compare("ignoring: regexps that are too heavy together", (status, out, told is not None and 1 < int(told[1]) <= 100), (255, b"", True))


def run_warned(tests):
    """Warnings come behind the report; an error stream that takes nothing of them is a fault, of which no more is written."""
    with tests.working_copy() as root:
        lay_out(root, [".hg/", "a", "b.o"])
        put(f"{root}/.hgignore", WARNED)
        told = lines("? .hgignore", "? a")
        tests.compare("ignoring: warnings", tests.run(root), (0, told, WARNINGS))
        tests.compare("ignoring: no warnings where no patterns are needed", tests.run(root, ("status", "-m")), (0, b"", b""))
        with open("/dev/full", "wb") as full:
            tests.compare("ignoring: an error stream that fails", tests.run(root, stderr=full)[:2], (255, told))
            tests.compare("ignoring: standard output that fails leaves the warnings out", tests.run(root, stdout=full), (255, None, aborted("output failed")))
            tests.compare("ignoring: both fail", tests.run(root, stdout=full, stderr=full)[0], 255)


def run_unread(tests):
    """What is at `.hgignore` but no file is no ignore text; one that can't be read is a failure of the working copy."""
    for what, things in (("a link", ["a.o", "real", ".hgignore -> real"]), ("a directory", ["a.o", ".hgignore/x"]), ("a fifo", ["a.o", ".hgignore |"])):
        with tests.working_copy() as root:
            lay_out(root, [".hg/", *things])
            if os.path.isfile(f"{root}/real"):
                put(f"{root}/real", b".\n")
            tests.compare(f"ignoring: {what} at .hgignore", b"? a.o\n" in tests.run(root)[1], True)


def run(tests):
    run_refused(tests)
    run_heavy(tests)
    run_warned(tests)
    run_unread(tests)
    run_different(tests, shutil.which("hg") is not None)
    if shutil.which("hg") is None:
        tests.skip("the command hg is not installed, so no ignore texts were compared")
        return
    run_texts(tests)
