"""The man page and the completion for bash, which `contrib/pages.py` makes of what `--help` and that of each command print: they name exactly the commands and flags."""

import os
import re
import shutil
import subprocess
import sys

from folder import SECONDS

PAGES = os.path.join(os.path.dirname(os.path.dirname(os.path.dirname(os.path.abspath(__file__)))), "contrib", "pages.py")

# Prints what bash would put in place of the last of these words, or a dash where it offers files.
COMPLETER = """
source "$1"
shift
COMP_WORDS=("$@") COMP_CWORD=$(($# - 1)) offers=yes
compopt() { offers=; }
_hgtrack
((${#COMPREPLY[@]})) && printf '%s\\n' "${COMPREPLY[@]}"
[[ $offers ]] && echo -
exit 0
"""


# The sections of the man page, in their order.
SECTIONS = ["NAME", "SYNOPSIS", "DESCRIPTION", "COMMANDS", "EXIT STATUS", "FILES", "ENVIRONMENT", "EXAMPLES", "SEE ALSO"]


def sections_of(page):
    """The text of each section."""
    _, *parts = re.split(r"^\.SH (.*)\n", page.replace("\\-", "-"), flags=re.MULTILINE)
    return dict(zip(parts[::2], parts[1::2]))


def run_page(tests, room, names, flags):
    """The man page has each command, each flag and each example once, in the order of the help, and the system has nothing to say of it."""
    with open(f"{room}/hgtrack.1", encoding="utf-8") as file:
        parts = sections_of(file.read())
    tests.compare("the man page: its sections", list(parts), SECTIONS)
    tests.compare("the man page: its synopsis", re.findall(r"^\.B hgtrack (\S+)$", parts["SYNOPSIS"], re.MULTILINE), names)
    tests.compare("the man page: its commands", re.findall(r"^\\fBhgtrack (\S+)\\fR", parts["COMMANDS"], re.MULTILINE), names)
    found = re.findall(r"^\\fB(-\S)\\fR, \\fB(--\S+)\\fR$", parts["COMMANDS"], re.MULTILINE)
    tests.compare("the man page: its flags", sorted(found), sorted(it for its in flags.values() for it in its))
    tests.compare("the man page: its examples", re.findall(r"^\\fBhgtrack (\S+)\\fR", parts["EXAMPLES"], re.MULTILINE), list(flags))
    for title, wanted in (("EXIT STATUS", ["0", "1", "255"]), ("FILES", [".hgignore", ".hg/dirstate", ".hg/requires", ".hg/plain", ".hg/wlock", ".hg/probe"])):
        tests.compare(f"the man page: {title.lower()}", re.findall(r"^\\fB(?:\\&)?(\S+)\\fR$", parts[title], re.MULTILINE), wanted)
    if shutil.which("groff") is None:
        tests.skip("groff is not installed, so the man page was not set")
        return
    ran = subprocess.run(["groff", "-man", "-Tutf8", "-wall", f"{room}/hgtrack.1"], stdin=subprocess.DEVNULL, capture_output=True, timeout=SECONDS)
    tests.compare("the man page is set", (ran.returncode, ran.stderr, b"hgtrack" in ran.stdout), (0, b"", True))


def completed(room, *words):
    """What is offered for the last of these words."""
    ran = subprocess.run(["bash", "-c", COMPLETER, "bash", f"{room}/hgtrack.bash", *words], cwd=room, stdin=subprocess.DEVNULL, capture_output=True, timeout=SECONDS)
    return ran.returncode, ran.stderr, sorted(ran.stdout.decode().split())


def run_completion(tests, room, rows, flags):
    names = [name for name, _ in rows if name != "COMMAND"]
    tests.compare("completion: all commands", completed(room, "hgtrack", ""), (0, b"", sorted(names)))
    for name, words in rows:
        if name not in flags:
            continue
        begun = [it for it in names if it.startswith(name[:3])]
        tests.compare(f"completion: a command that begins as {name}", completed(room, "hgtrack", name[:3]), (0, b"", sorted(begun)))
        files = ["-"] * any(it in words for it in ("FILE", "SOURCE"))
        own = [it for pair in flags[name] for it in pair]
        tests.compare(f"completion: flags of {name}", completed(room, "hgtrack", name, "-"), (0, b"", sorted([*own, "--help", *files])))
        tests.compare(f"completion: flags of {name} behind a word", completed(room, "hgtrack", name, "w", "-"), (0, b"", sorted([*own, *files])))
        tests.compare(f"completion: files of {name}", completed(room, "hgtrack", name, ""), (0, b"", files))
        tests.compare(f"completion: a dash behind -- of {name}", completed(room, "hgtrack", name, "--", "-"), (0, b"", files))
    tests.compare("completion: a long flag", completed(room, "hgtrack", "status", "-m", "--re"), (0, b"", ["--removed"]))
    tests.compare("completion: behind an unknown command", completed(room, "hgtrack", "stat", ""), (0, b"", []))


def run(tests):
    with tests.working_copy() as room:
        status, out, err = tests.run(room, ("--help",))
        rows = re.findall(r"^  hgtrack (\S+)(.*?)  ", out.decode(), re.MULTILINE)
        tests.compare("the help tells of commands", (status, err, len(rows)), (0, b"", 12))
        names = [name for name, _ in rows if name.isalpha() and name.islower()]
        flags = {name: re.findall(r"(-\S) (--[\w-]+) ", tests.run(room, (name, "--help"))[1].decode()) for name in names}
        tests.compare("and that of each of its flags", {name: len(it) for name, it in flags.items() if it}, {"status": 11, "remove": 1})
        ran = subprocess.run([sys.executable, PAGES, tests.program, room], stdin=subprocess.DEVNULL, capture_output=True, timeout=SECONDS)
        tests.compare("the man page and the completion are made", (ran.returncode, ran.stdout, ran.stderr), (0, b"", b""))
        if ran.returncode:
            return
        run_page(tests, room, [name for name, _ in rows], flags)
        if shutil.which("bash") is None:
            tests.skip("bash is not installed, so no word was completed")
            return
        run_completion(tests, room, rows, flags)
