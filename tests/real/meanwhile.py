"""What another process changes while the program runs: a path that it doesn't touch keeps its line."""

import subprocess
import sys

from commits import HEX, P1, ROW, W, name_of, put_entries, put_plain
from dirstate import written
from folder import aborted, lay_out, lines, put_record

# how often a neighbour comes and goes, and how often at most that is done again where it was never seen
TOGGLES, ROUNDS = 1_000, 10
TRACKED = [b"a", b"d/gone", b"d/t", b"d/e/below"]
THINGS = ["a", "d/t", "d/u", "d/e/below", "d/e/w", "d/l -> u"]
STAY = lines("A a", "A d/e/below", "A d/t", "! d/gone", "? d/e/w", "? d/l", "? d/u")
# what the other process may be seen at
COME = set(lines("? d/n", "? d/e/n", "? d/f/in").split(b"\n"))

# A file beside each of them comes and goes, and so does a folder; each time that it came it is counted, and told at the end.
TOGGLER = """
import os, shutil, sys, time
for _ in range(int(sys.argv[1])):
    for path in ("d/n", "d/e/n"):
        open(path, "w").close()
    os.makedirs("d/f", exist_ok=True)
    open("d/f/in", "w").close()
    time.sleep(0.001)
    for path in ("d/n", "d/e/n"):
        os.remove(path)
    shutil.rmtree("d/f")
"""


def run_neighbour(tests):
    with tests.working_copy() as root:
        lay_out(root, THINGS)
        put_record(root, *written(TRACKED))
        runs, bad, came, missed, ends = 0, [], set(), 0, set()
        for _ in range(ROUNDS):
            toggler = subprocess.Popen([sys.executable, "-c", TOGGLER, str(TOGGLES)], cwd=root)
            while toggler.poll() is None:
                status, out, err = tests.run(root)
                rows = out.split(b"\n")
                now = COME & set(rows) - {b""}
                runs, came, missed = runs + 1, came | now, missed + (len(now) < len(COME) - 1)
                kept = [row for row in rows if row not in COME or not row]
                if (status, b"\n".join(kept), err) != (0, STAY, b"") or len(set(rows)) != len(rows):
                    bad.append((status, out, err))
            ends.add(toggler.returncode)
            # (a status that saw it come and one that didn't: without both there was no neighbour that comes and goes)
            if bad or came and missed and runs > 20:
                break
        what = f"a neighbour that comes and goes {TOGGLES:,} times: {runs} runs, {len(came)} of 3 seen, {missed} runs without one of them"
        tests.compare(what, (bad[:2], ends, runs > 20, bool(came), missed > 0), ([], {0}, True, True, True))
        tests.compare("the neighbour is gone", tests.run(root), (0, STAY, b""))


# Contents come, and then the manifest that names them, each by one rename, after so many thousandths of a second.
COMER = """
import os, sys, time
time.sleep(int(sys.argv[1]) / 1000)
for name in sys.argv[2:]:
    os.rename(f".hg/{name}", f".hg/plain/{name}")
"""


def run_coming(tests):
    """A manifest comes while statuses run: each answers that it is absent, or what it says, and behind the first of these no one misses it."""
    absent, there = (255, b"", aborted(f"no manifest {HEX}")), (0, lines("C a"), b"")
    contents, manifest = f"f-{name_of(1)}", f"m-{HEX}"
    bad, seen = [], set()
    for number in range(40):
        with tests.working_copy() as root:
            lay_out(root, ["a"])
            put_entries(root, [("a", W | P1, "")])
            put_plain(root, f"../{contents}", b"a\n")
            put_plain(root, f"../{manifest}", ROW)
            comer = subprocess.Popen([sys.executable, "-c", COMER, str(number % 10), contents, manifest], cwd=root)
            answers = []
            while comer.poll() is None:
                answers.append(tests.run(root, ["status", "-A"]))
            answers.append(tests.run(root, ["status", "-A"]))
            first = answers.index(there) if there in answers else len(answers)
            if answers != [absent] * first + [there] * (len(answers) - first) or answers[-1] != there:
                bad.append(answers)
            seen |= set(answers)
    tests.compare("a manifest that comes while statuses run, 40 times", (bad[:1], absent in seen, there in seen), ([], True, True))


def run_flushed(tests):
    """All that was printed stands in a file when the program has ended, also behind the last line feed or without any, and the line of a fault behind it."""
    for names in (["n"], [f"n{i:05}" for i in range(3_000)]):
        with tests.working_copy() as root:
            lay_out(root, names)
            path = f"{tests.room}/printed"
            for words, wanted in [
                (("status",), lines(*[f"? {it}" for it in names])),
                (("status", "-0"), b"".join(b"? %b\0" % it.encode() for it in names)),
                (("status", "-0", "-n"), b"".join(b"%b\0" % it.encode() for it in names)),
                (("stat",), aborted("unknown command")),
            ]:
                with open(path, "wb") as both:
                    status = tests.run(root, words, stdout=both, stderr=both)[0]
                with open(path, "rb") as both:
                    said = both.read()
                answer = status, said.removeprefix(b"hgtrack: no .hg here or above\n")
                tests.compare(f"{' '.join(words)} of {len(names):,} files into a file", answer, (0 if words[0] == "status" else 255, wanted))


def run(tests):
    for part in (run_neighbour, run_coming, run_flushed):
        part(tests)
