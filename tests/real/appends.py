"""Saves behind the data file that stands: where the format has them come, and what they leave. A data file that is just long enough, too long or too short; what is torn
behind the used bytes; records that Mercurial's programs wrote, with wrong counts or in another order; and many steps by `hgtrack`, `hg` and, where it is there, `rhg`
in turn, each of which reads what the others wrote."""

import os
import random
import shutil
import subprocess
from collections import Counter, namedtuple

from calls import Calls, has_gcc
from dirstate import DOCKET, MODE_EXEC_PERM, MODE_IS_SYMLINK, NODE, P1_TRACKED, docket, record, written
from dirstate import ALL_UNKNOWN_RECORDED, DIRECTORY, EXPECTED_STATE_IS_MODIFIED, HAS_MODE_AND_SIZE, HAS_MTIME, MTIME_SECOND_AMBIGUOUS, P2_INFO, WDIR_TRACKED
from folder import SECONDS, aborted, lay_out, lines, put, put_record, seen
from mercurial import hg
from mixed import answer
from parents import export, init
from saving import ANEW, BEHIND, BESIDE, KILLED, record_of, short, told, way_of

ENTRY, ROWS = WDIR_TRACKED | P1_TRACKED | P2_INFO, NODE.size
FALLBACK = 0b1111 << 5
CACHED = HAS_MTIME | DIRECTORY | ALL_UNKNOWN_RECORDED

# ---- which way is the better one, by the format alone

# A node: its path, its copy source, the numbers that it says, and how many nodes below it have an entry and are tracked.
Found = namedtuple("Found", "path source said below")


def said(flags, size, seconds, nanos):
    """What the flags and numbers of a node say; what counts for nothing is left out."""
    time = (seconds, nanos, flags & MTIME_SECOND_AMBIGUOUS)
    if not flags & ENTRY:
        return time if flags & CACHED == CACHED else None
    sized = (size, flags & (MODE_EXEC_PERM | MODE_IS_SYMLINK)) if flags & HAS_MODE_AND_SIZE else None
    is_timed = flags & HAS_MTIME and not flags & EXPECTED_STATE_IS_MODIFIED
    return flags & (ENTRY | FALLBACK | EXPECTED_STATE_IS_MODIFIED), sized, time if is_timed else None


def lists_of(it):
    """The list of nodes of each directory of a record that has some; that of the root is under the empty path."""
    head, data = it[:2]
    _, _, _, _, _, *root = DOCKET.unpack(head[:DOCKET.size])
    found, left = {}, [(b"", root[0], root[1])]
    while left:
        folder, start, count = left.pop()
        nodes = []
        for at in range(start, start + count * ROWS, ROWS):
            path, length, _, copy, copied, kids, number, entries, tracked, *fields = NODE.unpack_from(data, at)
            source = data[copy:copy + copied] if copy and fields[0] & ENTRY else b""
            nodes.append(Found(data[path:path + length], source, said(*fields), (entries, tracked)))
            left.append((nodes[-1].path, kids, number))
        if nodes:
            found[folder] = nodes
    return found


def has_entry(node):
    return isinstance(node.said, tuple) and len(node.said) == 3 and not isinstance(node.said[1], int)


def is_below(path, folder):
    return not folder or path.startswith(folder + b"/")


def is_counted(it, lists):
    """Whether each count is the one from scratch."""
    _, _, _, _, _, _, _, entries, copies, *_ = DOCKET.unpack(it[0][:DOCKET.size])
    nodes = [node for its in lists.values() for node in its]
    below = {node.path: [0, 0] for node in nodes}
    for node in filter(has_entry, nodes):
        parts = node.path.split(b"/")
        for i in range(1, len(parts)):
            both = below[b"/".join(parts[:i])]
            both[0] += 1
            both[1] += bool(node.said[0] & WDIR_TRACKED)
    real = sum(map(has_entry, nodes)), sum(bool(node.source) for node in nodes)
    return (entries, copies) == real and all(node.below == tuple(below[node.path]) for node in nodes) and len(nodes) * ROWS <= it[3]


def lost_of(before, after):
    """How many bytes of a record nothing leads to once another one has been put behind it: those that it says are lost; of each list at or below which something
    differs the records; and the texts that the new one doesn't name."""
    olds, news = ({node.path: node for its in lists.values() for node in its} for lists in (before, after))
    differ = [path for path in olds.keys() | news.keys() if (path in olds, olds.get(path) and olds[path][1:3]) != (path in news, news.get(path) and news[path][1:3])]
    taken = {b""} | {b"/".join(path.split(b"/")[:i]) for path in differ for i in range(1, path.count(b"/") + 1)} if differ else set()
    lost = 0
    for folder in taken & before.keys():
        for node in before[folder]:
            new = news.get(node.path)
            lost += ROWS + (len(node.path) if new is None else 0) + (len(node.source) if new is None or new.source != node.source else 0)
    return lost


def wanted_way(before, after):
    """Which way the format has a record take the place of another, and how many bytes are lost behind it."""
    if before is None or not before[3]:
        return ANEW, 0
    lists = lists_of(before)
    lost = int.from_bytes(before[0][92:96], "big") + lost_of(lists, lists_of(after))
    return (BEHIND, lost) if is_counted(before, lists) and 2 * lost < before[3] else (ANEW, 0)


def compare_way(tests, what, root, before):
    """A save came the way that the format has it come, and tells how many bytes are lost. Answers which way; nothing where nothing was saved."""
    way, after = way_of(root, before), record_of(root)
    if way is None:
        return None
    lists = lists_of(after)
    real = way, int.from_bytes(after[0][92:96], "big"), is_counted(after, lists)
    tests.compare(f"{what}: which way, the bytes that are lost, and the counts", real, (*wanted_way(before, after), True))
    return way


# ---- data files that are just long enough, too long or too short, and torn ones

PATHS = sorted(it.encode() for it in BESIDE)
LOOKS = [("status",), ("status", "-A"), ("debugdirstate",)]
CHANGES = [("add", "z"), ("forget", "a"), ("copy", "a", "y"), ("remove", "-A", "a"), ("debugsetparents", "0" * 40)]


def laid_out(root, docket_bytes, data):
    lay_out(root, [*BESIDE, "z"])
    put_record(root, docket_bytes, data)


def run_lengths(tests):
    """The used bytes alone, and with others behind them: read and put behind alike. One byte less is refused by its name, and nothing is written."""
    head, data = written(PATHS)
    used, known = len(data), {}
    longer = {"just the used bytes": b"", "one byte more": b"\0", "some more": b"\xff" * 77, "far more": b"\x00\xff" * 5_000, "its own bytes again": data}
    for what, more in longer.items():
        for words in CHANGES[:3]:
            with tests.working_copy() as root:
                laid_out(root, head, data + more)
                before = record_of(root)
                tests.compare(f"{what}: read", tests.run(root, ("debugdirstate",)), (0, told(BESIDE), b""))
                tests.compare(f"{what}: {' '.join(words)}", (tests.run(root, words), compare_way(tests, f"{what}: {' '.join(words)}", root, before)), ((0, b"", b""), BEHIND))
                after = record_of(root)
                saved = known.setdefault(words, (after[0], after[1][:after[3]]))
                tests.compare(f"{what}: {' '.join(words)}: the same bytes", (after[0], after[1][:after[3]]), saved)
                tests.compare(f"{what}: {' '.join(words)}: what is longer stays", after[1][after[3]:], (data + more)[after[3]:])
    line = aborted(f"dirstate data: {used - 1} bytes where {used} are used")
    for words in LOOKS + CHANGES:
        with tests.working_copy() as root:
            laid_out(root, head, data[:-1])
            before = files_of(root)
            tests.compare(f"one byte less: {' '.join(words)}", (tests.run(root, words), files_of(root) == before), ((255, b"", line), True))


def files_of(root):
    """What stands in a working copy; the lock that comes and goes gives the folder `.hg` another time."""
    return {path: it for path, it in seen(root).items() if not path.endswith(b"/.hg")}


def run_torn(tests):
    """Whatever of a save is behind the used bytes while the old docket stands, all programs read the old record, and the next save is the same."""
    has_hg, rhg = shutil.which("hg") is not None, rhg_of()
    head, data = written(PATHS)
    with tests.working_copy() as root:
        if has_hg:
            init(root)
        laid_out(root, head, data)
        tests.run(root, ("add", "z"))
        whole = record_of(root)
        more, name = whole[1][len(data):], f"{root}/.hg/{whole[2]}"
        tests.compare("torn: saved behind the data file", (whole[2], len(more) > 100), (f"dirstate.{0:016x}", True))
        chance, wrong = random.Random(31), []
        fronts = [more[:size] for size in (0, 1, 43, 44, 45, len(more) - 1, len(more))]
        fronts += [bytes(len(more)), b"\xff" * len(more), more[::-1], bytes(44) + more[44:], more[:-44] + bytes(44)]
        fronts += [bytes(byte if chance.random() < 0.5 else 0 for byte in more) + bytes(chance.randrange(200)) for _ in range(10)]
        for number, front in enumerate(fronts):
            put(f"{root}/.hg/dirstate", head)
            put(name, data + front)
            ours = tests.run(root, ("debugdirstate",)), tests.run(root, ("status", "-a"))
            told_old = (0, told(BESIDE), b""), (0, lines(*(f"A {it}" for it in sorted(BESIDE))), b"")
            theirs = [hg(root, "status", "-a").stdout] if has_hg and number % 3 == 0 else []
            theirs += ([run_rhg(root, rhg, "-a")[1]] if has_hg and rhg else [])
            tests.run(root, ("add", "z"))
            after = record_of(root)
            saved = after[0] == whole[0] and after[1][:after[3]] == whole[1] and after[1][after[3]:] == (data + front)[after[3]:]
            if (ours, set(theirs) - {told_old[1][1]}, saved) != (told_old, set(), True):
                wrong.append((number, ours, theirs, saved))
        tests.compare(f"torn: {len(fronts)} ends behind the used bytes", wrong[:2], [])


def run_stopped(tests):
    """A save behind the data file that is killed before and after each call from its first write on: both programs read the record whose docket stands."""
    if shutil.which("hg") is None or not has_gcc(tests, "so no save behind a data file was stopped beside hg"):
        return
    calls, (head, data) = Calls(tests), written(PATHS)
    texts = [b"".join(b"A %s\n" % it for it in its) for its in (PATHS, PATHS + [b"z"])]
    with tests.working_copy() as root:
        init(root)
        laid_out(root, head, data)
        names, seen_by = calls.listed(root, ["add", "z"])[1], {"hgtrack": [], "hg": []}
        first, killed = next(i for i, it in enumerate(names, 1) if it.startswith("write ") and "/dirstate." in it), 0
        for number in range(first, len(names) + 1):
            for how in ("before", "after"):
                for name in os.listdir(f"{root}/.hg"):
                    if name.startswith(("dirstate", "wlock")):
                        os.remove(f"{root}/.hg/{name}")
                put_record(root, head, data)
                status = calls.run(root, ["add", "z"], how, number)[0]
                ours, theirs = tests.run(root, ("status", "-a"))[1], hg(root, "status", "-a").stdout
                what = f"killed {how} call {number}, {short(names[number - 1])}: read by both"
                # (it has some calls more where the docket was changed in the very second, so a call isn't the one that was counted, or there is none)
                stands = texts[record_of(root)[0] != head]
                tests.compare(what, (status in (0, KILLED), ours, theirs), (True, stands, stands))
                killed += status == KILLED
                for name, text in (("hgtrack", ours), ("hg", theirs)):
                    seen_by[name].append(texts.index(text) if text in texts else None)
        tests.compare(f"killed {killed} times", killed > len(names) - first, True)
        for name, found in seen_by.items():
            tests.compare(f"{name} reads the record before, or the one after", set(found), {0, 1})


# ---- records of others

def in_other_order():
    """A record whose lists stand the other way about, that of the root first, and whose directory's text is the front of that of its first file."""
    names = [b"d/file%d" % i for i in range(10)]
    texts = b"a" + b"".join(names)
    below = len(texts) + 2 * ROWS
    root_list = record(0, 1) + record(1, 1, children=(below, 10), below=(10, 10), flags=0)
    rows = b"".join(record(1 + 7 * i, 7, 2) for i in range(10))
    return docket(below + len(rows), (len(texts), 2), counts=(11, 0, 0)), texts + root_list + rows


def miscounted():
    """Records of one tree with one count that is wrong each."""
    head, data = written(PATHS)
    counts = {"an entry too many": (14, 0, 0), "an entry too few": (12, 0, 0), "a copy source": (13, 1, 0)}
    for what, its in counts.items():
        yield what, DOCKET.pack(*DOCKET.unpack(head[:DOCKET.size])[:7], *its, *DOCKET.unpack(head[:DOCKET.size])[10:]) + head[DOCKET.size:], data
    # (the record of `d` is the last one)
    for what, place in (("an entry too few below", 22), ("a tracked path too few below", 26)):
        at = len(data) - ROWS + place
        yield what, head, data[:at] + (11).to_bytes(4, "big") + data[at + 4:]


def run_counts(tests):
    """A record with a wrong count is written anew, and the next change is put behind; one whose lists stand in another order, with right counts, is put behind at once."""
    cases = [(what, *it, ANEW) for what, *it in miscounted()] + [("lists in another order", *in_other_order(), BEHIND)]
    for what, head, data, way in cases:
        with tests.working_copy() as root:
            laid_out(root, head, data)
            lay_out(root, ["y"])
            for number, (name, wanted) in enumerate([("z", way), ("y", BEHIND)] if way == ANEW else [("z", way)]):
                before = record_of(root)
                tests.compare(f"{what}: add {name}", tests.run(root, ("add", name)), (0, b"", b""))
                tests.compare(f"{what}: add {name}: {wanted}", compare_way(tests, f"{what}: add {name}", root, before), wanted)
            status = tests.run(root, ("status", "-a", "-d"))
            tests.compare(f"{what}: what is tracked", (status[0], b"A z\n" in status[1], status[1].count(b"\n")), (0, True, len(lists_paths(root))))


def lists_paths(root):
    """The paths that have an entry."""
    return [node.path for its in lists_of(record_of(root)).values() for node in its if has_entry(node)]


def rhg_of():
    return os.environ.get("HGTRACK_RHG") or shutil.which("rhg")


def run_rhg(root, rhg, flag="-A"):
    return answer(subprocess.run([rhg, "status", flag, "--config", "rhg.on-unsupported=abort"], cwd=root, env={**os.environ, "HGRCPATH": ""}, capture_output=True, timeout=SECONDS))


def committed(root, names):
    """A repository of Mercurial's with a commit of these files, whose times are long past."""
    init(root)
    lay_out(root, names)
    for number, name in enumerate(names):
        os.utime(f"{root}/{name}", ns=((10**9 + number) * 10**9 + 7, (10**9 + number) * 10**9 + 7))
    hg(root, "add")
    hg(root, "commit", "-m", "one")
    export(root)


def run_theirs(tests):
    """Behind a record that `hg` wrote, and one to which `rhg` added the times that it saw: each of the programs reads the other's."""
    names = [f"d{i % 8}/file{i}" for i in range(80)] + ["a", "b"]
    rhg = rhg_of()
    for by in ["hg", "rhg"] if rhg else ["hg"]:
        with tests.working_copy() as root:
            committed(root, names)
            lay_out(root, ["d3/new", "z"])
            first = record_of(root)
            if by == "rhg":
                # (all times but one are recorded, so that it needs to write little)
                hg(root, "status")
                os.utime(f"{root}/d5/file5", ns=(2 * 10**18, 2 * 10**18))
                first = record_of(root)
                os.utime(f"{root}/d5/file5", ns=(10**18, 10**18))
                run_rhg(root, rhg)
                tests.compare("rhg wrote the record", record_of(root)[0] != first[0], True)
                print(f"rhg saved {way_of(root, first)}")
            for words in (("add", "d3/new"), ("add", "z"), ("forget", "z"), ("forget", "d3/new")):
                before = record_of(root)
                tests.compare(f"behind {by}: {' '.join(words)}", tests.run(root, words), (0, b"", b""))
                way = compare_way(tests, f"behind {by}: {' '.join(words)}", root, before)
                tests.compare(f"behind {by}: {' '.join(words)}: saved", way in (ANEW, BEHIND), True)
                listed = [tests.run(root, ("status", "-A")), answer(hg(root, "status", "-A"))] + ([run_rhg(root, rhg)] if rhg else [])
                tests.compare(f"behind {by}: {' '.join(words)}: listed", listed, [(0, listed[0][1], b"")] * len(listed))


def run_rolled_back(tests):
    """`hg` keeps the record of before a transaction under second names of its files. What ours puts behind such a data file is in neither's way, and where the record of
    before is taken back the next save goes on from that."""
    with tests.working_copy() as root:
        committed(root, [f"d{i % 8}/file{i}" for i in range(80)])
        lay_out(root, ["y", "z"])
        hg(root, "phase", "--force", "--secret", "tip")
        before = record_of(root)
        tests.compare("rolled back: the data file has two names", os.stat(f"{root}/.hg/{before[2]}").st_nlink, 2)
        add(tests, root, "y", "of two names", (BEHIND,))
        before = record_of(root)
        rolled_back(tests, root, "a phase", before)
        put(f"{root}/d3/file3", b"another text\n")
        before = record_of(root)
        hg(root, "commit", "-m", "two", "d3/file3")
        export(root)
        add(tests, root, "z", "behind a commit", (BEHIND,))
        rolled_back(tests, root, "a commit", before)
        add(tests, root, "z", "once more", (ANEW, BEHIND))


def add(tests, root, name, what, ways):
    before = record_of(root)
    ran = tests.run(root, ("add", name))
    tests.compare(f"{what}: add {name}", (ran, compare_way(tests, f"{what}: add {name}", root, before) in ways), ((0, b"", b""), True))
    tests.compare(f"{what}: add {name}: listed", tests.run(root, ("status",)), (0, hg(root, "status").stdout, b""))


def rolled_back(tests, root, what, before):
    """The record is the one of before, or as it stood where the transaction was none of its own; all list the same."""
    ran = hg(root, "rollback", "--config", "ui.rollback=true")
    export(root)
    tests.compare(f"{what}: rolled back", (ran.returncode, record_of(root)[0] == before[0]), (0, True))
    tests.compare(f"{what}: rolled back: listed", tests.run(root, ("status", "-A")), (0, hg(root, "status", "-A").stdout, b""))


# ---- many steps by all programs in turn

STEPS, SEED = 300, 31
NAMES = [f"dir{i % 12:02}/{'sub/' if i % 5 == 0 else ''}file{i:03}" for i in range(196)] + ["a", "b.c", "m", "z 0"]
TEXTS = [b"one\n", b"two\n", b"six\n", b"three\n"]


class Steps:
    """A repository that changes step by step; how often each program saved the record, and which way."""

    def __init__(self, tests, root, chance, rhg):
        self.tests, self.root, self.chance, self.rhg = tests, root, chance, rhg
        self.ways, self.when = Counter(), 10**18

    def at(self, name):
        return f"{self.root}/{name}"

    def ours(self, *words):
        """A command of the program; whichever way it saves is the one that the format has it come."""
        before = record_of(self.root)
        ran = self.tests.run(self.root, words)
        self.count("hgtrack", compare_way(self.tests, f"in turn: {' '.join(words)}", self.root, before))
        return ran

    def count(self, name, way):
        if way is not None:
            self.ways[f"{name} {way}"] += 1

    def theirs(self, name, action):
        """Something that a program of Mercurial's does."""
        before = record_of(self.root)
        ran = action()
        self.count(name, way_of(self.root, before))
        return ran

    def hg(self, *words):
        return self.theirs("hg", lambda: hg(self.root, *words))

    def listings(self, with_hg):
        """What each program lists, in any order."""
        asked = {"hgtrack": lambda: self.ours("status", "-A")}
        if self.rhg:
            asked["rhg"] = lambda: self.theirs("rhg", lambda: run_rhg(self.root, self.rhg))
        if with_hg or not self.rhg:
            asked["hg"] = lambda: answer(self.hg("status", "-A"))
        return {name: asked[name]() for name in self.chance.sample(sorted(asked), len(asked))}

    def file(self):
        """Some path at which a file stands."""
        name = self.chance.choice(NAMES)
        if not os.path.exists(self.at(name)):
            os.makedirs(os.path.dirname(self.at(name)), exist_ok=True)
            put(self.at(name), b"one\n")
        return name

    def write(self):
        put(self.at(self.file()), self.chance.choice(TEXTS))

    def write_old(self):
        name = self.file()
        put(self.at(name), self.chance.choice(TEXTS))
        self.touch(name)

    def touch(self, name=None):
        self.when += 10**9 + 7
        os.utime(self.at(name or self.file()), ns=(self.when, self.when))

    def touch_many(self):
        for _ in range(self.chance.randrange(2, 30)):
            self.touch()

    def take(self):
        os.remove(self.at(self.file()))

    def add(self):
        self.ours("add", self.file())

    def add_many(self):
        self.ours("add", *(self.file() for _ in range(self.chance.randrange(2, 20))))

    def forget(self):
        self.ours("forget", self.chance.choice(NAMES))

    def remove(self):
        self.ours("remove", self.chance.choice(NAMES))

    def copy(self):
        name, other = self.file(), self.chance.choice(NAMES)
        if os.path.exists(self.at(other)):
            os.remove(self.at(other))
        self.ours("copy", name, other)

    def hg_add(self):
        self.hg("add", self.file(), self.file())

    def hg_forget(self):
        self.hg("forget", self.chance.choice(NAMES))

    def hg_remove(self):
        self.hg("remove", self.chance.choice(NAMES))

    def hg_copy(self):
        self.hg("copy", "--force", self.file(), self.chance.choice(NAMES))

    def hg_commit(self):
        self.hg("commit", "-m", "more")
        self.bring()

    def hg_update(self):
        self.hg("update", "--clean", "tip" if self.chance.random() < 0.5 else "0")
        self.bring()

    def bring(self):
        ran = export(self.root, "--hook")
        self.tests.compare("in turn: the parents are brought over", (ran.returncode, ran.stderr), (0, b""))

    KINDS = [write, write_old, touch, touch_many, take, add, add, add_many, forget, forget, remove, copy, hg_add, hg_forget, hg_remove, hg_copy, hg_commit, hg_update]


def run_steps(tests):
    """Files are written and touched, added, forgotten, removed, copied and committed, by one program or another; behind each step all list the same."""
    chance, rhg = random.Random(SEED), rhg_of()
    if rhg is None:
        tests.skip("the command rhg is not installed, so the steps behind a data file are made without it")
    with tests.working_copy() as root:
        committed(root, NAMES[::2])
        lay_out(root, NAMES[1::2])
        steps, wrong = Steps(tests, root, chance, rhg), 0
        for number in range(STEPS):
            step = chance.choice(Steps.KINDS)
            step(steps)
            # (`hg` takes long to start: beside `rhg` it is asked behind each third step)
            found = steps.listings(number % 3 == 0)
            wanted = found["hgtrack"][1]
            is_same = tests.compare(f"in turn: step {number}, {step.__name__}, asked {', '.join(found)}", found, {name: (0, wanted, b"") for name in found})
            wrong += not is_same
            if wrong > 3:
                break
        tests.compare("in turn: something is listed", wanted.count(b"\n") > 150, True)
        ways = ", ".join(f"{count} by {it}" for it, count in sorted(steps.ways.items()))
        tests.compare(f"in turn: {STEPS} steps, saves {ways}", (steps.ways[f"hgtrack {BEHIND}"] > 50, steps.ways[f"hgtrack {ANEW}"] > 0), (True, True))
        print(f"saves of {STEPS} steps: {ways}")


def run(tests):
    run_lengths(tests)
    run_torn(tests)
    run_stopped(tests)
    run_counts(tests)
    if shutil.which("hg") is None:
        tests.skip("the command hg is not installed, so nothing was put behind its records")
        return
    run_theirs(tests)
    run_rolled_back(tests)
    run_steps(tests)
