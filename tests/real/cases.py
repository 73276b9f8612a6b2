"""The worked cases of crates/hg_cases/data over real folders, but for those that have a device fail, another write or hold the lock meanwhile, that ask which calls
were made or what a crash leaves, that tell a time within the clock's own second, that name a file by `./`, which the program leaves out before, and that ask for the help of a command; it prints how
many ran and how many were left out. A clock can't be set there: a thing of a time below the case's clock has that time, long past, and any other one a time to come."""

import os
import shutil
import time

from folder import TO_COME, put
from scripts import roomy
from worked import Data, lines_of, manifest, printed

FOLDER = os.path.join(os.path.dirname(os.path.dirname(os.path.dirname(os.path.abspath(__file__)))), "crates", "hg_cases", "data")
# Each answer of this file is wrong on purpose.
WRONG = "differs.txt"
LAID = {"file", "files", "exec", "link", "dir", "other"}
# The clock, and the time of things, where a case says neither.
NOON = (43_200, 0)


def is_changing(words):
    """Whether words may change the record, so that it is unknown where they were left out."""
    return words[:1] in ([b"add"], [b"forget"], [b"remove"], [b"copy"], [b"debugsetparents"], [b"debugscript"])


def time_of(text):
    seconds, nanos = text.split(b".")
    return int(seconds), int(nanos)


def nanoseconds(time):
    return time[0] * 10**9 + time[1]


class World:
    """A working copy as the lines of a file lay it out."""

    def __init__(self, tests, root):
        self.tests, self.root = tests, root
        self.clear()

    def clear(self):
        """Nothing stands there but an empty `.hg`."""
        shutil.rmtree(self.root)
        os.makedirs(f"{self.root}/.hg")
        self.data, self.failing, self.is_due, self.is_held, self.is_known, self.input = Data(), set(), False, False, True, b""
        self.time, self.clock, self.times = NOON, NOON, {}
        self.due_clock = None

    def at(self, name):
        return os.path.join(self.root, os.fsdecode(name))

    def take(self, name):
        path = self.at(name)
        if os.path.isdir(path) and not os.path.islink(path):
            shutil.rmtree(path)
        elif os.path.lexists(path):
            os.remove(path)

    def make_way(self, name):
        """Makes the folders above, in place of anything else that stands there."""
        above = name.rpartition(b"/")[0]
        if above and not (os.path.isdir(self.at(above)) and not os.path.islink(self.at(above))):
            self.make_way(above)
            self.take(above)
            os.mkdir(self.at(above))

    def lay(self, word, name, content):
        self.make_way(name)
        if word != "dir" or os.path.islink(self.at(name)) or not os.path.isdir(self.at(name)):
            self.take(name)
        if word == "dir":
            os.makedirs(self.at(name), exist_ok=True)
        elif word == "other":
            os.mkfifo(self.at(name))
        elif word == "link":
            os.symlink(content or b"b", os.fsencode(self.at(name)))
        else:
            put(self.at(name), content)
            os.chmod(self.at(name), 0o755 if word == "exec" else 0o644)
        self.times[name] = self.time
        self.give_time(name)

    def give_time(self, name):
        """Gives a thing its time, or one to come where the clock isn't above that."""
        when = nanoseconds(self.times[name]) if self.times[name] < self.clock else TO_COME
        os.utime(self.at(name), ns=(when, when), follow_symlinks=False)

    def set_clock(self, clock):
        self.clock = clock
        for name in self.times:
            if os.path.lexists(self.at(name)) and os.lstat(self.at(name)).st_mtime_ns == TO_COME:
                self.give_time(name)

    def below(self, name):
        return self.at(b".hg/" + name)

    def put_below(self, name, content):
        os.makedirs(os.path.dirname(self.below(name)), exist_ok=True)
        put(self.below(name), content)

    def read_below(self, name):
        """The bytes of a file below `.hg`, or nothing where it isn't there."""
        try:
            with open(self.below(name), "rb") as file:
                return file.read()
        except FileNotFoundError:
            return None

    def put_record(self, words):
        docket, identifier, is_alone = self.data.docket(words)
        self.put_below(b"dirstate", docket)
        if not is_alone:
            self.put_below(f"dirstate.{identifier}".encode(), self.data.bytes)
        self.data.end()

    def follow(self, line):
        """A line that lays something out."""
        word, rest = line.word, line.tokens[1:]
        if word == "files":
            for name in rest:
                self.lay("file", name, b"b")
        elif word in LAID:
            self.lay(word, rest[0], b"".join(rest[1:]) if rest[1:] else b"b")
        elif word == "take":
            self.take(rest[0])
        elif word == "time":
            self.time = time_of(rest[0])
        elif word == "clock":
            self.set_clock(time_of(rest[0]))
        elif word == "data":
            self.data.put(b"".join(rest))
        elif word == "node":
            self.data.node(rest[0], rest[1:])
        elif word == "tower":
            self.data.tower(int(rest[0]))
        elif word == "docket":
            self.put_record(rest)
        elif word == "hg":
            self.put_below(rest[0], b"".join(rest[1:]))
        elif word == "longer":
            self.put_below(rest[0], self.read_below(rest[0]) + b"".join(rest[1:]))
        elif word == "patch":
            place, text = int(rest[1]), b"".join(rest[2:])
            was = self.read_below(rest[0])
            self.put_below(rest[0], was[:place] + text + was[place + len(text):])
        elif word == "cut":
            self.put_below(rest[0], self.read_below(rest[0])[: int(rest[1])])
        elif word == "manifest":
            self.put_below(b"plain/m-" + (rest[0] * 40)[:40], manifest(rest[1:]))
        elif word == "contents":
            self.put_below(b"plain/f-" + (rest[0] * 40)[:40], b"".join(rest[1:]))
        elif word == "fail":
            self.failing.add(rest[0])
        elif word == "due":
            self.is_due = True
            self.due_clock = time_of(rest[rest.index(b"clock") + 1]) if b"clock" in rest else None
        elif word in ("held", "free"):
            self.is_held = word == "held"
        elif word == "input":
            self.input = b"".join(rest)
        elif word not in ("counted", "pieces"):
            raise ValueError(f"line {line.number}: {word}")

    def run(self, words):
        """A run's lines as a case tells them: without the further lines, which are `main`'s."""
        how = {"preexec_fn": roomy} if words[:1] == [b"debugscript"] else {}
        status, out, err = self.tests.run(self.root, [os.fsdecode(it) for it in words], stdin=None, input=self.input, **how)
        told = [f"2> {it}" for it in printed(err) if not it.startswith("hgtrack: ")]
        return printed(out) + told + [f"[{status}]"] * bool(status)

    def is_runnable(self, words, wanted):
        """Whether a run needs nothing that a real folder doesn't do. A failure that nobody tells of wasn't met."""
        is_met = any(it.startswith("[fault]") or it.startswith("2>") and it.endswith(" failed") for it in wanted)
        is_met |= "[255]" in wanted and not any(it.startswith("2>") for it in wanted)
        is_met |= b"regexps" in self.failing
        is_told = is_changing(words) and any(it.startswith(b"./") for it in words)
        # (which the program answers before)
        is_told |= words[1:] == [b"--help"]
        # (or a time that is past in the case and still to come)
        is_close = any(it < self.clock and (it[0] == self.clock[0] or it[0] > time.time()) for it in self.times.values())
        return self.is_known and not self.is_due and not is_told and not (self.failing and is_met) and not (self.is_held and self.may_save(words)) and not is_close

    def may_save(self, words):
        """Whether words may save a record: a status does where it records a time."""
        return is_changing(words) or words[:1] == [b"status"] and any(it < self.clock for it in self.times.values())

    def ran(self, words, wanted):
        """Runs words where that can be. Answers what they print, and nothing where they are left out."""
        self.data.end()
        can = self.is_runnable(words, wanted)
        answer = self.run(words) if can else None
        self.is_known &= can or not self.may_save(words)
        self.failing -= {b"in", b"out", b"err", b"regexps"}
        if self.is_due and self.due_clock:
            self.set_clock(self.due_clock)
        self.is_due = False
        return answer

    def asked(self, words):
        """Answers a question, and nothing where it is left out."""
        self.data.end()
        question, rest = words[0].decode(), words[1:]
        if not self.is_known or question not in ("record", "bytes", "same"):
            return None
        if question == "record":
            return self.run([b"debugdirstate"])
        content = self.read_below(rest[0])
        if content is None:
            return ["absent"]
        if question == "bytes":
            return printed(content)
        other = self.data.bytes if rest[1] == b"data" else self.data.docket(rest[2:])[0]
        return ["yes" if content == other else "no"]


class Player:
    """Plays a file line by line, and counts what ran and what was left out."""

    def __init__(self, tests, root):
        self.tests, self.world = tests, World(tests, root)
        self.ran = self.left = 0

    def play(self, name, lines):
        since, kept = [], []
        for line in lines:
            if line.word == "new":
                since, kept = [], []
                self.world.clear()
            elif line.word == "start":
                kept = list(since)
            elif line.word == "again":
                since = list(kept)
                self.world.clear()
                for it in since:
                    self.follow(it)
            else:
                since.append(line)
                self.compare(name, line, self.follow(line))

    def follow(self, line):
        """Does what a line says. Answers what it printed, where it asks for that and isn't left out."""
        if line.word == "$":
            return self.world.ran(line.tokens[1:], line.wanted)
        if line.word == "?":
            return self.world.asked(line.tokens[1:])
        self.world.follow(line)
        return None

    def compare(self, name, line, answer):
        if line.word not in ("$", "?"):
            return
        # (a program that ends tells no fault but by its line)
        wanted = [it for it in line.wanted if not (it.startswith("[") and it.endswith(" calls]") or it.startswith("[fault] "))]
        if answer is None or name == WRONG and wanted != line.wanted:
            self.left += 1
            return
        self.ran += 1
        what = f"{name}, line {line.number}"
        if name == WRONG:
            self.tests.compare(f"{what}: wrong on purpose", answer == wanted, False)
        else:
            self.tests.compare(what, answer, wanted)


def run(tests):
    with tests.working_copy() as root:
        player = Player(tests, root)
        for name in sorted(it for it in os.listdir(FOLDER) if it.endswith(".txt")):
            with open(f"{FOLDER}/{name}", encoding="utf-8") as file:
                player.play(name, lines_of(file.read()))
    tests.compare("some worked cases ran", player.ran > 0, True)
    print(f"worked cases: {player.ran} ran over real folders, {player.left} were left out")
