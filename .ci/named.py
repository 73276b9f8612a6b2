"""What the pages that tell of the code name: each name in backticks of README, PROMISES and ARCHITECTURE has to stand in the code or in the specs."""

import os
import re

TOP = os.path.dirname(os.path.dirname(os.path.abspath(__file__)))
PAGES = ("README.md", "docs/PROMISES.md", "docs/ARCHITECTURE.md")
# Single words in backticks that name nothing in the code: other programs and their extensions, files, and commands of ours that have no function of their name.
NO_NAMES = set("HANDLES bench debugdirstate debugload debugscript debugsetparents eol keyword requires rhg".split())

NAME = re.compile(r"[A-Za-z_]\w*(?:::[A-Za-z_]\w*)?")
PATH = re.compile(r"[\w.-]+(?:/[\w.-]+)*/?")
FENCE = re.compile(r"^```.*?^```", re.DOTALL | re.MULTILINE)
# `ok`, `err` of `read`, `write`: parts of what is named behind `of`
LIST = r"`[\w:]+`(?:(?:, | and )`[\w:]+`)*"
CHAIN = re.compile(rf"{LIST}(?:\s+of\s+{LIST})+")

# ---- what the sources declare

HEAD = re.compile(r"(?:pub(?:\(\w+\))? )?(?:const )?(?:impl|trait|struct|enum)\b(?:<[^{]*?>)? +(?:[\w:<>', ]+ for )?&?(?:'\w+ )?(?:mut )?(\w+)")
FUNCTION = re.compile(r" *(?:pub(?:\(\w+\))? )?(?:const )?fn (\w+)")
ITEM = re.compile(r" *(?:pub(?:\(\w+\))? )?(?:struct|enum|trait|type|const|static|mod) (\w+)")
CLAUSE = re.compile(r" +(?:ensures|requires) (\w+)\b(?! *[.∷≡])")
MEMBER = re.compile(r"    (?:pub(?:\(\w+\))? )?(?:ghost )?([A-Za-z_]\w*)(?: *[,:({=]|$)")
DEFINITION = re.compile(r"(?:(?:abbrev|unfoldable|opaque) )?pub (?:(?:record|data|mod|syntax) )?([^\s:({]+)")
FIELD = re.compile(r"  (?:pub )?([^\s:({]+)(?: [^\s:({]+)* :")


class Declared:
    """The names that each crate declares, and the parts of each name: clauses of a function, members of a type, fields of a record."""

    def __init__(self, top, crates, others):
        self.of_crate, self.parts = {name: {name} for name in crates}, {name: set() for name in others}
        for crate in crates:
            for at, _, files in os.walk(f"{top}/crates/{crate}"):
                if {"out", "must-fail", "proofs"}.isdisjoint(os.path.relpath(at, top).split("/")):
                    for name in files:
                        self.read(crate, f"{at}/{name}")
            self.parts.setdefault(crate, set()).update(self.of_crate[crate])

    def read(self, crate, path):
        stem, end = os.path.splitext(os.path.basename(path))
        if end in (".rt", ".antt"):
            self.of_crate[crate].add(stem)
            with open(path, encoding="utf-8") as file:
                lines = file.read().split("\n")
            (self.code if end == ".rt" else self.specs)(self.of_crate[crate], lines)

    def declare(self, names, name, owner=None):
        names.add(name)
        self.parts.setdefault(name, set())
        if owner:
            self.parts.setdefault(owner, set()).add(name)

    def code(self, names, lines):
        owner = function = None
        for line in lines:
            line = line.split("//")[0]
            head, item, is_function, clause = HEAD.match(line), ITEM.match(line), FUNCTION.match(line), CLAUSE.match(line)
            if head:
                owner, function = head[1], None
            if is_function:
                function = is_function[1]
                self.declare(names, function, owner)
            elif clause and function:
                self.declare(names, clause[1], function)
                self.parts.setdefault(f"{owner}::{function}", set()).add(clause[1])
            elif item:
                self.declare(names, item[1])
            elif owner and MEMBER.match(line):
                self.declare(names, MEMBER.match(line)[1], owner)
            if line.startswith("}"):
                owner = function = None

    def specs(self, names, lines):
        owner = None
        for line in lines:
            line = line.split("--")[0]
            found, field = DEFINITION.match(line), FIELD.match(line)
            if found:
                owner = found[1]
                self.declare(names, owner)
            elif field and owner:
                self.declare(names, field[1], owner)

    def has(self, name):
        owner, _, part = name.rpartition("::")
        return part in self.parts.get(owner, ()) if owner else name in self.parts


# ---- what the pages name

class Span:
    """A text in backticks: where it begins, and the line in which it does."""

    def __init__(self, text, found):
        self.text, self.at = " ".join(found[1].split()), found.start()
        self.line = text.count("\n", 0, self.at) + 1


def spans(text):
    return [Span(text, found) for found in re.finditer(r"`([^`]+)`", text)]


def bare(text):
    """A page without what is fenced, its lines kept."""
    return FENCE.sub(lambda found: "\n" * found[0].count("\n"), text)


def is_lost_path(span, files):
    """A path of the repository that isn't there: one that begins with a folder of it, or a file of definitions."""
    if not PATH.fullmatch(span):
        return False
    return span.endswith(".antt") and not any(it.endswith(f"/{span}") for it in files) or "/" in span and os.path.isdir(f"{TOP}/{span.split('/')[0]}") and not os.path.exists(f"{TOP}/{span}")


def parted(chain):
    """(a part, whose it may be) of lists with `of` between them; of one in the middle the first is the owner, and the others are parts of what is behind."""
    lists = [re.findall(r"`([\w:]+)`", it) for it in re.split(r"\s+of\s+", chain)]
    for at, (parts, owners) in enumerate(zip(lists, lists[1:])):
        parts = parts[1:] if at and len(parts) > 1 else parts
        owners = owners if at + 2 == len(lists) else owners[:1]
        yield from ((part, owners) for part in parts)


def lost(page, declared, files):
    """(line, what is wrong) of a page."""
    with open(f"{TOP}/{page}", encoding="utf-8") as file:
        text = bare(file.read())
    for span in spans(text):
        if NAME.fullmatch(span.text) and span.text not in NO_NAMES and not declared.has(span.text):
            yield span.line, f"`{span.text}` is nowhere in the code or the specs"
        elif is_lost_path(span.text, files):
            yield span.line, f"`{span.text}` is no file of the repository"
    for found in CHAIN.finditer(text):
        line = text.count("\n", 0, found.start()) + 1
        for part, owners in parted(found[0]):
            if all(owner in declared.parts and part not in declared.parts[owner] for owner in owners):
                yield line, f"`{part}` is no part of `{'`, `'.join(owners)}`"
    yield from lost_rows(text, declared)


def lost_rows(text, declared):
    """The rows below the heading of a crate whose first cell names what that crate doesn't declare."""
    crates = []
    for number, line in enumerate(text.split("\n"), 1):
        if line.startswith("#"):
            crates = [it for it in re.findall(r"`(\w+)`", line) if it in declared.of_crate]
        elif crates and line.startswith("| "):
            names = [it for it in re.findall(r"`(\w+)`", line.split(" | ")[0]) if it not in NO_NAMES]
            yield from ((number, f"`{it}` isn't declared in {' or '.join(crates)}") for it in names if not any(it in declared.of_crate[crate] for crate in crates))


def check(crates, others):
    """Tells each name that is wrong by its page and line, and answers how many there are."""
    declared = Declared(TOP, crates, others)
    files = [f"{at}/{name}" for at, _, names in os.walk(f"{TOP}/crates") for name in names]
    wrong = sorted({(page, line, what) for page in PAGES for line, what in lost(page, declared, files)})
    for page, line, what in wrong:
        print(f"{page}:{line}: {what}")
    return len(wrong)
