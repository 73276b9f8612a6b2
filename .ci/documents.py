#!/usr/bin/env python3
"""Makes docs/DEFINITIONS.md from the comments in specs/: each definition that a contract may cite, with the comment above it.

  documents.py            writes docs/DEFINITIONS.md
  documents.py --check    tells whether it is as it would be written, and whether what README, PROMISES and ARCHITECTURE name is there (named.py); its last line
                          is `N passed, M failed`
"""

import itertools
import os
import re
import sys
import textwrap

sys.dont_write_bytecode = True
import named

TOP = os.path.dirname(os.path.dirname(os.path.abspath(__file__)))
TO = "docs/DEFINITIONS.md"
WIDTH = 160
HEAD = """# Definitions

Each definition that a contract may cite, crate by crate and file by file, with the comment above it: made by `make documents` from `crates/*/specs`. Where a
name stands for a fact it begins with a capital letter; where it stands for a value, a number or a yes or no, with a small one. Below a record stand
those of its fields that have a comment of their own.
"""
DEFINITION = re.compile(r"(?:(?:abbrev|unfoldable|opaque) )?pub (?:(?:record|data) )?(?!mod |use |syntax )([^\s:({]+)(.*)")
FIELD = re.compile(r"(?:pub )?([^\s:({]+)(?: [^\s:({]+)* :")
SECTION = re.compile(r"-- -{3,} ?(.*)")


def rows():
    """The rows of crates.txt, in its order: a crate, and those that it uses."""
    with open(f"{TOP}/crates.txt", encoding="utf-8") as file:
        parts = [line.split("#")[0].split(":") for line in file]
    return [(it[0].split()[0], it[1].split()) for it in parts if len(it) == 2]


def crates():
    """The names in crates.txt, in its order."""
    return [name for name, _ in rows()]


def files_of(crate):
    """The files of definitions of a crate, without the one that names the others."""
    folder = f"{TOP}/crates/{crate}/specs"
    found = [os.path.relpath(f"{at}/{name}", TOP) for at, _, names in os.walk(folder) for name in names]
    return sorted(it for it in found if it.endswith(".antt") and os.path.basename(it) != "Lib.antt")


def wrapped(text, indent="", below=""):
    return textwrap.wrap(text, WIDTH, initial_indent=indent, subsequent_indent=below, break_long_words=False, break_on_hyphens=False)


def item(indent, name, comment):
    return wrapped(f"- `{name}`: {comment}", indent, f"{indent}  ")


def uncommented(name, kind, body):
    """The line of a definition that has no comment: its type, and what it is where both are short."""
    text = f"- `{name}{kind}`"
    whole = f"{text}, `{body[0].strip()}`" if len(body) == 1 else text
    return [whole] if len(whole) <= WIDTH else wrapped(text, "", "  ")


def described(path):
    """The lines that tell what a file of definitions has: its first sentence, and its definitions."""
    with open(f"{TOP}/{path}", encoding="utf-8") as file:
        lines = file.read().split("\n")
    opening, comment, items = "", [], []
    # how far the fields of the record stand in that is being read
    fields = None
    for at, line in enumerate(lines):
        text, depth = line.strip(), len(line) - len(line.lstrip())
        if text.startswith("--"):
            section = SECTION.match(text)
            comment = [] if section else [*comment, text[2:].strip()]
            items += ["", f"{section[1]}:", ""] if section and section[1] else []
            continue
        said, comment = " ".join(comment), []
        if not text:
            continue
        if fields is not None and depth < fields:
            fields = None
        found = DEFINITION.match(text) if fields is None else None
        field = FIELD.match(text) if depth == fields else None
        if found and said:
            items += item("", found[1], said)
        elif found:
            body = list(itertools.takewhile(lambda it: it.strip() and not it.strip().startswith("--"), lines[at + 1 :]))
            items += uncommented(found[1], found[2].removesuffix(" where"), body)
        elif field and said:
            items += item("  ", field[1], said)
        elif not opening and not items:
            opening = said
        if found and re.match("pub (record|data) ", text):
            fields = depth + 2
    return ["", *wrapped(f"`{path}`" + f": {opening}" * bool(opening)), "", *items] if items else []


def document():
    lines = [HEAD.rstrip("\n")]
    for crate in crates():
        found = [line for path in files_of(crate) for line in described(path)]
        if found:
            lines += ["", f"## `{crate}`", *found]
    text = "\n".join(lines) + "\n"
    return re.sub(r"\n{3,}", "\n\n", text)


def is_written(made):
    try:
        with open(f"{TOP}/{TO}", encoding="utf-8") as file:
            return file.read() == made
    except FileNotFoundError:
        return False


def check(made):
    good = is_written(made)
    if not good:
        print(f"{TO} is not what the comments in specs/ say: run `make documents`")
    wrong = named.check(crates(), {used for _, all_used in rows() for used in all_used} - set(crates()))
    print(f"{good + (wrong == 0)} passed, {(not good) + wrong} failed")
    return 1 if wrong or not good else 0


def main(words):
    made = document()
    if words == ["--check"]:
        return check(made)
    with open(f"{TOP}/{TO}", "w", encoding="utf-8") as file:
        file.write(made)
    return 0


if __name__ == "__main__":
    sys.exit(main(sys.argv[1:]))
