#!/usr/bin/env python3
"""Writes the man page and the completion for bash, from what the program's own `--help` and that of each command print.

    pages.py PROGRAM FOLDER     puts hgtrack.1 and hgtrack.bash into FOLDER

Both name the commands and flags of these texts, and nothing that they don't.
"""

import os
import re
import subprocess
import sys

COMMAND = re.compile(r"  hgtrack (\S+)(?: (\S.*?))?  (\S.*)")
FLAG = re.compile(r"(-\S) (--[a-z0-9-]+) +(\S.*?)(?=\s{2,}-\S --|$)")
ROW = re.compile(r"  (\S+)  +(\S.*)")
# what stands for a file among the words of a command
FILES = {"FILE", "SOURCE", "TARGET"}


def paragraphs(text):
    return [it.split("\n") for it in text.rstrip("\n").split("\n\n")]


def rows_of(paragraph, title):
    """The lines below a title."""
    assert paragraph[0] == title, paragraph
    return paragraph[1:]


def columns(rows):
    """The flags of rows of two columns, the first one before the second."""
    found = [FLAG.findall(row) for row in rows]
    return [row[0] for row in found] + [it for row in found for it in row[1:]]


class Help:
    """The parts of the help: what the program is, the commands, how it is run, what it ends with, and the files and variables that it reads."""

    def __init__(self, text):
        [head], usage, notes, ends, files, variables = paragraphs(text)
        self.what = head.split(": ", 1)[1]
        # (a command, its words and its line; a word of the program's own begins with a dash)
        self.commands = [COMMAND.fullmatch(row).groups(default="") for row in rows_of(usage, "Usage:")]
        self.notes = " ".join(notes)
        self.ends = [ROW.fullmatch(row).groups() for row in rows_of(ends, "Exit status:")]
        self.files = [ROW.fullmatch(row).groups() for row in rows_of(files, "Files:")]
        self.variables = " ".join(it.strip() for it in rows_of(variables, "Environment:"))


class Page:
    """The parts of the help of a command: what its words are, its flags with what is said of them, and an example with what it does."""

    def __init__(self, text):
        usage, notes, *flags, example, ends = paragraphs(text)
        assert len(rows_of(usage, "Usage:")) == 1 and len(flags) <= 1, text
        self.notes, self.ends = " ".join(notes), " ".join(ends)
        self.title, self.flags = (flags[0][0], columns(flags[0][1:])) if flags else ("", [])
        [self.example] = [COMMAND.fullmatch(row).groups() for row in rows_of(example, "Example:")]


def asked(program, *words):
    return subprocess.run([program, *words], stdin=subprocess.DEVNULL, stdout=subprocess.PIPE, check=True).stdout.decode()


def plain(text):
    """A text as a line of a man page."""
    text = text.replace("\\", r"\e").replace("-", r"\-").replace("`", "\\(aq").replace("'", "\\(aq")
    return rf"\&{text}" if text[:1] == "." else text


def sentences(text):
    """A line for each sentence."""
    return [plain(it) for it in re.split(r"(?<=[.;]) ", text)]


def described(page):
    """What is said of a command below its line."""
    rows = [".IP", *sentences(page.notes)]
    if page.flags:
        rows += [".IP", plain(page.title), ".RS"]
        for letter, long, line in page.flags:
            rows += [".TP", rf"\fB{plain(letter)}\fR, \fB{plain(long)}\fR", plain(line)]
        rows += [".RE"]
    return [*rows, ".IP", *sentences(page.ends)]


def man_page(told, pages, version):
    rows = [
        ".\\\" made by contrib/pages.py from the program's --help",
        f'.TH HGTRACK 1 "" "{version}" "User commands"',
        ".SH NAME",
        rf"hgtrack \- {plain(told.what)}",
        ".SH SYNOPSIS",
    ]
    for number, (name, words, _) in enumerate(told.commands):
        rows += [".br"] * (number > 0) + [f".B hgtrack {plain(name)}"] + ([plain(words)] if words else [])
    rows += [".SH DESCRIPTION", *sentences(told.notes), ".SH COMMANDS"]
    for name, words, line in told.commands:
        rows += [".TP", rf"\fBhgtrack {plain(name)}\fR{' ' * bool(words)}{plain(words)}", plain(line)]
        rows += described(pages[name]) if name in pages else []
    for title, table in ((".SH EXIT STATUS", told.ends), (".SH FILES", told.files)):
        rows += [title] + [it for name, line in table for it in (".TP", rf"\fB{plain(name)}\fR", plain(line))]
    rows += [".SH ENVIRONMENT", *sentences(told.variables), ".SH EXAMPLES"]
    for page in pages.values():
        name, words, line = page.example
        rows += [".TP", rf"\fBhgtrack {plain(name)}\fR{' ' * bool(words)}{plain(words or '')}", plain(line)]
    return "\n".join([*rows, ".SH SEE ALSO", ".BR hg (1)"]) + "\n"


def completion(told, pages):
    names = " ".join(name for name, _, _ in told.commands if name.islower())
    rows = [
        "# Completion of hgtrack's words for bash, made by contrib/pages.py from the program's --help.",
        "",
        "_hgtrack()",
        "{",
        "    local word=${COMP_WORDS[COMP_CWORD]} at flags= files=",
        "    COMPREPLY=()",
        "    if ((COMP_CWORD == 1)); then",
        "        compopt +o default 2> /dev/null",
        f"        COMPREPLY=($(compgen -W '{names}' -- \"$word\"))",
        "        return",
        "    fi",
        "    case ${COMP_WORDS[1]} in",
    ]
    for name, words, _ in told.commands:
        if name in pages:
            flags = [it for letter, long, _ in pages[name].flags for it in (letter, long)]
            has_files = FILES & set(re.findall("[A-Z]+", words))
            rows += [f"        {name}) flags='{' '.join([*flags, '--help'])}'{' files=yes' * bool(has_files)} ;;"]
    rows += [
        "    esac",
        "    # (the help of a command is asked by no other word, and behind a word `--` each word is a file)",
        "    ((COMP_CWORD == 2)) || flags=${flags%--help}",
        "    for at in \"${COMP_WORDS[@]:2:COMP_CWORD-2}\"; do",
        "        [[ $at == -- ]] && flags=",
        "    done",
        "    if [[ $word == -* && $flags ]]; then",
        "        COMPREPLY=($(compgen -W \"$flags\" -- \"$word\"))",
        "    fi",
        "    [[ $files ]] || compopt +o default 2> /dev/null",
        "}",
        "complete -o default -F _hgtrack hgtrack",
    ]
    return "\n".join(rows) + "\n"


def put(path, text):
    with open(path, "w", encoding="utf-8") as file:
        file.write(text)


def main(words):
    if len(words) != 2:
        print(__doc__.strip(), file=sys.stderr)
        return 2
    program, folder = words
    told, version = Help(asked(program, "--help")), asked(program, "--version").strip()
    pages = {name: Page(asked(program, name, "--help")) for name, _, _ in told.commands if name.isalpha() and name.islower()}
    os.makedirs(folder, exist_ok=True)
    put(f"{folder}/hgtrack.1", man_page(told, pages, version))
    put(f"{folder}/hgtrack.bash", completion(told, pages))
    return 0


if __name__ == "__main__":
    sys.exit(main(sys.argv[1:]))
