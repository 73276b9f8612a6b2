"""The working copies and records over which programs are timed."""

import os
import shutil

from folder import put_record

IN_EACH = 20


def make_files(root, paths):
    made = set()
    for path in paths:
        folder = os.path.dirname(path)
        if folder not in made:
            os.makedirs(f"{root}/{folder}", exist_ok=True)
            made.add(folder)
        with open(f"{root}/{path}", "wb"):
            pass


def directory(number):
    """The directories, counted from 0: each fifty of them are a package, with three directories in it and three in each of these, as far as
    the fifty go. So a copy with more packages is no deeper."""
    inner = number % 50
    if not inner:
        return f"package{number // 50:03}"
    return f"{directory(number - inner + (inner - 1) // 3)}/dir{inner % 3}"


def in_directories(count):
    """Paths of that many files, 20 in each directory."""
    return [f"{directory(i)}/file{j:02}" for i in range(count // IN_EACH) for j in range(IN_EACH)]


def put_new(path, content):
    os.makedirs(os.path.dirname(path), exist_ok=True)
    with open(path, "wb") as file:
        file.write(content)


def read(path):
    with open(path, "rb") as file:
        return file.read()


def manifest_of(ids):
    return b"".join(path + b"\0" + it.encode() + b"\n" for path, it in sorted(ids.items()))


def lay_record(root, record):
    """The record, and no later data file."""
    shutil.rmtree(f"{root}/.hg", ignore_errors=True)
    put_record(root, *record)


PARENTS = [b"\x11" * 20, b"\x22" * 20]
