"""A status with ignore texts."""

import os
import shutil
import subprocess
from string import ascii_letters

from dirstate import written
from folder import put_record
from laying import in_directories, make_files
from timing import RUNS

# Lines of an ignore text that match nothing in the copy that is listed, and how many times the status without a text they may take.
GLOBS = ["*.ext{}", "build{}/out", "**/target{}/*.o", "lib{}*.so"]
REGEXPS = [r"\.ext{}$", "^build{}/out", r"(^|/)target{}/.*\.o$", r"(?:^|/)lib{}[^/]*\.so$"]
QUIET = [("glob", GLOBS, 100, 1.3), ("glob", GLOBS, 1_000, 3), ("glob", GLOBS, 4_000, 8), ("regexp", REGEXPS, 4_000, 10)]

# Globs of some 4,095 bytes that match nothing there and that are as slow as one could make them. A text has as many of them as fit in a megabyte, each
# with a number behind its Z: equal lines are asked once.
HOSTILE = {
    "stars": "Z" + "*a" * 2_045,
    "double stars": "Z" + "**z" * 1_363,
    "choices": "{,a,?}" * 330 + "Z" + "{,a,?}" * 330,
    "deep braces": "{," * 1_300 + "**Z**" + "}" * 1_300,
    "classes": "**" + "{[!a],[!b]}" * 350 + "Z**",
    "ranges": "**[" + "b-cd-ef-g" * 450 + "]Z**",
    "stars in choices": "{**,*}" * 600 + "Z**",
}

# Short globs that match nothing there: some that no literal text at their ends decides, literal texts, equal ones, and some whose end stands at most
# paths there.
LETTERS = [(a, b, c) for a in ascii_letters for b in ascii_letters for c in ascii_letters]
PRINTED = [chr(it) for it in range(33, 127) if chr(it) not in "#*,-./:?![]\\{}"]

# (characters of two bytes, and those that the paths there are made of)
WIDE = [chr(it) for it in range(0xa1, 0x7ff)]
COMMON = "packgedir012oth.x/fl"
SHORT = {
    "of five characters": [f"?{a}{b}{c}?" for a, b, c in LETTERS],
    "of one character, all equal": 524_000 * ["?"],
    "of three literal characters": [f"{a}{b}{c}" for a in PRINTED for b in PRINTED for c in PRINTED][:262_000],
    "that end as most paths do": [f"{a}{b}{c}*t" for a, b, c in LETTERS if a not in "oO"],
    "with a wide character that end as most paths do": [f"{a}{b}*t" for a in PRINTED for b in WIDE],
    "of eight parts": [f"~?{a}?{b}?{c}?" for a in PRINTED for b in PRINTED for c in PRINTED],
    "with braces": [f"{a}{{{b}}}" for a in WIDE for b in PRINTED],
    "with braces in front of an end": [f"{{{a}{b}}}t" for a in WIDE for b in PRINTED],
    "with classes that take nearly all": [f"~[!{a}][!{b}]" for a in PRINTED for b in WIDE],
    "with stars between characters of the paths": [f"~*{a}*{b}*{c}*{d}" for a in COMMON for b in COMMON for c in COMMON for d in COMMON],
    "with choices of stars": [f"~{{*{a},*{b}}}{{{c},*}}*" for a in PRINTED for b in PRINTED for c in PRINTED],
    "with braces in braces": [f"~{{{{{a},}}{b},}}" for a in PRINTED for b in WIDE],
    "with choices of one character": [f"~{{{a},{b},?}}*" for a in PRINTED for b in WIDE],
}

# Regexps that match nothing there, and that keep many places in mind at each character: gaps of many lengths between classes that most characters are in,
# by themselves and as alternatives. As many stand in a text as may together, which no formula of this script says: the program is asked.
BITS = "packgedirothxt012/."
CLASSES = [f"[{''.join(BITS[(i * step + start) % len(BITS)] for i in range(9))}]" for start in range(len(BITS)) for step in (1, 2, 4, 5)]
TAILS = ["[0-9]{4}", "[p-z]{6}"]


def wide(number, *gaps):
    """A regexp of classes with such gaps between them, another for each number."""
    classes = [CLASSES[(number * 7 + i * 13 + number // len(CLASSES)) % len(CLASSES)] for i in range(len(gaps))]
    return "".join(f"{it}[.-z]{{{number % 4},{gap + number % 9}}}" for it, gap in zip(classes, gaps)) + TAILS[number % 2]


MINDFUL = {
    "of one gap": [wide(i, 5) for i in range(20_000)],
    "of two gaps": [wide(i, 20, 15) for i in range(2_000)],
    "of three gaps": [wide(i, 20, 20, 20) for i in range(1_000)],
    "of ten alternatives": ["(?:" + "|".join(wide(10 * i + j, 20, 20, 20) for j in range(10)) + ")" for i in range(200)],
    "of forty alternatives": ["(?:" + "|".join(wide(40 * i + j, 20, 20, 20) for j in range(40)) + ")" for i in range(60)],
}


def fitting(lines):
    """As many of the lines as fit in the text with the most bytes that is read."""
    left = 1_048_576 - len("syntax: glob\n")
    for i, line in enumerate(lines):
        left -= len(line.encode()) + 1
        if left < 0:
            return lines[:i]
    return lines


def ignore_text(syntax, lines):
    return f"syntax: {syntax}\n" + "".join(f"{it}\n" for it in lines)


def patterns(bench):
    """A status with ignore texts, beside the same status without one."""
    root, tracked = f"{bench.room}/patterns", in_directories(10_000)
    folders = sorted({os.path.dirname(it) for it in tracked}) + [f"other{i}" for i in range(9)]
    others = [f"{folder}/other{i}.txt" for folder in folders for i in range(4)]
    make_files(root, tracked + others)
    put_record(root, *written([it.encode() for it in tracked]))
    text, status = f"{root}/.hgignore", ([bench.program, "status"], root)
    (without, _), = bench.least(status)
    print(f"| `status` of 10,000 tracked files and {len(others):,} others in {len(folders)} directories | {without:.4f} s | | |")

    def told(what, content, most, rounds=RUNS):
        with open(text, "w", encoding="utf-8") as file:
            file.write(content)
        taken = [bench.once(*status) for _ in range(rounds)]
        return what, min(it[0] for it in taken), max(it[1] for it in taken), most

    for syntax, forms, count, most in QUIET:
        lines = [forms[i % len(forms)].format(i) for i in range(count)]
        what, seconds, memory, most = told(f"with {count:,} lines of {syntax}s", ignore_text(syntax, lines), most)
        bench.tell(f"its time {what} over that without ({seconds:.3f} s, {memory:.1f} MB)", seconds / without, most)
    for name, glob in HOSTILE.items():
        lines = [glob.replace("Z", f"Z{i:03}") for i in range(1_048_500 // (len(glob) + 4))]
        what, seconds, _, most = told(f"with a hostile text: {name}", ignore_text("glob", lines), 20, 1)
        bench.tell(f"its time {what}", seconds, most, " s")
    for name, forms in SHORT.items():
        lines = fitting(forms)
        what, seconds, _, most = told(f"with {len(lines):,} lines {name}", ignore_text("glob", lines), 20, 1)
        bench.tell(f"its time {what}", seconds, most, " s")
    for name, forms in MINDFUL.items():
        lines = taken(bench, root, forms)
        what, seconds, memory, most = told(f"with {len(lines):,} regexps {name}", ignore_text("regexp", lines), 20, 1)
        bench.tell(f"its time {what} ({memory:.0f} MB)", seconds, most, " s")
    shutil.rmtree(root)


def taken(bench, root, forms):
    """As many of the regexps as the program takes together: it names the first line that is too much."""
    with open(f"{root}/.hgignore", "w", encoding="utf-8") as file:
        file.write(ignore_text("regexp", fitting(forms)))
    ran = subprocess.run([bench.program, "status"], cwd=root, stdin=subprocess.DEVNULL, stdout=subprocess.DEVNULL, stderr=subprocess.PIPE)
    words = ran.stderr.decode().split()
    # (the first line names the syntax)
    return forms[:int(words[3].rstrip(":")) - 2] if ran.returncode else fitting(forms)
