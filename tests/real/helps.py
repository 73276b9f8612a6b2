"""The words that ask for help or the version, and what is printed then, by hand."""

REFUSES = "Exit status: 0, 1 where a FILE was refused, in a line of its own (the others are done), or 255 after a line `abort: ...`."
FAULTS = "Exit status: 0, or 255 after a line `abort: ...`."

HELPS = [
    (["--version"], "hgtrack 0.1.0\n"),
    (["--help"], """hgtrack: the record of a Mercurial working copy (its dirstate-v2), and the status from it

Usage:
  hgtrack status [FLAG ..]  list what is tracked and what is not, from any folder of a working copy
  hgtrack add FILE ..  track files and links, from the next commit on
  hgtrack forget FILE ..  track them no longer; the files stay
  hgtrack remove [-A] FILE ..  track them no longer, and take the files away
  hgtrack copy SOURCE TARGET  copy a file, and record its source
  hgtrack debugsetparents NODE [NODE]  set the parents
  hgtrack debugdirstate  print what the dirstate records of each path
  hgtrack debugscript  run commands from standard input
  hgtrack debugload N  make a working copy of N folders in memory, and count the letters of its status
  hgtrack COMMAND --help  print what a command does, what it takes, and an example
  hgtrack --help  print this help
  hgtrack --version  print the version

It runs in any folder of a working copy, whose root is the nearest folder with a folder `.hg`. Paths are told from the root; a FILE,
SOURCE or TARGET is told from the current folder, and stands behind `--` where its name begins with a dash.

Exit status:
  0    all was done
  1    a file was refused, in a line of its own; the others were done
  255  a fault, in a line `abort: ...`; a line `hgtrack: ...` behind it says why, or what to do

Files:
  .hgignore     the patterns of what is ignored
  .hg/dirstate  the record's docket, which names the data file beside it
  .hg/requires  what the repository asks of a program
  .hg/plain     the manifests and files of the parents, as hgtrack-parents brings them
  .hg/wlock     the lock of the working copy, while the record is changed
  .hg/probe     a file that is written to ask the file system's clock

Environment:
  no variable is read
"""),
    (["status", "--help"], f"""Usage:
  hgtrack status [FLAG ..]  list what is tracked and what is not, from any folder of a working copy

M is changed, A added, R removed, ! missing, ? not tracked, I ignored, C unchanged. Where no letter is asked for, M A R ! ? are.

Flags, in any order, joined or apart; they end at a word `--`:
  -m --modified   M: changed              -A --all         all letters, and copies
  -a --added      A: added                -n --no-status   names without letters
  -r --removed    R: removed              -0 --print0      NUL at the end of each line
  -d --deleted    !: missing              -C --copies      what was copied, and from where
  -c --clean      C: unchanged
  -u --unknown    ?: not tracked
  -i --ignored    I: ignored

Example:
  hgtrack status -m -a -C  list what is changed or added, and what it was copied from

{FAULTS}
"""),
    (["add", "--help"], f"""Usage:
  hgtrack add FILE ..  track files and links, from the next commit on

A FILE is a file or a link; one that is tracked already stays so. There are no flags; behind a word `--` each word is a FILE.

Example:
  hgtrack add parse.c src/scan.c  track these two

{REFUSES}
"""),
    (["forget", "--help"], f"""Usage:
  hgtrack forget FILE ..  track them no longer; the files stay

A FILE is tracked, whatever stands there. There are no flags; behind a word `--` each word is a FILE.

Example:
  hgtrack forget main.o  track it no longer, and leave it in its place

{REFUSES}
"""),
    (["remove", "--help"], f"""Usage:
  hgtrack remove [-A] FILE ..  track them no longer, and take the files away

A FILE is tracked and in a parent, and isn't changed; one that is gone already is tracked no longer.

Flags; they end at a word `--`:
  -A --after      take no file away: each FILE has to be gone already

Example:
  hgtrack remove src/old.c  take it away, and track it no longer

{REFUSES}
"""),
    (["copy", "--help"], """Usage:
  hgtrack copy SOURCE TARGET  copy a file, and record its source

SOURCE is a tracked file or link. At TARGET nothing stands, and nothing is tracked; folders above it are made. There are no flags;
behind a word `--` each word is a path.

Example:
  hgtrack copy main.c src/other.c  copy it, track the copy, and record where it comes from

Exit status: 0, 1 where a word was refused, in a line of its own, or 255 after a line `abort: ...`.
"""),
    (["debugsetparents", "--help"], f"""Usage:
  hgtrack debugsetparents NODE [NODE]  set the parents

A NODE is a commit by its 40 hexadecimal digits; the second is the null one where it isn't given. What the commits have is read in
`.hg/plain`, where hgtrack-parents brings it. There are no flags.

Example:
  hgtrack debugsetparents 0000000000000000000000000000000000000000  set no parent

{FAULTS}
"""),
    (["debugdirstate", "--help"], f"""Usage:
  hgtrack debugdirstate  print what the dirstate records of each path

It prints the parents; a line for each path with its state, kind, size in bytes and time in seconds since 1970, UTC; and a line for
each copy. The working copy isn't looked at. There are no flags.

Example:
  hgtrack debugdirstate  print the record

{FAULTS}
"""),
    (["debugscript", "--help"], """Usage:
  hgtrack debugscript  run commands from standard input

Each line is a command and its words, parted by single spaces, with paths from the root. It ends at its first fault; what the lines
before did stays. There are no flags.

Example:
  hgtrack debugscript < commands  run the lines of a file

Exit status: 0, 1 where a word of a line was refused, or 255 after a line `abort: ...`.
"""),
    (["debugload", "--help"], f"""Usage:
  hgtrack debugload N  make a working copy of N folders in memory, and count the letters of its status

N is from 1 to 2000, and a folder has 16 paths. `status -A` runs twice; it prints how many lines each letter has, and how many files
were read. There are no flags.

Example:
  hgtrack debugload 100  count over 1600 paths

{FAULTS}
"""),
]
