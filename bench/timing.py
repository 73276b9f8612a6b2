"""Compiles what is timed, runs it, and tells each figure beside its limit."""

import os
import shutil
import subprocess
import sys

BENCH = os.path.dirname(os.path.abspath(__file__))
TOP = os.path.dirname(BENCH)

RUNS = 5
# Runs that end on the disk, whose time moves from one to the next: of these the median counts.
SYNCED = 20
MANY, FEW = 100_000, 10_000

# What Mercurial's programs read in place of a user's own file.
HGRC = """[ui]
username = bench
[format]
use-dirstate-v2 = yes
[storage]
dirstate-v2.slow-path = allow
[rhg]
on-unsupported = abort
"""


class Bench:
    """Compiles the loops, runs commands, and tells each figure beside its limit."""

    def __init__(self, program, room, others):
        self.room, self.failed, self.others = room, 0, others
        with open(f"{room}/hgrc", "w", encoding="utf-8") as file:
            file.write(HGRC)
        own = {"HGRCPATH": f"{room}/hgrc", "HGPLAIN": "1", "RAYON_NUM_THREADS": "1", "GIT_CONFIG_GLOBAL": os.devnull, "GIT_CONFIG_SYSTEM": os.devnull}
        self.env = {**os.environ, **own}
        self.program = f"{room}/hgtrack"
        shutil.copyfile(program, self.program)
        os.chmod(self.program, 0o755)
        self.measure = self.compiled("measure")

    def compiled(self, name):
        """The program of FOLDER/NAME.c."""
        to = f"{self.room}/{os.path.basename(name)}"
        subprocess.run(["gcc", "-O2", "-o", to, f"{BENCH}/{name}.c"], check=True)
        return to

    def once(self, command, folder, given=None):
        """The wall time in seconds and the peak memory in MB of one run."""
        with open(given or os.devnull, "rb") as stdin:
            ran = subprocess.run([self.measure, *command], cwd=folder, stdin=stdin, stdout=subprocess.PIPE, check=True, env=self.env)
        status, seconds, kilobytes = ran.stdout.split()
        if int(status):
            sys.exit(f"{' '.join(command)} ended with {int(status)} in {folder}")
        return float(seconds), int(kilobytes) / 1000

    def least(self, *runs):
        """The least time of each run, and the most memory; the runs take turns."""
        taken = [[self.once(*it) for it in runs] for _ in range(RUNS)]
        return [(min(at[i][0] for at in taken), max(at[i][1] for at in taken)) for i in range(len(runs))]

    def tell(self, what, figure, limit, unit=""):
        held = figure <= limit
        self.failed += not held
        print(f"| {what} | {figure:.2f}{unit} | {limit}{unit} | {'held' if held else 'NOT HELD'} |", flush=True)

    def build(self, folder):
        """Builds the Rattle program whose text is FOLDER/main.txt in a repository of its own, over the crates that it uses and what earlier
        checks kept of them. (The text isn't a crate of this repository, so that the merge gate doesn't prove it.)"""
        name = os.path.basename(folder)
        top = f"{self.room}/{name}-repository"
        with open(f"{TOP}/crates.txt", encoding="utf-8") as file:
            uses = {line.split(":")[0].strip(): line.split(":")[1].split() for line in file if ":" in line and not line.startswith("#")}
        with open(f"{BENCH}/{folder}/uses.txt", encoding="utf-8") as file:
            own = file.read().split()
        needed, left = {}, list(own)
        while left:
            crate = left.pop()
            if crate in uses and crate not in needed:
                needed[crate] = uses[crate]
                left += uses[crate]
                shutil.copytree(f"{TOP}/crates/{crate}", f"{top}/crates/{crate}", ignore=shutil.ignore_patterns("incremental"))
        os.makedirs(f"{top}/crates/{name}/src")
        shutil.copyfile(f"{BENCH}/{folder}/main.txt", f"{top}/crates/{name}/src/main.rt")
        shutil.copyfile(f"{TOP}/HANDLES", f"{top}/HANDLES")
        with open(f"{top}/crates.txt", "w", encoding="utf-8") as file:
            file.writelines(f"{crate}: {' '.join(used)}\n" for crate, used in {**needed, name: own}.items())
        subprocess.run(["git", "init", "-q", top], check=True)
        with open(f"{self.room}/{name}.log", "w", encoding="utf-8") as log:
            ran = subprocess.run(["rt", "run"], cwd=f"{top}/crates/{name}", stdin=subprocess.DEVNULL, stdout=log, stderr=log)
        if ran.returncode:
            with open(f"{self.room}/{name}.log", encoding="utf-8", errors="replace") as log:
                sys.exit(f"{name} was not built:\n{log.read()[-2000:]}")
        return f"{top}/crates/{name}/out/{name}"
