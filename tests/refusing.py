"""What the scripts share that refuse a program its requests for memory, each alone and each with all behind it.

What refuses is refuse.c, a small library that is loaded before the C library, so a C compiler is needed; where none
compiles it, a script says that it was skipped. With a limit of time the runs stop there, in no order of the requests. Only
almost none are too few.
"""

import argparse
import contextlib
import os
import random
import shutil
import subprocess
import sys
import tempfile
from collections import Counter
from typing import NamedTuple

from many_runs import judged, told

TOP = os.path.dirname(os.path.dirname(os.path.abspath(__file__)))
LEAST_RUNS = 20
WRONG = "wrong"
WRITTEN = "noshinka.tmp-"  # what the name of a file begins with until it is whole


class Task(NamedTuple):
    """A run of a command with the request of a place refused, counted from 1, and, where `on` is true, all behind it;
    how the command ends where none is refused (its status, and what it prints on either output), and how many requests
    it makes then."""
    words: list
    place: int
    on: bool
    right: tuple
    count: int


class Tally(NamedTuple):
    """How many runs there were of each kind, and how many there are to make."""
    kinds: Counter
    total: int
    seconds: float

    def is_wrong(self):
        return self.kinds[WRONG] > 0 or self.kinds.total() < LEAST_RUNS

    def share(self):
        return self.kinds.total() / self.total

    def __str__(self):
        kinds = ", ".join(f"{count:,} {kind}" for kind, count in sorted(self.kinds.items()) if kind != WRONG)
        return f"{told(self.kinds.total(), self.total, 'runs', self.seconds)} ({kinds}), {self.kinds[WRONG]} wrong"


class Program:
    """A program under the library that refuses, run in a folder, with a file of it as standard input where one is named and
    there."""

    def __init__(self, name, library, folder, seconds):
        self.name, self.library, self.folder, self.seconds, self.given = name, library, folder, seconds, None

    def run(self, words, settings, folder=None):
        """Gives how a command ended, and how many bytes the library wrote to the descriptor that a setting of None names."""
        folder = folder or self.folder
        given = f"{folder}/{self.given}" if self.given and os.path.isfile(f"{folder}/{self.given}") else os.devnull
        with tempfile.TemporaryFile() as heard, open(given, "rb") as given:
            named = {name: str(heard.fileno() if it is None else it) for name, it in settings.items()}
            how = {"cwd": folder, "env": {**os.environ, "LD_PRELOAD": self.library, **named}}
            ran = subprocess.run([self.name, *words], stdin=given, pass_fds=[heard.fileno()], capture_output=True, **how)
            return (ran.returncode, ran.stdout, ran.stderr), heard.seek(0, os.SEEK_END)

    def asked(self, words, folder=None):
        """How a command ends where no request is refused, and how many it makes."""
        return self.run(words, {"REFUSE_ASKED": None}, folder)

    def tasks(self, words):
        """Each request of the command refused; and the one behind the last, which is none."""
        right, count = self.asked(words)
        return [Task(words, place, on, right, count) for on in (False, True) for place in range(1, count + 2)]

    def of_worker(self):
        """A copy of the folder for this process, so that no run meets what another one writes."""
        folder = f"{self.folder}-{os.getpid()}"
        if not os.path.isdir(folder):
            shutil.copytree(self.folder, folder)
        return folder

    def refused(self, task):
        """Does a task; gives it, how the command ended, how many requests were refused, and which files it left half written."""
        settings, folder = {"REFUSE_AT": task.place, "REFUSE_TOLD": None}, self.of_worker()
        end, refusals = self.run(task.words, {**settings, "REFUSE_ON": 1} if task.on else settings, folder)
        left = [it for it in os.listdir(folder) if it.startswith(WRITTEN)]
        for it in left:
            os.remove(f"{folder}/{it}")
        return task, end, refusals, left

    def judge(self, commands, kind_of):
        """Does all tasks of the commands, or those that the time is enough for. `kind_of` tells by a task and its end what
        kind of run it was; where it is WRONG, a request was not refused that had to be, or a file was left half written though there
        was memory again to remove it, the run is shown."""
        tasks = [it for words in commands for it in self.tasks(words)]
        random.Random(1).shuffle(tasks)
        tally = Tally(Counter(), len(tasks), self.seconds)
        for task, end, refusals, left in judged(self.refused, tasks, self.seconds):
            is_refused = (refusals > 0) == (task.place <= task.count)
            kind = kind_of(task, end) if is_refused and (task.on or not left) else WRONG
            tally.kinds[kind] += 1
            if kind == WRONG:
                behind = " and all behind it" * task.on
                print(f"{' '.join([os.path.basename(self.name), *task.words])}: with request {task.place}{behind} refused, {refusals} times: {end}, left: {left}")
        return tally


def compiled(folder):
    """The library, or None where no compiler compiles it."""
    library = f"{folder}/refuse.so"
    words = ["-O2", "-shared", "-fPIC", "-fno-builtin", "-o", library, f"{TOP}/tests/refuse.c"]
    for compiler in filter(None, map(shutil.which, ("cc", "gcc", "clang"))):
        if subprocess.run([compiler, *words]).returncode == 0:
            return library
    return None


@contextlib.contextmanager
def program(variable, crate):
    """The program of a crate, or the one that a variable names, in a folder of its own. Reads the words of the script,
    and ends it where there is no program, or no compiler for the library."""
    words = argparse.ArgumentParser()
    words.add_argument("--seconds", type=float, help="stop after so long")
    words = words.parse_args()
    name = os.path.abspath(os.environ.get(variable, f"{TOP}/crates/{crate}/out/{crate}"))
    if not os.path.isfile(name):
        sys.exit(f"{name} is not there: rt run in crates/{crate} builds it")
    with tempfile.TemporaryDirectory() as folder:
        library = compiled(folder)
        if library is None:
            print("skipped: no C compiler compiles tests/refuse.c (Debian: gcc, libc6-dev); 0 runs, 0 wrong")
            sys.exit(0)
        os.mkdir(f"{folder}/files")
        yield Program(name, library, f"{folder}/files", words.seconds)
