"""Says whether programs are those that rt proved, made of the very files that are here.

    python3 dist/proved.py [NAME=FILE..]

NAME is a crate of a program, and FILE what was made of it; without words crates/NAME/out/NAME of topotool and togrid. rt has two
records: `rt ci` keeps, beside the kit, the sums of what it proved, under a sum of all that was read (the kit, the crate's files, and
the libraries below it, as they were built); `rt run` leaves out/NAME.stamp, a sum of the crate's files and of the program. Both are
made again here, by the kit's own functions. With a kit whose records can't be read so, a program counts as proved if it is in its
out/, where rt leaves what it proved, and newer than all files that it is made of; a line says so. Prints a line for each program, and
ends with status 1 if one isn't proved.
"""
import copy
import functools
import hashlib
import importlib.machinery
import importlib.util
import json
import os
import subprocess
import sys

TOP = os.path.dirname(os.path.dirname(os.path.abspath(__file__)))
PROGRAMS = ("topotool", "togrid")
# What can be wrong with the records of another kit.
UNREADABLE = (OSError, ImportError, AttributeError, TypeError, ValueError, LookupError, subprocess.SubprocessError)


def load_rt():
    """The kit's rt as a module."""
    kit = os.path.dirname(subprocess.run(["rt", "doc"], capture_output=True, text=True, check=True).stdout.strip())
    sys.dont_write_bytecode = True
    loader = importlib.machinery.SourceFileLoader("rt", f"{kit}/bin/rt")
    made = importlib.util.module_from_spec(importlib.util.spec_from_loader("rt", loader))
    loader.exec_module(made)
    return made


class Records:
    """What rt noted of this checkout."""

    def __init__(self):
        self.rt = load_rt()
        self.lib = self.rt.rtlib
        self.lib.Crate, self.rt.Crate.allowed = self.rt.Crate, self.rt.handles_of(TOP)
        # (made without its own start, which makes the folder of the records)
        self.kept = self.rt.Kept.__new__(self.rt.Kept)
        self.kept.at, self.kept.rlibs, self.places = self.rt.STORE, {}, {}
        os.listdir(self.kept.at)
        self.crates = {it.name: it for it in self.lib.crates_below(f"{TOP}/crates")}

    @functools.lru_cache(maxsize=None)
    def sums(self, name):
        """The sums of the files that `rt ci` made of a crate, by their names; none if it did not prove the crate as it is here, over
        the libraries that are here."""
        crate = self.crates[name]
        if not all(self.is_proved_library(it.name) for it in crate.below()):
            return {}
        key = self.kept.key(crate)
        self.places[name] = self.kept.place(crate, False, key)
        try:
            with open(f"{self.places[name]}/made.json", encoding="utf-8") as file:
                made = json.load(file)
        except FileNotFoundError:
            return {}
        return dict(made["files"]) if made["key"] == key else {}

    @functools.lru_cache(maxsize=None)
    def is_proved_library(self, name):
        """Whether the files of a library in its out/ are those that `rt ci` made."""
        crate, sums = self.crates[name], self.sums(name)
        if not sums or self.kept.made(crate, False) != [*sums]:
            return False
        for number, (file, sum) in enumerate(sums.items()):
            # (mostly two names of one file, which need not be read)
            made, noted = f"{crate.folder}/out/{file}", f"{self.places[name]}/{number}"
            if not (os.path.isfile(noted) and os.path.samefile(made, noted)) and self.lib.sum_of(made) != sum:
                return False
        # As rt notes a library that it has built, for the keys of those above.
        self.kept.rlibs[name] = hashlib.sha256(repr([*sums.items()]).encode()).hexdigest()
        return True

    def is_stamped(self, name, program):
        """Whether `rt run` proved this program of the files that are here."""
        crate = copy.copy(self.crates[name])
        self.rt.read_files(crate)
        noted = self.lib.text_of(f"{crate.folder}/out/{name}.stamp")
        return noted == crate.stamp() + self.lib.sum_of(program) and all(it.is_built() for it in crate.below())

    def is_proved(self, name, program):
        return self.is_stamped(name, program) or self.sums(name).get(name) == self.lib.sum_of(program)


def sources(crate):
    """The files that a crate and those below it are made of, by crates.txt."""
    with open(f"{TOP}/crates.txt", encoding="utf-8") as file:
        rows = [line.partition("#")[0].partition(":")[::2] for line in file]
    below = {name.split()[0]: uses.split() for name, uses in rows if name.strip()}
    found, left = set(), [crate]
    while left:
        it = left.pop()
        if it in below and it not in found:
            found.add(it)
            left += below[it]
    for it in found:
        for part in ("src", "specs", "proofs"):
            for at, _, files in os.walk(f"{TOP}/crates/{it}/{part}"):
                yield from (f"{at}/{name}" for name in files)


def is_newer(made, crate):
    """Whether a file is newer than all that its crate is made of."""
    return os.path.isfile(made) and all(os.stat(it).st_mtime < os.stat(made).st_mtime for it in sources(crate))


def is_left(crate, program):
    """Whether a program is where rt leaves it."""
    return os.path.realpath(program) == os.path.realpath(f"{TOP}/crates/{crate}/out/{crate}")


def unproved(programs):
    """The programs, by their crates, that aren't proved; prints a line for each that is."""
    try:
        records = Records()
        proved = {name: records.is_proved(name, program) for name, program in programs.items()}
        how = "proved by rt, of these files"
    except UNREADABLE as fault:
        proved = {name: is_left(name, program) and is_newer(program, name) for name, program in programs.items()}
        how = f"newer than these files; rt's records can't be read ({fault})"
    for name in filter(proved.get, programs):
        print(f"{programs[name]}: {how}")
    return [name for name in programs if not proved[name]]


def main(words):
    programs = dict(it.split("=", 1) for it in words) or {it: f"{TOP}/crates/{it}/out/{it}" for it in PROGRAMS}
    lacking = unproved(programs)
    for it in lacking:
        print(f"{programs[it]}: NOT proved by rt, of these files")
    return 1 if lacking else 0


if __name__ == "__main__":
    sys.exit(main(sys.argv[1:]))
