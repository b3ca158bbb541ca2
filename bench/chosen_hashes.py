#!/usr/bin/env python3
"""Measures what texts cost that were chosen so that their hashes or leading bytes agree.

    (cd crates/topotool && rt run)
    python3 bench/chosen_hashes.py
    python3 bench/chosen_hashes.py --limit 10 --seconds 160

The hash of the kit's `indexmap` has no secret, so whoever writes a text can choose its arcs by their hashes:
bench/chosen_hashes.c finds lines whose arcs all begin their look-ups at one place of such a table. Names of layers,
members of properties and features are in trees and sorted lists, by their bytes, so of these the leading bytes are
chosen to agree.

The script makes a map of chosen arcs, layers, members or features, and one of as many others of the same size, runs
each command on both by turns, looks whether each text is right, and prints a table of the processor times (the least of
some runs) and their ratio; where it is above 1.5, both are run more often. It ends with a line of counts, with status 1
where a ratio is above the limit (1.5, where no other is given), a text is wrong or a command fails, and with 2 where no
program is there. Where no C compiler compiles what finds the lines, it says that it was skipped.

How long a run takes moves with what else the machine does, but a table whose entries all meet at one place takes
hundreds of times as long: so the second line, of a gate, has a limit of ten. One run that the machine held up has come
above it, so a ratio above the limit counts only if it stays there when both are run five times more. With a limit of
time the rest stops there, also while lines are looked for; once they are found, each command on arcs is run once.
"""

import argparse
import json
import os
import random
import shutil
import subprocess
import sys
import tempfile
import time

sys.dont_write_bytecode = True

from generate import write_collection
from measuring import GRID, HERE, TOOL, Failed, end_with, need, run_once, same_bytes, stop

SOURCE = os.path.join(HERE, "chosen_hashes.c")
COMPILERS = ["cc", "gcc", "clang"]
GREATEST_RATIO = 1.5
MOST_SECONDS = 60  # of one run on 200,000 of anything, which takes half a second
AGAIN = 5  # runs of what is above the limit, also when the time is over
MOST_FINDING = 1200  # seconds that finding the lines may take where no limit of time is given
ENDS_LIMIT = 1 << 20  # the chosen ends have y below this


class Late(Exception):
    """The time was over before the lines were found."""


class Clock:
    """Tells what is left of the seconds since it was made; None is no limit."""

    def __init__(self, seconds):
        self.seconds, self.end = seconds, time.monotonic() + (seconds or float("inf"))

    def is_over(self):
        return time.monotonic() > self.end

    def left_to_find(self):
        return max(0, min(self.end - time.monotonic(), MOST_FINDING))

    def late(self):
        return Late() if self.seconds else Failed(f"no lines were found in {MOST_FINDING} seconds")


def compiled_finder(folder):
    """Compiles the program that finds lines, and answers its path; None where no compiler compiles it."""
    finder = os.path.join(folder, "chosen_hashes")
    for compiler in filter(None, map(shutil.which, COMPILERS)):
        if subprocess.run([compiler, "-O2", "-pthread", SOURCE, "-o", finder]).returncode == 0:
            return finder
    return None


def chosen_ends(finder, lines, clock):
    """The ends of lines from (0,0) whose hashes agree."""
    try:
        ran = subprocess.run([finder, str(lines)], stdout=subprocess.PIPE, text=True, timeout=clock.left_to_find())
    except subprocess.TimeoutExpired:
        raise clock.late() from None
    if ran.returncode != 0:
        stop("no lines were found")
    return [tuple(map(int, line.split())) for line in ran.stdout.splitlines()]


def other_ends(chosen, seed):
    """As many other ends, from the same box, each once."""
    chance = random.Random(seed)
    width = max(x for x, _ in chosen)
    ends = set()
    while len(ends) < len(chosen):
        ends.add((chance.randint(1, width), chance.randrange(ENDS_LIMIT)))
    return sorted(ends)


def chosen_names(count, seed):
    """Names whose leading bytes agree, in no order."""
    names = ["n" * 40 + f"{number:08d}" for number in range(count)]
    random.Random(seed).shuffle(names)
    return names


def other_names(count, seed):
    """As many names of as many bytes, in which the first bytes differ."""
    chance = random.Random(seed)
    return [f"{chance.randrange(16**8):08x}" + f"{number:08d}" + "n" * 32 for number in range(count)]


def point(number, **members):
    geometry = {"type": "Point", "coordinates": [number, 0]}
    return {"type": "Feature", "geometry": geometry, **members}


def lines_to(ends):
    geometries = [{"type": "LineString", "coordinates": [(0, 0), end]} for end in ends]
    return [{"type": "Feature", "id": number, "geometry": it} for number, it in enumerate(geometries)]


def points_with_members(names):
    """Two points that have the names as members of their properties, each a half of them."""
    half = len(names) // 2
    return [point(place, properties=dict.fromkeys(some, 1)) for place, some in enumerate([names[:half], names[half:]])]


def points_of_features(names):
    """A point for each name, which tells them apart: by their ids and places they are alike."""
    return [point(0, id="one", properties={"name": name}) for name in names]


class Files:
    """The texts of a map: GeoJSON where it has one layer, its topology, and the topologies of its halves."""

    def __init__(self, folder, title, tool):
        self.name, self.tool = os.path.join(folder, title), tool
        self.geojson = self.whole = self.halves = None
        self.lines = []

    def of_features(self, members):
        half = len(members) // 2
        self.geojson = self.write(".json", members)
        self.whole = self.build(self.geojson, ".topo.json")
        parts = [("first", members[:half]), ("second", members[half:])]
        self.halves = [self.build(self.write(f".{part}.json", some), f".{part}.topo.json") for part, some in parts]
        geometries = [it["geometry"] for it in members]
        self.lines = sorted(tuple(sorted(map(tuple, it["coordinates"]))) for it in geometries if it["type"] == "LineString")
        return self

    def of_layers(self, names):
        placed, half = [*enumerate(names)], len(names) // 2
        self.whole = self.write_layers(".topo.json", placed)
        self.halves = [self.write_layers(".first.topo.json", placed[:half]), self.write_layers(".second.topo.json", placed[half:])]
        return self

    def write(self, ending, members):
        write_collection(self.name + ending, members)
        return self.name + ending

    def write_layers(self, ending, placed):
        objects = {name: {"type": "Point", "coordinates": [place, 0]} for place, name in placed}
        transform = {"scale": [1, 1], "translate": [0, 0]}
        with open(self.name + ".given.json", "w") as file:
            file.write(json.dumps({"type": "Topology", "transform": transform, "objects": objects, "arcs": []}))
        return self.run(["merge", self.name + ".given.json"], ending)

    def build(self, geojson, ending):
        return self.run(["build", *GRID, "a=" + geojson], ending)

    def run(self, words, ending):
        run_once([self.tool, *words], self.name + ending, MOST_SECONDS)
        return self.name + ending

    # Whether the text that a command printed is right.

    def is_whole(self, out):
        return same_bytes(out, self.whole)

    def is_rest(self, out):
        """What is left without the first half, and the first half, are the whole."""
        return self.is_whole(self.run(["merge", out, self.halves[0]], ".again.topo.json"))

    def is_mesh(self, out):
        with open(out, encoding="utf-8") as file:
            return sorted(tuple(sorted(map(tuple, it))) for it in json.load(file)["coordinates"]) == self.lines

    def commands(self):
        """The measured commands: title, words, and what tells whether the text is right."""
        builds = [("build", ["build", *GRID, "a=" + self.geojson], self.is_whole)] if self.geojson else []
        return builds + [
            ("check", ["check", self.whole], lambda out: os.path.getsize(out) == len("canonical\n")),
            ("merge of one file", ["merge", self.whole], self.is_whole),
            ("merge of two halves", ["merge", *self.halves], self.is_whole),
            ("remove of a half", ["remove", self.whole, self.halves[0]], self.is_rest),
            ("mesh", ["mesh", self.whole], self.is_mesh),
        ]


class Command:
    """A command on what was chosen and on the others, with the least seconds of each so far."""

    def __init__(self, title, tool, out, both):
        self.title, self.tool, self.out, self.both = title, tool, out, both
        self.seconds = [float("inf")] * len(both)
        self.is_right = True

    def run(self, is_judged=False):
        for place, (words, is_right) in enumerate(self.both):
            taken = run_once([self.tool, *words], self.out, MOST_SECONDS).seconds
            self.seconds[place] = min(self.seconds[place], taken)
            if is_judged:
                self.is_right = self.is_right and is_right(self.out)

    def ratio(self):
        return self.seconds[0] / self.seconds[1]


def given_names(count, seed):
    return chosen_names(count, seed), other_names(count, seed)


def given_ends(finder, count, seed, clock):
    ends = chosen_ends(finder, count, clock)
    return ends, other_ends(ends, seed)


def made(folder, tool, kind, both, features=None):
    """The files of what was chosen, and those of the others."""
    files = [Files(folder, f"{kind}.{which}", tool) for which in ("chosen", "others")]
    return kind, [it.of_features(features(given)) if features else it.of_layers(given) for it, given in zip(files, both)]


def maps(folder, finder, words, clock):
    """What is measured, one kind after the other: each is made when it is asked for."""
    yield made(folder, words.tool, "arcs", given_ends(finder, words.lines, words.seed, clock), lines_to)
    names = given_names(words.lines, words.seed)
    yield made(folder, words.tool, "members", names, points_with_members)
    yield made(folder, words.tool, "features", names, points_of_features)
    yield made(folder, words.tool, "layers", names)


COMMANDS = 23  # six on arcs, on members and on features, and five on layers, which `build` takes one by one


def measured_once(folder, finder, words, clock):
    """Runs each command once on both, and looks at the texts; where the time is over, those on arcs alone."""
    try:
        for kind, both in maps(folder, finder, words, clock):
            for (title, chosen, is_right), (_, others, are_right) in zip(*(it.commands() for it in both)):
                if kind != "arcs" and clock.is_over():
                    return
                command = Command(f"{title}, {kind}", words.tool, os.path.join(folder, "out"), [(chosen, is_right), (others, are_right)])
                command.run(is_judged=True)
                yield command
    except Late:
        return


def measure(folder, finder, words, clock):
    """Runs each command once on both, and then more often, until the time is over."""
    measured = [*measured_once(folder, finder, words, clock)]
    for number in range(1, 2 * words.runs):
        for it in measured:
            if not clock.is_over() and (number < words.runs or it.ratio() > GREATEST_RATIO):
                it.run()
    for it in measured * AGAIN:
        if it.ratio() > words.limit:
            it.run()
    return measured


def print_table(lines, measured):
    print(f"\n{lines} arcs of two positions, members of properties, features and layers\n")
    print("| Command | Seconds, chosen | Seconds, others | Ratio |")
    print("|---|---|---|---|")
    for it in measured:
        print(f"| `{it.title}` | {it.seconds[0]:.2f} | {it.seconds[1]:.2f} | {it.ratio():.2f} |")


def tell(measured, limit, seconds):
    """Prints what is wrong, and the line of counts; answers the status."""
    texts = [it.title for it in measured if not it.is_right]
    above = [it.title for it in measured if it.ratio() > limit]
    if texts:
        print("another text: " + ", ".join(texts))
    if above:
        print(f"more than {limit} times as long: " + ", ".join(above))
    done = f"{len(measured)} commands" if len(measured) == COMMANDS else f"stopped after {seconds} s: {len(measured)} of {COMMANDS} commands"
    greatest = max(it.ratio() for it in measured)
    print(f"\n{done}, at most {greatest:.2f} times as long, {len({*texts, *above})} wrong")
    return 1 if texts or above else 0


def main():
    parser = argparse.ArgumentParser(description="Measures texts that were chosen by their hashes or leading bytes.")
    parser.add_argument("--lines", type=int, default=200_000)
    parser.add_argument("--seed", type=int, default=1)
    parser.add_argument("--runs", type=int, default=3)
    parser.add_argument("--limit", type=float, default=GREATEST_RATIO, help="the greatest ratio that is not wrong")
    parser.add_argument("--seconds", type=float, help="stop after so long")
    parser.add_argument("--tool", default=TOOL)
    words = parser.parse_args()
    if words.lines < 2 or words.runs < 1:
        stop("at least two lines and one run are needed")
    need(words.tool)
    clock = Clock(words.seconds)
    with tempfile.TemporaryDirectory() as folder:
        finder = compiled_finder(folder)
        if finder is None:
            print(f"skipped: no C compiler compiles {SOURCE} ({', '.join(COMPILERS)}; Debian: gcc, libc6-dev); 0 commands, 0 wrong")
            return 0
        measured = measure(folder, finder, words, clock)
    if not measured:
        print(f"stopped after {words.seconds} s, when the lines were not found: 0 of {COMMANDS} commands, 0 wrong")
        return 0
    print_table(words.lines, measured)
    return tell(measured, words.limit, words.seconds)


if __name__ == "__main__":
    end_with(main)
