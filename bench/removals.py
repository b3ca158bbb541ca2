#!/usr/bin/env python3
"""Measures taking features out of a topology, against building the topology of what is left.

    (cd crates/examples && rt run)
    python3 bench/removals.py

builds the program and prints, for tilings of two sizes or more (`--doublings`), what it takes to take out one district, the
first half of the rows, and every second district as on a chequered board, and what building the
topology of what is left takes, each without reading files or writing the text: a program that does
it many times (`--times` removals, and a quarter as many builds) is compared with one that does it
once; where other programs use the machine, reading the files takes now more and now less, so few
times tell little. Times are processor times (user and
system), the least of some runs; all sizes are measured by the same turns. The texts of both are
compared byte by byte. The goal, which no test asks for: at most 0.4 times the build, and at most 2.2 times as long
for the double, for each doubling and in their mean. Where what a removal reads and writes outgrows a cache of the machine,
one doubling takes longer than others, so several tell more than one:

    python3 bench/removals.py --positions 250000 --doublings 4
"""

import os
import sys
import tempfile

sys.dont_write_bytecode = True

from generate import features, tiling, write_collection
from measuring import BENCH, by_turns, end_with, need, parser_of, same_bytes

GREATEST_RATIO = 0.4
GREATEST_GROWTH = 2.2

# which districts are taken out, by row, place in the row, and the number of rows
REMOVALS = {
    "one": lambda row, place, rows: (row, place) == (rows // 2, rows // 2),
    "half": lambda row, place, rows: row < rows // 2,
    "chequered": lambda row, place, rows: (row + place) % 2 == 0,
}


def write_removal(folder, rows, is_removed):
    """Writes the whole tiling, the districts to take out, and those that stay."""
    districts = [
        (is_removed(row, place, len(rows)), district)
        for row, members in enumerate(rows)
        for place, district in enumerate(members)
    ]
    parts = {
        "whole": [district for _, district in districts],
        "removed": [district for removed, district in districts if removed],
        "left": [district for removed, district in districts if not removed],
    }
    for name, members in parts.items():
        write_collection(os.path.join(folder, name), members)


def programs(folder, count):
    """The words of each mode that does its work so many times."""
    whole, removed, left = [os.path.join(folder, name) for name in ("whole", "removed", "left")]
    return {"remove": [BENCH, "remove", str(count), whole, removed], "build": [BENCH, "build", str(count), left]}


def measure_sizes(folders, runs, times):
    """The seconds of one removal and of one build of what is left, for each size, all by turns; both texts are equal."""
    with tempfile.TemporaryDirectory() as outs:
        out, removed = os.path.join(outs, "out"), os.path.join(outs, "removed")

        def look(key):
            if key[-1] == "remove":
                os.replace(out, removed)
            elif not same_bytes(out, removed):
                sys.exit("the texts differ")

        counts = {"remove": times, "build": -(-times // 4)}
        words = {
            (folder, count, mode): programs(folder, count)[mode]
            for folder in folders
            for mode in counts
            for count in (0, counts[mode])
        }
        measures = by_turns(words, out, runs, look)
    seconds = lambda folder, mode, count: (measures[folder, count, mode].seconds - measures[folder, 0, mode].seconds) / count
    return [[seconds(folder, *each) for each in counts.items()] for folder in folders]


def tell(line, misses):
    """Prints a line, and where it misses the goal."""
    print(f"{line} (past the goal)" if misses else line, flush=True)


def tell_size(name, count, remove, build, before):
    """Prints what one removal takes, beside the build and beside the size before."""
    line = f"{count} positions, {name}: remove {remove:.3f} s, build {build:.3f} s, {remove / build:.2f} of it"
    misses = remove > GREATEST_RATIO * build
    if before is not None:
        line += f"; remove grows by {remove / before:.2f}"
        misses = misses or remove > GREATEST_GROWTH * before
    tell(line, misses)


def tell_growth(name, removes):
    """Prints by how much one removal grows for the double, in the geometric mean of several doublings; nothing where a
    removal took too little time to tell."""
    doublings = len(removes) - 1
    if doublings > 1 and min(removes) > 0:
        growth = (removes[-1] / removes[0]) ** (1 / doublings)
        tell(f"{name}: remove grows by {growth:.2f} for the double, in the mean of {doublings}", growth > GREATEST_GROWTH)


def measure_removal(name, tilings, words):
    """Prints what one removal takes at each size."""
    with tempfile.TemporaryDirectory() as top:
        folders = [os.path.join(top, str(number)) for number in range(len(tilings))]
        for folder, (_, rows) in zip(folders, tilings):
            os.mkdir(folder)
            write_removal(folder, rows, REMOVALS[name])
        removes = []
        for (count, _), (remove, build) in zip(tilings, measure_sizes(folders, words.runs, words.times)):
            tell_size(name, count, remove, build, removes[-1] if removes else None)
            removes.append(remove)
        tell_growth(name, removes)


def main():
    parser = parser_of("Measures taking features out of a topology.")
    parser.add_argument("--times", type=int, default=40)
    parser.add_argument("--doublings", type=int, default=1)
    words = parser.parse_args()
    need(BENCH)
    tilings = []
    for positions in [2**doubling * words.positions for doubling in range(words.doublings + 1)]:
        rows = features(tiling(positions, words.seed))
        tilings.append((sum(len(each["geometry"]["coordinates"][0]) for row in rows for each in row), rows))
    for name in REMOVALS:
        measure_removal(name, tilings, words)


if __name__ == "__main__":
    end_with(main)
