#!/usr/bin/env python3
"""Measures cutting arcs again, against building the topology of both maps together.

    (cd crates/examples && rt run)
    python3 bench/recut.py

builds the program and prints, for tilings of two sizes, what cutting the arcs of their two halves
again takes, and what building the whole takes, each without reading the files or writing the text: a
program that does it several times is compared with one that does it once. Times are processor times (user and
system), taken by turns, and the least of some runs counts. It also compares the numbers of arcs.
"""

import json
import os
import sys
import tempfile

sys.dont_write_bytecode = True

from measuring import BENCH, end_with, need, parser_of, run_once, write_tiling


def write_halves(folder, positions, seed):
    """Writes the halves of a tiling, and answers how many positions it has and their files."""
    count = write_tiling(folder, positions, seed, 2)
    return count, [os.path.join(folder, f"shard_{half:02}.json") for half in (0, 1)]


def arcs_told(mode, out):
    """How many arcs a run has told: by their number, or by the text of the topology."""
    with open(out, encoding="utf-8") as file:
        return int(file.read().split()[0]) if mode == "recut" else len(json.load(file)["arcs"])


def seconds_each(halves, folder, runs, times):
    """The seconds of cutting again and of building, once each."""
    out = os.path.join(folder, "out")
    least = {}
    for _ in range(runs):
        told = set()
        for mode in ["recut", "build"]:
            for count in [0, times]:
                seconds = run_once([BENCH, mode, str(count), *halves], out).seconds
                least[mode, count] = min(seconds, least.get((mode, count), seconds))
            told.add(arcs_told(mode, out))
        if len(told) != 1:
            sys.exit("the numbers of arcs differ")
    return [(least[mode, times] - least[mode, 0]) / times for mode in ["recut", "build"]]


def main():
    parser = parser_of("Measures cutting arcs again.")
    parser.add_argument("--times", type=int, default=20)
    words = parser.parse_args()
    need(BENCH)
    before = None
    for positions in [words.positions, 2 * words.positions]:
        with tempfile.TemporaryDirectory() as folder:
            count, halves = write_halves(folder, positions, words.seed)
            recut, build = seconds_each(halves, folder, words.runs, words.times)
        told = f"{count} positions: recut {recut:.3f} s, build {build:.3f} s, {recut / build:.2f} of it"
        print(told if before is None else f"{told}; recut grows by {recut / before:.2f}", flush=True)
        before = recut


if __name__ == "__main__":
    end_with(main)
