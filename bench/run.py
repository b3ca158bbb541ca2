#!/usr/bin/env python3
"""Measures the command on tilings of districts, against reading the same files as JSON values.

    for p in topotool examples; do (cd crates/$p && rt run); done
    python3 bench/run.py

builds the programs and prints a table: for each command its time, how many times the time and the
peak memory of reading its input as values alone it takes, and by how much the time grows when the
map doubles. Times are processor times (user and system), the least of some runs. It also compares
merges of shards, in several orders and shapes, with the build of the whole, byte by byte.
"""

import os
import random
import sys
import tempfile

sys.dont_write_bytecode = True

from measuring import BENCH, GRID, TOOL, end_with, make_topologies, measure_both, need, parser_of, run_once, same_bytes

SHARDS = 16


def compare_merges(folder, whole, shards, seed):
    """Merges in several orders and shapes give the bytes of the whole."""
    rng = random.Random(seed)
    out = os.path.join(folder, "merged.topo.json")
    for shape in ["left", "right", "halves"]:
        order = list(shards)
        rng.shuffle(order)
        run_once([TOOL, "merge", "--shape", shape, *order], out)
        if not same_bytes(out, whole):
            sys.exit(f"merge --shape {shape} differs from the build of the whole")
    print(f"merges of {SHARDS} shards by left, right and halves, each in another order: same bytes")


def commands(folder, whole, shards):
    """The measured commands: title, words, and the files whose values are read for comparison."""
    tiling = os.path.join(folder, "tiling.json")
    return [
        ("features of GeoJSON", [BENCH, "features", tiling], [tiling]),
        ("build", [TOOL, "build", *GRID, "a=" + tiling], [tiling]),
        ("check", [TOOL, "check", whole], [whole]),
        ("merge of one file", [TOOL, "merge", whole], [whole]),
        (f"merge of {SHARDS} shards", [TOOL, "merge", *shards], shards),
        ("feature", [TOOL, "feature", "--layer", "a", whole], [whole]),
        ("mesh", [TOOL, "mesh", whole], [whole]),
        ("mesh --edges interior", [TOOL, "mesh", "--edges", "interior", whole], [whole]),
        ("neighbors", [TOOL, "neighbors", "--layer", "a", whole], [whole]),
    ]


def measure_size(folder, positions, seed, runs):
    """Measures each command at one size: title, of the command and of the values."""
    count, whole, shards = make_topologies(folder, positions, seed, SHARDS)
    compare_merges(folder, whole, shards, seed)
    out = os.path.join(folder, "out")
    results = []
    for title, words, files in commands(folder, whole, shards):
        command, value = measure_both(words, [BENCH, "values", *files], out, runs)
        results.append((title, command, value))
    return count, results


def print_table(sizes):
    (count, small), (double, large) = sizes
    print(f"\n{count} positions, and {double}\n")
    print("| Command | Seconds | Times the value | Memory times the value | Doubled: times the value "
          "| Time grows by |")
    print("|---|---|---|---|---|---|")
    for (title, command, value), (_, more, more_value) in zip(small, large):
        print(
            f"| `{title}` | {command.seconds:.2f} | {command.seconds / value.seconds:.2f} "
            f"| {command.megabytes / value.megabytes:.2f} "
            f"| {more.seconds / more_value.seconds:.2f} | {more.seconds / command.seconds:.2f} |"
        )


def main():
    words = parser_of("Measures the command on tilings of districts.").parse_args()
    need(TOOL, BENCH)
    sizes = []
    for positions in [words.positions, 2 * words.positions]:
        with tempfile.TemporaryDirectory() as folder:
            sizes.append(measure_size(folder, positions, words.seed, words.runs))
    print_table(sizes)


if __name__ == "__main__":
    end_with(main)
