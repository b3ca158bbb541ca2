#!/usr/bin/env python3
"""Measures merging over shards that keep their map and over shards that keep their topology.

    for p in topotool examples; do (cd crates/$p && rt run); done
    python3 bench/merges.py

builds the programs and prints, for tilings that are spread over 16 and over 256 shards, what merging
takes in each grouping, with plans that are run as they stand, and what the command takes, which
chooses its own grouping; each in times of reading the shards' values alone. Then the same for twice
as many shards of the same size, and so on, as often as is asked for (`--doublings`). Times are
processor times (user and system), the least of some runs; all sizes are measured by the same turns.
All texts are compared byte by byte with the build of the whole.
"""

import os
import sys
import tempfile

sys.dont_write_bytecode = True

from measuring import BENCH, TOOL, by_turns, end_with, make_topologies, need, parser_of, same_bytes

SHAPES = ["left", "right", "halves"]


def rows(shards):
    """What is measured: titles and words."""
    told = {"value alone": [BENCH, "values", *shards], "merge": [TOOL, "merge", *shards]}
    for kind in ["whole", "cut"]:
        for shape in SHAPES:
            told[f"{kind}, {shape}"] = [BENCH, "merge", kind, shape, *shards]
    return told


def measure_sizes(sizes, out, runs):
    """The measures of each row at each size, all by turns: every merge prints the topology of the whole."""
    programs = {(size, title): words for size, (_, _, shards) in enumerate(sizes) for title, words in rows(shards).items()}

    def look(key):
        size, title = key
        if title != "value alone" and not same_bytes(out, sizes[size][1]):
            sys.exit(f"{title}: another text than that of the whole")

    measures = by_turns(programs, out, runs, look)
    return [{title: measures[size, title] for title in rows(shards)} for size, (_, _, shards) in enumerate(sizes)]


def print_rows(count, shards, measures, before):
    value = measures["value alone"]
    print(f"\n{shards} shards, {count} positions; the values alone {value.seconds:.2f} s\n")
    print("| Merge | Seconds | Times the values | Memory times the values | Twice the shards |")
    print("|---|---|---|---|---|")
    for title, each in measures.items():
        growth = f"{each.seconds / before[title].seconds:.2f}" if before else ""
        print(
            f"| {title} | {each.seconds:.2f} | {each.seconds / value.seconds:.2f} "
            f"| {each.megabytes / value.megabytes:.2f} | {growth} |",
            flush=True,
        )


def measure_shards(folder, shards, words):
    """Prints the rows of a tiling over this many shards, and of each twice as large over twice as many."""
    sizes = []
    for times in [2**doubling for doubling in range(words.doublings + 1)]:
        part = os.path.join(folder, str(times))
        os.mkdir(part)
        sizes.append(make_topologies(part, times * words.positions, words.seed, times * shards))
    before = None
    for (count, _, parts), measures in zip(sizes, measure_sizes(sizes, os.path.join(folder, "out"), words.runs)):
        print_rows(count, len(parts), measures, before)
        before = measures


def main():
    parser = parser_of("Measures merging over both kinds of shards.", runs=3)
    parser.add_argument("--doublings", type=int, default=1)
    parser.add_argument("--shards", type=int, nargs="+", default=[16, 256])
    words = parser.parse_args()
    need(TOOL, BENCH)
    for shards in words.shards:
        with tempfile.TemporaryDirectory() as folder:
            measure_shards(folder, shards, words)


if __name__ == "__main__":
    end_with(main)
