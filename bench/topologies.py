#!/usr/bin/env python3
"""Measures the commands on a topology's text against reading its value alone, and against topojson-client.

    for p in topotool examples; do (cd crates/$p && rt run); done
    python3 bench/topologies.py

Each row is a command of topotool, the reading of the same files as JSON values alone, and, where node and Debian's
package node-vega are installed, what topojson-client does with the same file, by turns in one run: whole processes with
their start. Times are processor times (user and system), the least of some runs. The tilings have about 1,000,000
positions and twice as many, which are measured by the same turns, and then 4,500,000. Beside each ratio stands its goal, which no test asks for; a ratio that misses it
is marked by an exclamation mark. The merge of shards is that of the tiling spread over 256 files.
"""

import os
import shutil
import sys
import tempfile

sys.dont_write_bytecode = True

from measuring import BENCH, HERE, TOOL, by_turns, end_with, make_topologies, need, parser_of, run_once, same_bytes

MODULES = "/usr/share/nodejs"
SHARDS = 256
GREATEST_GROWTH = 2.1
GREATEST_MEMORY = 0.35
GREATEST_MEMORY_OF_SHARDS = 0.2

# the greatest ratio to the value alone that is wanted of each command
GOALS = {"neighbors": 1.6, "mesh": 1.7, "check": 1.7, "merge of one file": 1.7, "feature": 1.9, "merge of shards": 2.3}


def commands(whole, shards):
    """The words of each command, the files whose values are read alone, and what topojson-client is asked."""
    layer = ["--layer", "a"]
    return {
        "neighbors": ([TOOL, "neighbors", *layer, whole], [whole], "neighbors"),
        "mesh": ([TOOL, "mesh", whole], [whole], "mesh"),
        "check": ([TOOL, "check", whole], [whole], None),
        "merge of one file": ([TOOL, "merge", whole], [whole], None),
        "feature": ([TOOL, "feature", *layer, whole], [whole], "feature"),
        "merge of shards": ([TOOL, "merge", *shards], shards, None),
    }


def programs(words, files, asked):
    """The command, the values alone, and topojson-client where it is asked and there."""
    told = [words, [BENCH, "values", *files]]
    if asked and shutil.which("node") and os.path.isdir(f"{MODULES}/topojson-client"):
        told.append(["node", os.path.join(HERE, "others.js"), asked, files[0]])
    return told


def check_merge(folder, whole, shards):
    """The merge of the shards is the topology of the whole."""
    merged = os.path.join(folder, "merged")
    run_once([TOOL, "merge", *shards], merged)
    if not same_bytes(merged, whole):
        sys.exit("the merge of all shards differs from the build of the whole")


def measure_sizes(top, sizes, words):
    """How many positions each size has, and the measures of its rows, all by turns."""
    counts, told = [], {}
    for positions in sizes:
        folder = os.path.join(top, str(positions))
        os.mkdir(folder)
        count, whole, shards = make_topologies(folder, positions, words.seed, SHARDS)
        check_merge(folder, whole, shards)
        counts.append(count)
        for title, row in commands(whole, shards).items():
            told.update({(positions, title, place): each for place, each in enumerate(programs(*row))})
    measures = by_turns(told, os.path.join(top, "out"), words.runs)
    rows = [{title: [] for title in GOALS} for _ in sizes]
    for (positions, title, _), measure in measures.items():
        rows[sizes.index(positions)][title].append(measure)
    return zip(counts, rows)


def marked(ratio, goal):
    """A ratio with its goal."""
    return f"{ratio:.2f} (at most {goal}){'!' if ratio > goal else ''}"


def print_size(count, rows, before):
    """The table of one size, with the growth from the size that is half of it."""
    print(f"\n{count} positions\n")
    print("| Command | Seconds | Times the value | Memory times the value | Times topojson-client | Twice the map |")
    print("|---|---|---|---|---|---|")
    for title, (command, value, *others) in rows.items():
        memory = GREATEST_MEMORY_OF_SHARDS if title == "merge of shards" else GREATEST_MEMORY
        client = marked(command.seconds / others[0].seconds, 1) if others else ""
        growth = marked(command.seconds / before[title][0].seconds, GREATEST_GROWTH) if before else ""
        print(
            f"| {title} | {command.seconds:.2f} | {marked(command.seconds / value.seconds, GOALS[title])} "
            f"| {marked(command.megabytes / value.megabytes, memory)} | {client} | {growth} |",
            flush=True,
        )


def measure_group(sizes, words):
    """Prints the tables of a size and, where it is asked too, of its double."""
    with tempfile.TemporaryDirectory() as top:
        before = None
        for count, rows in measure_sizes(top, sizes, words):
            print_size(count, rows, before)
            before = rows


def main():
    parser = parser_of("Measures the commands on topologies against values and topojson-client.")
    parser.add_argument("--large", type=int, default=4_500_000, help="the positions of a tiling measured alone; 0 for none")
    words = parser.parse_args()
    need(TOOL, BENCH)
    os.environ["NODE_PATH"] = MODULES
    measure_group([words.positions, 2 * words.positions], words)
    if words.large:
        measure_group([words.large], words)


if __name__ == "__main__":
    end_with(main)
