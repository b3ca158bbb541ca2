#!/usr/bin/env python3
"""Measures bytes and memory for each position: of a tiling's files, of a build, and of the last merge of a tree.

    (cd crates/topotool && rt run)
    python3 bench/slopes.py

A tiling is spread over four shards, which are built and merged by twos; the last merge joins two halves of the map. The size is
doubled as often as is asked for (`--doublings`), and then that of a country is measured. For a continent and a planet, which are
so many bytes of GeoJSON (LARGER), what the last size takes for each position is multiplied: nothing of them is measured.
"""

import os
import sys
import tempfile

sys.dont_write_bytecode = True

from measuring import GRID, TOOL, end_with, make_topologies, need, parser_of, run_once, same_bytes

COUNTRY = 6_300_000
LARGER = {"continent": 5e9, "planet": 60e9}


def measure(folder, positions, seed):
    """Prints the row of one size; gives its positions, and the bytes of GeoJSON, of the topology, of the memory of a build and
    of the last merge, and its seconds."""
    count, whole, shards = make_topologies(folder, positions, seed, 4)
    out = [os.path.join(folder, it) for it in ("left", "right", "merged", "built")]
    run_once([TOOL, "merge", *shards[:2]], out[0])
    run_once([TOOL, "merge", *shards[2:]], out[1])
    merge = run_once([TOOL, "merge", *out[:2]], out[2])
    source = os.path.join(folder, "tiling.json")
    build = run_once([TOOL, "build", *GRID, f"a={source}"], out[3])
    if not same_bytes(out[2], whole):
        sys.exit("the last merge has other bytes than one build of everything")
    sizes = [os.path.getsize(source), os.path.getsize(whole), build.megabytes * 2**20, merge.megabytes * 2**20]
    print(f"| {count} | {' | '.join(f'{it / count:.1f}' for it in sizes)} | {1e6 * merge.seconds / count:.2f} |", flush=True)
    return count, *sizes, merge.seconds


def two_digits(number):
    return f"{float(f'{number:.2g}'):g}"


def print_larger(country):
    """Prints the table of a country, as it was measured, and of larger maps by what it takes for each position."""
    print("\n| Map | Millions of positions | GB of GeoJSON | GB of the topology | GB of memory of a build | GB of memory of the last merge | Seconds of the last merge |")
    print("|---|---|---|---|---|---|---|")
    for name, size in {"country": country[1], **LARGER}.items():
        factor = size / country[1]
        given = [country[0] / 1e6, *(it / 1e9 for it in country[1:5]), country[5]]
        print(f"| {name} | {' | '.join(two_digits(factor * it) for it in given)} |")


def main():
    parser = parser_of(__doc__.splitlines()[0])
    parser.add_argument("--doublings", type=int, default=2)
    parser.add_argument("--country", type=int, default=COUNTRY, help="its positions")
    words = parser.parse_args()
    need(TOOL)
    print("| Positions | Bytes of GeoJSON | Bytes of the topology | Memory of a build | Memory of the last merge | Microseconds of the last merge |")
    print("|---|---|---|---|---|---|")
    for positions in [*(words.positions * 2**it for it in range(words.doublings + 1)), words.country]:
        with tempfile.TemporaryDirectory() as folder:
            last = measure(folder, positions, words.seed)
    print_larger(last)


if __name__ == "__main__":
    end_with(main)
