#!/usr/bin/env python3
"""Measures the commands that tell about a file, on a large map, against building or validating it.

    (cd crates/topotool && rt run)
    python3 bench/large.py

A tiling of about 75 MB of GeoJSON is written; once more with an error in each hundredth district, and once with its last
byte missing. Its topology, and one in which each tenth district has another name, are what the others are asked about. Times
are processor times (user and system) of whole processes, the least of some interleaved runs; beside each stands the ratio to
`build`, or to `check` for those that read topologies.
"""

import os
import subprocess
import sys
import tempfile

sys.dont_write_bytecode = True

from generate import features, tiling, write_collection
from measuring import GRID, TOOL, by_turns, build_topology, end_with, need, parser_of

POSITIONS = 4_700_000
FAULTY, RENAMED = 100, 10


def write_maps(folder, positions, seed):
    """Writes the tiling, with its names, with some of them changed, with errors, and without its end."""
    members = [it for row in features(tiling(positions, seed)) for it in row]
    write_collection(os.path.join(folder, "map.json"), members)
    for place, member in enumerate(members):
        if place % RENAMED == 0:
            member["properties"]["name"] += " (new)"
    write_collection(os.path.join(folder, "renamed.json"), members)
    for place, member in enumerate(members):
        if place % FAULTY == 0:
            member["geometry"]["coordinates"][0][7] = [0.5, place]
    write_collection(os.path.join(folder, "faulty.json"), members)
    with open(os.path.join(folder, "map.json"), "rb") as whole, open(os.path.join(folder, "cut.json"), "wb") as cut:
        cut.write(whole.read()[:-1])


def tables(folder):
    """The rows of each table by their titles, of which the first is what the others are compared with; and its name."""
    geojson, faulty, cut, topology, renamed, out = (
        os.path.join(folder, it) for it in ("map.json", "faulty.json", "cut.json", "map.topo.json", "renamed.topo.json", "out.json")
    )
    layer = ["--layer", "a"]
    of_geojson = {
        "build": [TOOL, "build", *GRID, f"a={geojson}"],
        "build -o FILE": [TOOL, "build", *GRID, f"a={geojson}", "-o", out],
        "build --progress": [TOOL, "build", *GRID, f"a={geojson}", "--progress"],
        "faults, none": [TOOL, "faults", *GRID, geojson],
        "faults, one in each hundredth feature": [TOOL, "faults", *GRID, faulty],
        "faults, the last byte missing": [TOOL, "faults", *GRID, cut],
    }
    of_topologies = {
        "check": [TOOL, "check", topology],
        "check --ids": [TOOL, "check", "--ids", topology],
        "check --near 1": [TOOL, "check", "--near", "1", topology],
        "faults, none": [TOOL, "faults", topology],
        "diff, each tenth feature changed": [TOOL, "diff", topology, renamed],
        "feature --seq": [TOOL, "feature", "--seq", *layer, topology],
        "mesh --by row": [TOOL, "mesh", "--by", "row", topology],
        "neighbors --ids --keyed": [TOOL, "neighbors", *layer, "--ids", "--keyed", topology],
        "neighbors --by row": [TOOL, "neighbors", *layer, "--by", "row", topology],
    }
    return (("GeoJSON", geojson, of_geojson), ("topology", topology, of_topologies))


def measure(folder, runs):
    """Prints the tables."""
    for kind, file, rows in tables(folder):
        found = by_turns(rows, os.path.join(folder, "printed"), runs, statuses=(0, 1, 4))
        base = found[next(iter(rows))]
        print(f"\n| Of {os.path.getsize(file) / 1e6:.0f} MB of {kind} | Seconds | Times `{next(iter(rows))}` | MB of memory |\n|---|---|---|---|")
        for title, it in found.items():
            print(f"| {title} | {it.seconds:.2f} | {it.seconds / base.seconds:.2f} | {it.megabytes:.0f} |", flush=True)


def main():
    parser = parser_of(__doc__.splitlines()[0], runs=3)
    parser.set_defaults(positions=POSITIONS)
    parser.add_argument("--write", help="writes the maps into a folder, and measures nothing")
    words = parser.parse_args()
    if words.write:
        return write_maps(words.write, words.positions, words.seed)
    need(TOOL)
    with tempfile.TemporaryDirectory() as folder:
        # another process writes: the peak memory of a measured one counts from its parent's
        words_of_it = [sys.executable, __file__, "--write", folder, "--positions", str(words.positions), "--seed", str(words.seed)]
        subprocess.run(words_of_it, check=True)
        for name in ("map", "renamed"):
            build_topology(os.path.join(folder, f"{name}.json"), os.path.join(folder, f"{name}.topo.json"))
        measure(folder, words.runs)


if __name__ == "__main__":
    end_with(main)
