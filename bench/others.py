#!/usr/bin/env python3
"""Measures commands against topojson-client and GDAL, from a file to a file, by turns in one run.

    (cd crates/topotool && rt run)
    python3 bench/others.py

Each row is a command of topotool and what another tool does with the same topology of a tiling: features, the mesh of
all borders and neighbours by topojson-client (others.js, run by node), and features by GDAL's ogr2ogr. Times are
processor times of whole processes (user and system), starting them and reading files included, the least of some runs.
What is not installed is left out, with a line (Debian: nodejs, node-vega, gdal-bin). What the tools answer is compared by
tests/outside/run.
"""

import os
import shutil
import sys
import tempfile

sys.dont_write_bytecode = True

from measuring import HERE, TOOL, end_with, make_topologies, measure_both, need, parser_of

MODULES = "/usr/share/nodejs"


def rows(topology):
    """What is measured: the command, and the words of both."""
    told = []
    for command, words in {"feature": ["--layer", "a"], "mesh": [], "neighbors": ["--layer", "a"]}.items():
        other = ["node", os.path.join(HERE, "others.js"), command, topology]
        told.append((command, "topojson-client", [TOOL, command, *words, topology], other))
    other = ["ogr2ogr", "-f", "GeoJSON", "/vsistdout/", f"TopoJSON:{topology}"]
    told.append(("feature", "GDAL", [TOOL, "feature", "--layer", "a", topology], other))
    return told


def is_there(other):
    if other == "GDAL":
        return shutil.which("ogr2ogr") is not None
    return shutil.which("node") is not None and os.path.isdir(f"{MODULES}/topojson-client")


def main():
    words = parser_of("Measures commands against topojson-client and GDAL.").parse_args()
    need(TOOL)
    os.environ["NODE_PATH"] = MODULES
    with tempfile.TemporaryDirectory() as folder:
        count, topology, _ = make_topologies(folder, words.positions, words.seed, 0)
        print(f"{count} positions\n\n| Command | topotool | the other | topotool takes | memory |\n|---|---|---|---|---|")
        for command, other, ours, theirs in rows(topology):
            if not is_there(other):
                print(f"skipped: {other} is not installed")
                continue
            mine, its = measure_both(ours, theirs, os.path.join(folder, "out"), words.runs)
            print(
                f"| `{command}` | {mine.seconds:.2f} s, {mine.megabytes:.0f} MB | {other} {its.seconds:.2f} s, "
                f"{its.megabytes:.0f} MB | {mine.seconds / its.seconds:.2f} of it | {mine.megabytes / its.megabytes:.2f} |",
                flush=True,
            )


if __name__ == "__main__":
    end_with(main)
