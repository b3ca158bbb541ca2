#!/usr/bin/env python3
"""Measures, by the clock, a map that many processes build and merge, against one build of all of it.

    (cd crates/topotool && rt run)
    python3 bench/many_hands.py

A tiling is cut into shards. make runs examples/many-hands/Makefile over them with one process for each processor: each shard is
built by itself, and the topologies are merged sixteen at a time. Both ways run by turns, and have to give the same bytes. The
last line is the ratio of the least times, beside its goal, which no test asks for.
"""

import os
import subprocess
import sys
import tempfile
import time

sys.dont_write_bytecode = True

from measuring import TOOL, TOP, Failed, end_with, need, parser_of, same_bytes, write_tiling

MAKEFILE = os.path.join(TOP, "examples", "many-hands", "Makefile")
GRID = "1,1,0,0"
GREATEST = 0.7


def seconds_of(words, out=None, **more):
    """How long a program takes by the clock, with its output in a file."""
    begun = time.monotonic()
    with open(out or os.devnull, "wb") as file:
        ran = subprocess.run(words, stdout=file, check=False, **more)
    if ran.returncode != 0:
        raise Failed(f"{' '.join(words[:3])} ended with {ran.returncode}")
    return time.monotonic() - begun


def build_at_once(shards, out):
    return seconds_of([TOOL, "build", "--grid", GRID, *("districts=" + shard for shard in shards)], out)


def build_apart(folder, built, hands):
    words = ["make", "-s", f"-j{hands}", "-f", MAKEFILE, f"GRID={GRID}", f"IN={folder}", f"OUT={built}"]
    return seconds_of(words, env={**os.environ, "TOPOTOOL": TOOL})


def main():
    parser = parser_of(__doc__.splitlines()[0], runs=3)
    parser.set_defaults(positions=4_500_000)
    parser.add_argument("--shards", type=int, default=64)
    parser.add_argument("--hands", type=int, default=os.cpu_count())
    words = parser.parse_args()
    need(TOOL)
    with tempfile.TemporaryDirectory() as top:
        positions = write_tiling(top, words.positions, words.seed, words.shards)
        folder = os.path.join(top, "shards")
        os.mkdir(folder)
        shards = [os.path.join(folder, f"{number:03}.geojson") for number in range(words.shards)]
        for number, shard in enumerate(shards):
            os.rename(os.path.join(top, f"shard_{number:02}.json"), shard)
        whole = os.path.join(top, "whole.topo.json")
        at_once, apart = [], []
        for run in range(words.runs):
            built = os.path.join(top, f"built-{run}")
            at_once.append(build_at_once(shards, whole))
            apart.append(build_apart(folder, built, words.hands))
            if not same_bytes(whole, os.path.join(built, "whole.topo.json")):
                sys.exit("the bytes differ")
        ratio = min(apart) / min(at_once)
        print(f"{positions} positions, {words.shards} shards, {words.hands} processes: the same bytes")
        print(f"one build {min(at_once):.2f} s, built apart and merged {min(apart):.2f} s")
        print(f"{ratio:.2f} times (at most {GREATEST}){'' if ratio <= GREATEST else '!'}")


if __name__ == "__main__":
    end_with(main)
