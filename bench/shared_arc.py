#!/usr/bin/env python3
"""Compares what topologies cost in which very many features use one long arc with what an ordinary one of the same length costs.

    (cd crates/topotool && rt run)
    python3 bench/shared_arc.py [--size N] [--map NAME] [--command NAME]

Each text is one of bench/growth.py in which N features use one arc of N positions: as this tool writes it, cut where no junction
is, in another order, with the arc twice, with features that tie, and refused for a fault in the last feature. Such a text means
far more than it says. The ordinary one is the topology of a tiling (bench/generate.py) about as long.

Each row is a command on such a text: its instructions, by valgrind, and its peak memory above what the program takes for
nothing, as multiples of those of the same command on the ordinary text. Above 3 times the instructions or 1.5 times the memory a
row is marked by an exclamation mark and counted, and then the status is 1. `feature` and `neighbors` are left out: their answers
are the square of such a text. It needs valgrind.
"""

import os
import sys
import tempfile
from concurrent.futures import ThreadPoolExecutor

sys.dont_write_bytecode = True

from growth import commands, measures, megabytes, shared_arcs, write
from measuring import TOOL, build_topology, end_with, need, parser_of, write_tiling

INSTRUCTIONS, MEMORY = 3, 1.5
POSITIONS_A_BYTE = 0.08  # of the topology of a tiling, about


def write_ordinary(folder, length, seed):
    """The topology of a tiling that is about so many bytes long."""
    source, built = os.path.join(folder, "tiling.json"), os.path.join(folder, "tiling.topo.json")
    positions = length * POSITIONS_A_BYTE
    for _ in range(3):
        write_tiling(folder, int(positions), seed, 0)
        build_topology(source, built)
        positions *= length / os.path.getsize(built)
    return built


def marked(ratio, limit):
    return f"{ratio:.2f}{'!' if ratio > limit else ''}"


def row(name, command, it, ordinary):
    """A row of the table, and whether a multiple in it is too great."""
    ratios = it[0] / ordinary[0], max(it[1], 0.1) / max(ordinary[1], 0.1)
    print(f"| {name} | {command} | {it[0] / 1e6:,.1f} | {it[1]:.1f} | {marked(ratios[0], INSTRUCTIONS)} | {marked(ratios[1], MEMORY)} |", flush=True)
    return ratios[0] > INSTRUCTIONS or ratios[1] > MEMORY


def main():
    parser = parser_of("Compares topologies whose features use one long arc with ordinary ones.")
    parser.add_argument("--size", type=int, default=8_000)
    parser.add_argument("--map", default="")
    parser.add_argument("--command", default="")
    words = parser.parse_args()
    need(TOOL)
    with ThreadPoolExecutor(os.cpu_count()) as pool, tempfile.TemporaryDirectory() as folder:
        nothing, asked = megabytes([TOOL, "--version"]), {}
        texts = {name: write(os.path.join(folder, f"{name}.topo.json"), text)
                 for name, text in shared_arcs(words.size).items() if words.map in name}
        ordinary = write_ordinary(folder, os.path.getsize(next(iter(texts.values()))), words.seed)
        print(f"{os.path.getsize(ordinary):,} bytes of an ordinary topology; {', '.join(f'{os.path.getsize(it):,}' for it in texts.values())} of others\n")
        for name, built in [("ordinary", ordinary), *texts.items()]:
            for command, run in commands(f"one arc, {name}", None, built).items():
                if words.command in command:
                    asked[name, command] = pool.submit(measures, run, nothing)
        print("| Map | Command | Millions of instructions | Megabytes | Instructions, times | Memory, times |\n|---|---|---|---|---|---|")
        over = [row(name, command, it.result(), asked["ordinary", command].result()) for (name, command), it in asked.items()]
    print(f"shared_arc: {len(over)} rows, {sum(over)} are too much")
    return 1 if any(over) else 0


if __name__ == "__main__":
    end_with(main)
