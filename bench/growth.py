#!/usr/bin/env python3
"""Measures how each command grows on awkward maps, from a size to its double, by instructions and by peak memory.

    (cd crates/topotool && rt run)
    python3 bench/growth.py [--size N] [--map NAME] [--command NAME]

Tilings are kind to a program: each arc has two users, each vertex a few arcs, each ring a hundred positions. These maps are
not: a star, a comb, many layers on one arc, features equal but for their ids, many small rings, one border that all features
share, also with one value, lines over one another, a ring that visits a vertex again and again; and topologies in which as
many features as an arc has positions use that arc: as this tool writes them, cut where no junction is, in another order, with
the arc twice, with a position or a member twice, with features that tie out of their order, and with a fault in the last
feature. Such a text means far more than it says, so a command that stitches each feature takes the square of its length.
`diff` has newer texts, in which the arc has a vertex more, or many features are points of it; `faults` one with many faults
in a feature with a long id.

Each row is a command on a map: its instructions at the size, by valgrind, and its peak memory above what the program takes
for nothing, and how both grow when the size doubles. A growth above 2.3 is marked by an exclamation mark and counted, and
then the status is 1. `feature` and `neighbors` are left out where the answer is itself the square of the text. It needs
valgrind.
"""

import json
import os
import re
import subprocess
import sys
import tempfile
from concurrent.futures import ThreadPoolExecutor

sys.dont_write_bytecode = True

from measuring import GRID, TOOL, Failed, build_topology, end_with, need, parser_of, run_once

GREATEST = 2.3
LEAST_MEGABYTES = 1  # of a growth below that nothing is told: it is the allocator's
UNIT = {"scale": [1, 1], "translate": [0, 0]}
FAULTY = "many faults of a feature with a long id"


def feature(kind, coordinates, number=None):
    told = {"type": "Feature", "geometry": {"type": kind, "coordinates": coordinates}, "properties": {}}
    return told if number is None else {**told, "id": number}


def star(size):
    return [feature("LineString", [[0, 0], [1 + step, step * step % 1009]]) for step in range(size)]


def comb(size):
    teeth = [[2 * tooth + side, 1000 * ((tooth + turn) % 2)] for tooth in range(size) for turn, side in ((0, 0), (0, 1))]
    ring = [[0, -10], *teeth, [2 * size, -10], [0, -10]]
    return [feature("Polygon", [ring])]


def equal_but_for_ids(size):
    ring = [[step, step * step] for step in range(50)] + [[0, 0]]
    return [feature("Polygon", [ring], number) for number in range(size)]


def small_rings(size):
    told = []
    for number in range(size):
        x, y = 3 * (number % 100), 3 * (number // 100)
        told.append(feature("Polygon", [[[x, y], [x + 2, y], [x + 2, y + 2], [x, y + 2], [x, y]]]))
    return told


def one_border(size):
    shared = [[0, step] for step in range(20)]
    return [feature("LineString", [*shared, [1 + number, 20]]) for number in range(size)]


def one_value(size):
    return [{**told, "properties": {"value": 1}} for told in one_border(size)]


def over_one_another(size):
    """Lines along one street, each a step further than the one before."""
    return [feature("LineString", [[number + step, 0] for step in range(20)]) for number in range(size)]


def visits(size):
    petals = [place for step in range(size) for place in ([0, 0], [1 + step, 1], [1 + step, 2])]
    return [feature("Polygon", [[*petals, [0, 0]]])]


def layers(size):
    """As many layers as the size, each with one line on the one arc."""
    told = {f"layer {number:06}": {"type": "LineString", "arcs": [0]} for number in range(size)}
    return topology([zigzag(20)], told)


MAPS = {"star": star, "comb": comb, "equal but for ids": equal_but_for_ids, "small rings": small_rings,
        "one border": one_border, "one border, one value": one_value, "over one another": over_one_another,
        "a vertex visited": visits}


def zigzag(size, begin=0):
    return [[place, place % 2] for place in range(begin, begin + size)]


def steps(positions):
    befores = [[0, 0], *positions]
    return [[after[0] - before[0], after[1] - before[1]] for before, after in zip(befores, positions)]


def topology(arcs, objects):
    return {"type": "Topology", "transform": UNIT, "arcs": [steps(arc) for arc in arcs], "objects": objects}


def on_arcs(size, arcs, lists, last=None):
    """As many features as the size, which use the arcs by these lists in turn, and at last perhaps another."""
    told = [{"type": "LineString", "arcs": lists[number % len(lists)], "id": number} for number in range(size)]
    if last:
        told.append(last)
    return topology(arcs, {"a": {"type": "GeometryCollection", "geometries": told}})


def tying_lines(size):
    """Lines along one arc that go on to places of their own, and agree in all else."""
    whole = zigzag(size)
    ends = [[whole[-1], [size + number, 5]] for number in range(size)]
    return topology([whole, *ends], {"a": {"type": "GeometryCollection", "geometries": [
        {"type": "LineString", "arcs": [0, 1 + number]} for number in range(size)]}})


def tying_rings(size):
    """Rings along one arc that come back on ways of their own, and agree in all else."""
    whole = zigzag(size)
    ways = [[whole[0], [1, -10 - number], whole[-1]] for number in reversed(range(size))]
    return topology([*ways, whole], {"a": {"type": "GeometryCollection", "geometries": [
        {"type": "Polygon", "arcs": [[size, -1 - number]]} for number in range(size)]}})


def ties_out_of_order(size):
    """Features that agree in all but the parts of one long arc that they begin with, the last part first."""
    whole = zigzag(size)
    ends = [[whole[-1], [size + number, 5]] for number in range(size)]
    return topology([whole, *ends], {"a": {"type": "GeometryCollection", "geometries": [
        {"type": "LineString", "arcs": [0, size - number]} for number in range(size)]}})


def points_on(size):
    """Features that are points of one long arc, each another one."""
    told = [{"type": "Point", "coordinates": place, "id": number} for number, place in enumerate(zigzag(size))]
    return topology([zigzag(size)], {"a": {"type": "GeometryCollection", "geometries": told}})


def newer(size):
    """Topologies whose features use one arc of as many positions, and newer ones, by their names."""
    whole, half = zigzag(size), size // 2
    longer = [*whole[:half], [half, 5], *whole[half:]]
    elsewhere = [[place, 9 - line] for place, line in whole]
    olds = on_arcs(size, [whole], [[0]])
    return {
        "a vertex more": (olds, on_arcs(size, [longer], [[0]])),
        "half elsewhere": (olds, on_arcs(size, [whole, elsewhere], [[0], [1]])),
        "points in place of it": (olds, points_on(size)),
    }


def faulty_feature(size):
    """As many faults as the size in a feature whose id has ten times as many letters."""
    told = {"type": "MultiPoint", "coordinates": [[0.5, 0]] * size, "id": "n" * 10 * size}
    return topology([], {"a": {"type": "GeometryCollection", "geometries": [told]}})


def repeated(positions):
    """The positions, the first, one inside and the last of them twice."""
    middle = len(positions) // 2
    return [positions[0], *positions[: middle + 1], *positions[middle:], positions[-1]]


class Twice:
    """A value to be written with a member more, of a name that another member has too: the last one counts."""

    def __init__(self, name, first, value):
        self.text = f"{{{json.dumps(name)}:{json.dumps(first)},{json.dumps(value, separators=(',', ':'))[1:]}"


def shared_arcs(size):
    """Topologies whose features use one arc of as many positions, by their names."""
    whole, half = zigzag(size), size // 2
    parts = [whole[: half + 1], whole[half:]]
    point = {"type": "Point", "coordinates": [0.5, 0]}
    return {
        "as written": on_arcs(size, [whole], [[0]]),
        "cut": on_arcs(size, parts, [[0, 1]]),
        "another order": on_arcs(size, [zigzag(3, 2 * size), whole], [[1]], {"type": "LineString", "arcs": [0]}),
        "doubled": on_arcs(size, [whole, whole], [[0], [1]]),
        "a fraction last": on_arcs(size, [whole], [[0]], point),
        "a segment twice last": on_arcs(size, [whole], [[0]], {"type": "LineString", "arcs": [0, -1]}),
        "a position twice": on_arcs(size, [repeated(whole)], [[0]]),
        "a position alone": on_arcs(size, [parts[0], [whole[size // 2]] * 2, parts[1]], [[0, 1, 2]]),
        "a member twice": Twice("arcs", "none", on_arcs(size, [whole], [[0]])),
        "lines that tie": tying_lines(size),
        "ties out of order": ties_out_of_order(size),
        "rings that tie": tying_rings(size),
        "arcs that don't meet last": on_arcs(size, [whole], [[0]], {"type": "LineString", "arcs": [0, 0]}),
    }


def write(path, value):
    with open(path, "w", encoding="ascii") as file:
        file.write(value.text if isinstance(value, Twice) else json.dumps(value, separators=(",", ":")))
    return path


def write_maps(folder, size):
    """The files of each map of a size: its GeoJSON where it has one, its topology, and a newer one where it has one."""
    told = {}
    for name, make in MAPS.items():
        source = write(os.path.join(folder, f"{name}.json"), {"type": "FeatureCollection", "features": make(size)})
        built = os.path.join(folder, f"{name}.topo.json")
        build_topology(source, built)
        told[name] = source, built, None
    told["many layers"] = None, write(os.path.join(folder, "layers.topo.json"), layers(size)), None
    for name, text in shared_arcs(size).items():
        told[f"one arc, {name}"] = None, write(os.path.join(folder, f"{name}.topo.json"), text), None
    for name, texts in newer(size).items():
        files = [write(os.path.join(folder, f"{name} {place}.topo.json"), text) for place, text in enumerate(texts)]
        told[f"one arc, {name}"] = None, *files
    told[FAULTY] = None, write(os.path.join(folder, "faulty.topo.json"), faulty_feature(size)), None
    return told


def shares_arcs(name):
    """Whether all features of a map use one arc, so that each is each other's neighbour."""
    return name.startswith("one ") or name == "equal but for ids"


def commands(name, source, built, newer_one):
    """The commands on a map, by their names."""
    if newer_one:
        return {"diff": [TOOL, "diff", built, newer_one]}
    if name == FAULTY:
        return {"faults": [TOOL, "faults", built]}
    layer = ["--layer", "layer 000000" if name == "many layers" else "a"]
    told = {
        "check": [TOOL, "check", built], "merge": [TOOL, "merge", built], "info": [TOOL, "info", built],
        "mesh": [TOOL, "mesh", built], "mesh interior": [TOOL, "mesh", "--edges", "interior", built],
        "remove": [TOOL, "remove", built, built],
    }
    if not shares_arcs(name):
        told["neighbors"] = [TOOL, "neighbors", *layer, built]
    elif name.endswith("one value"):
        told["neighbors --by"] = [TOOL, "neighbors", "--by", "value", *layer, built]
    if source:
        told["build"] = [TOOL, "build", *GRID, f"a={source}"]
        told["feature"] = [TOOL, "feature", *layer, built]
    return told


def instructions(words):
    """How many instructions a program executes, whatever its status is."""
    ran = subprocess.run(
        ["valgrind", "--tool=callgrind", "--callgrind-out-file=/dev/null", *words],
        stdout=subprocess.DEVNULL, stderr=subprocess.PIPE, text=True, check=False,
    )
    found = re.search(r"Collected : (\d+)", ran.stderr)
    if ran.returncode < 0 or not found:
        raise Failed(f"{' '.join(words[:3])} ended with {ran.returncode}")
    return int(found[1])


def megabytes(words):
    """The peak memory of a program, whatever its status is."""
    wrapped = ["sh", "-c", '"$@" > /dev/null 2>&1; [ $? -lt 120 ]', "sh", *words]
    return run_once(wrapped, os.devnull).megabytes


def measures(words, nothing):
    return instructions(words), megabytes(words) - nothing


def marked(growth):
    return f"{growth:.2f}{'!' if growth > GREATEST else ''}"


def row(name, command, before, after):
    """A row of the table, and whether a growth in it is too great."""
    (few, less), (many, more) = before, after
    growths = [many / few]
    if more >= LEAST_MEGABYTES:
        growths.append(more / max(less, LEAST_MEGABYTES / 2))
    told = [marked(each) for each in growths] + ["-"] * (2 - len(growths))
    print(f"| {name} | {command} | {few / 1e6:,.1f} | {less:.1f} | {told[0]} | {told[1]} |", flush=True)
    return any(each > GREATEST for each in growths)


def main():
    parser = parser_of("Measures the growth of each command on awkward maps.")
    parser.add_argument("--size", type=int, default=2_000)
    parser.add_argument("--map", default="")
    parser.add_argument("--command", default="")
    words = parser.parse_args()
    need(TOOL)
    with ThreadPoolExecutor(os.cpu_count()) as pool, tempfile.TemporaryDirectory() as top:
        nothing, asked = megabytes([TOOL, "--version"]), {}
        for size in (words.size, 2 * words.size):
            folder = os.path.join(top, str(size))
            os.mkdir(folder)
            for name, files in write_maps(folder, size).items():
                for command, run in commands(name, *files).items():
                    if words.map in name and words.command in command:
                        asked.setdefault((name, command), []).append(pool.submit(measures, run, nothing))
        print("| Map | Command | Millions of instructions | Megabytes | Grow | Memory grows |\n|---|---|---|---|---|---|")
        over = [row(*key, *(each.result() for each in both)) for key, both in asked.items()]
    print(f"growth: {len(over)} rows, {sum(over)} grow by more than {GREATEST} times")
    return 1 if any(over) else 0


if __name__ == "__main__":
    end_with(main)
