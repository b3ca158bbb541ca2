#!/usr/bin/env python3
"""Makes topologies as other tools write them of maps at hand, and compares what togrid makes of them.

    python3 tests/other_topologies.py

The maps are those of examples/own-map and examples/map, islands of which coarse steps leave little, and a tiling with counties, states
and a nation, as us-atlas has them, with ids such as "01001". They are written as geo2topo writes them, by 10,000, 100,000 and 1,000,000 steps along each axis and without
steps, as mapshaper does, with and without steps, and as the package topojson for Python does. What is compared:

- all of it with the program of tests/stitching.py and tests/rounding.py, as tests/topojson_in.py does;
- the features and the neighbours that topojson-client reads from the original, with those that it reads from the result of
  `togrid --back`: ids, positions within half a step, and neighbours, but for features that the report names as fixed. Without
  steps there may be more neighbours in the result, since borders that differ by noise become one. This is skipped where there is no node or topojson-client (Debian: node-vega).

Ends with a line of counts, and with status 1 where anything differs.
"""

import json
import math
import os
import random
import shutil
import subprocess
import sys
import tempfile

sys.dont_write_bytecode = True
TOP = os.path.dirname(os.path.dirname(os.path.abspath(__file__)))
sys.path.append(f"{TOP}/bench")

import rounding
import stitching
import togrid
import topojson_in
from generate import CELL, features, tiling
from many_runs import TOGRID, look_for_program

MODULES = "/usr/share/nodejs"
LINES = {"LineString": 0, "MultiLineString": 1, "Polygon": 1, "MultiPolygon": 2}
STEPS = [10**4, 10**5, 10**6, None]


# ---- maps: layers of features, by their names

def read(path):
    with open(f"{TOP}/examples/{path}.geojson", encoding="utf-8") as file:
        found = json.load(file)
    return found.get("features", [found])


def outline_of(rings):
    """The outline of rings that share sides: of a state its border, of the nation its coast."""
    sides = {side for ring in rings for side in zip(ring, ring[1:])}
    after = {a: b for a, b in sides if (b, a) not in sides}
    made = []
    while after:
        ring = [min(after)]
        while len(ring) == 1 or ring[0] != ring[-1]:
            ring.append(after.pop(ring[-1]))
        made.append(ring)
    return made


def degrees(x, y):
    return x * 20 / CELL / 10 + (7919 * x + 104729 * y) % 9 / 10**7, y * 10 / CELL / 10 + (7919 * y + 104729 * x) % 9 / 10**7


def district(id_, name, rings):
    """A feature of rings in whole numbers, which becomes one in degrees."""
    outlines = outline_of([[tuple(it) for it in ring] for ring in rings])
    return {"type": "Feature", "id": id_, "properties": {"name": name, "area": len(rings) * 1.5},
            "geometry": {"type": "Polygon", "coordinates": [[degrees(*it) for it in outline] for outline in outlines[:1]]}}


def atlas(positions):
    """Counties, states and a nation, as in us-atlas."""
    rows = [[it["geometry"]["coordinates"][0] for it in row] for row in features(tiling(positions, 7))]
    counties = [district(f"{y + 1:02}{x + 1:03}", f"County {y}.{x}", [ring]) for y, row in enumerate(rows) for x, ring in enumerate(row)]
    states = [district(f"{y + 1:02}", f"State {y}", row) for y, row in enumerate(rows)]
    return {"counties": counties, "states": states, "nation": [district("US", "Nation", [it for row in rows for it in row])]}


def islets(count):
    """Islands of all sizes, far apart: coarse steps leave nothing of some, and fold others."""
    chance, made = random.Random(3), []
    for number in range(count):
        x, y, size = chance.uniform(-170, 170), chance.uniform(-80, 80), 10 ** chance.uniform(-5, 0.5)
        turns = sorted(chance.random() for _ in range(chance.randint(3, 40)))
        radii = [size * chance.choice([1, 1, chance.random()]) for _ in turns]
        ring = [(x + it * math.cos(2 * math.pi * turn), y + it * math.sin(2 * math.pi * turn)) for it, turn in zip(radii, turns)]
        made.append({"type": "Feature", "id": f"{number:03}", "properties": {}, "geometry": {"type": "Polygon", "coordinates": [ring + ring[:1]]}})
    return made


def maps():
    """The maps, by their names; features of one id are numbered, so that they can be told apart."""
    found = {"island": {"districts": read("own-map/island"), "ways": read("own-map/ways")},
             "atoll": {"districts": read("map/atoll"), "ways": read("map/atoll-ways")}, "atlas": atlas(1500), "islets": {"islets": islets(150)}}
    for layers in found.values():
        for layer in layers.values():
            for number, it in enumerate(layer):
                it["id"] = it["id"] if "id" in it and sum(one.get("id") == it["id"] for one in layer) == 1 else 10**6 + number
    return found


# ---- topologies

class Lines:
    """The lines and rings of a map, and the arcs that they are cut into."""

    def __init__(self):
        self.arcs, self.numbers, self.pairs = [], {}, {}

    def note(self, line, is_ring):
        """The neighbours of each vertex: where they differ, an arc ends."""
        around = zip([line[-2] if is_ring else None, *line[:-1]], line, [*line[1:], line[1] if is_ring else None])
        for before, vertex, after in around:
            self.pairs.setdefault(vertex, set()).add(frozenset((before, after)) if is_ring or None not in (before, after) else ("end", before, after))

    def is_stop(self, vertex):
        return len(self.pairs[vertex]) > 1 or any(isinstance(it, tuple) for it in self.pairs[vertex])

    def number_of(self, arc):
        if arc[::-1] in self.numbers:
            return ~self.numbers[arc[::-1]]
        if arc not in self.numbers:
            self.numbers[arc] = len(self.arcs)
            self.arcs.append(arc)
        return self.numbers[arc]

    def cut(self, line, is_ring):
        if is_ring:
            start = next((i for i, it in enumerate(line[:-1]) if self.is_stop(it)), min(range(len(line) - 1), key=line.__getitem__))
            line = line[start:-1] + line[:start] + [line[start]]
        made, arc = [], [line[0]]
        for vertex in line[1:]:
            arc.append(vertex)
            if self.is_stop(vertex):
                made.append(self.number_of(tuple(arc)))
                arc = [vertex]
        return made + ([self.number_of(tuple(arc))] if len(arc) > 1 else [])


def merged(line, is_ring):
    """Without repeats, as geo2topo writes what is quantized: a ring has four positions at least, a line two."""
    made = [it for i, it in enumerate(line) if i == 0 or it != line[i - 1]]
    return made + [made[0]] * max(0, (4 if is_ring else 2) - len(made))


class Maker:
    """A topology of layers by so many steps along each axis, or in degrees."""

    def __init__(self, layers, steps):
        self.steps, self.lines = steps, Lines()
        places = [it for layer in layers.values() for one in layer for it in positions_in(one["geometry"])]
        self.box = [min(x for x, *_ in places), min(y for _, y, *_ in places), max(x for x, *_ in places), max(y for _, y, *_ in places)]
        self.factors = steps and [(steps - 1) / (self.box[axis + 2] - self.box[axis]) for axis in (0, 1)]
        found = [self.quantized(it["geometry"]) for layer in layers.values() for it in layer]
        for it in found:
            self.each(it, self.lines.note)
        self.objects = {name: [self.object(it) for it in layer] for name, layer in layers.items()}

    def place(self, position):
        """A position on the grid of the topology."""
        return tuple(position[:2]) if not self.steps else tuple(math.floor((position[axis] - self.box[axis]) * self.factors[axis] + 0.5) for axis in (0, 1))

    def quantized(self, geometry):
        """A geometry with its positions on the grid."""
        if geometry["type"] == "GeometryCollection":
            return {**geometry, "geometries": [self.quantized(it) for it in geometry["geometries"]]}

        def inside(it, depth):
            return self.place(it) if depth == 0 else [inside(one, depth - 1) for one in it]

        kind, is_ring = geometry["type"], "Polygon" in geometry["type"]
        depth = {"Point": 0, "MultiPoint": 1}.get(kind, LINES.get(kind, 0) + 1)
        made = inside(geometry["coordinates"], depth)
        return {"type": kind, "coordinates": each_line(made, LINES[kind], lambda it: merged(it, is_ring)) if kind in LINES else made}

    def each(self, geometry, note):
        for it in geometry.get("geometries", []):
            self.each(it, note)
        if geometry["type"] in LINES:
            each_line(geometry["coordinates"], LINES[geometry["type"]], lambda it: note(it, "Polygon" in geometry["type"]))

    def body(self, geometry):
        kind = geometry["type"]
        if kind == "GeometryCollection":
            return {"type": kind, "geometries": [self.body(it) for it in geometry["geometries"]]}
        if kind not in LINES:
            return {"type": kind, "coordinates": geometry["coordinates"]}
        return {"type": kind, "arcs": each_line(geometry["coordinates"], LINES[kind], lambda it: self.lines.cut(it, "Polygon" in kind))}

    def object(self, feature):
        return {**self.body(self.quantized(feature["geometry"])), "id": feature["id"], "properties": feature["properties"]}

    def arcs(self):
        if not self.steps:
            return self.lines.arcs
        return [[arc[0], *((x - a, y - b) for (a, b), (x, y) in zip(arc, arc[1:]))] for arc in self.lines.arcs]

    def transform(self):
        return {"transform": {"scale": [1 / it for it in self.factors], "translate": self.box[:2]}} if self.steps else {}


def each_line(value, depth, part):
    return part(value) if depth == 0 else [each_line(it, depth - 1, part) for it in value]


def positions_in(geometry):
    if geometry["type"] == "GeometryCollection":
        return [it for one in geometry["geometries"] for it in positions_in(one)]

    def inside(value):
        return [value] if isinstance(value[0], (int, float)) else [it for one in value for it in inside(one)]
    return inside(geometry["coordinates"])


def collection(parts):
    return {"type": "GeometryCollection", "geometries": parts}


def by_geo2topo(made):
    return {"type": "Topology", "bbox": made.box, **made.transform(), "objects": {name: collection(it) for name, it in made.objects.items()}, "arcs": made.arcs()}


def by_mapshaper(made):
    objects = {name: collection([{"arcs": it.pop("arcs"), **it} if "arcs" in it else it for it in map(dict, layer)]) for name, layer in made.objects.items()}
    return {"type": "Topology", "arcs": made.arcs(), **made.transform(), "objects": objects}


def by_python(made):
    objects = {name: {"geometries": layer, "type": "GeometryCollection"} for name, layer in made.objects.items()}
    return {"objects": objects, "arcs": [[[float(x) for x in it] for it in arc] for arc in made.arcs()], **made.transform(), "bbox": made.box, "type": "Topology"}


WRITERS = {"geo2topo": (by_geo2topo, STEPS), "mapshaper": (by_mapshaper, [10**5, None]), "topojson for Python": (by_python, [10**6])}


# ---- what topojson-client reads

def answers(files):
    script = f"{TOP}/tests/outside/answers.js"
    ran = subprocess.run(["node", script, *files], capture_output=True, env={**os.environ, "NODE_PATH": MODULES})
    return [json.loads(it)["layers"] for it in ran.stdout.splitlines()]


def has_client():
    return shutil.which("node") and os.path.isdir(f"{MODULES}/topojson-client") and os.path.isdir(f"{MODULES}/d3-geo")


def by_ids(layer):
    """The positions and the neighbours of each feature of a layer, by its id; features of one id, as a collection leaves, are one."""
    ids = [str(it["id"]) for it in layer["features"]]
    places, beside = {}, {}
    for id_, feature, near in zip(ids, layer["features"], layer["neighbors"]):
        places.setdefault(id_, []).extend(positions_in(feature["geometry"]) if feature["geometry"] else [])
        beside.setdefault(id_, set()).update(ids[it] for it in near if ids[it] != id_)
    return places, beside


def is_near(places, others):
    """Whether each position of some has one of others within a millionth along both axes."""
    cells = {}
    for x, y, *_ in others:
        cells.setdefault((math.floor(x * 10**6), math.floor(y * 10**6)), []).append((x, y))
    for x, y, *_ in places:
        column, row = math.floor(x * 10**6), math.floor(y * 10**6)
        around = [it for i in (-1, 0, 1) for j in (-1, 0, 1) for it in cells.get((column + i, row + j), [])]
        if not any(abs(a - x) <= 0.000000501 and abs(b - y) <= 0.000000501 for a, b in around):
            return False
    return True


def compared(folder, file, ids_of, has_steps):
    """Compares what topojson-client reads of a topology and of the result; gives what differs."""
    paths = [f"{folder}/{name}" for name in ("built.json", "back.json", "report.json")]
    togrid.togrid("--build", "-q", "--report", paths[2], "-o", paths[0], file)
    with open(paths[1], "wb") as out:
        out.write(togrid.togrid("--back", "--rewind", "keep", paths[0]).stdout)
    with open(paths[2], encoding="utf-8") as it:
        fixed = {one["name"]: {ids_of[one["name"]][it["feature"]] for it in one["fixed"] if it["collapsed"] + it["folded"] + it["lost"]} for one in json.load(it)["files"]}
    read_, made = answers([file, paths[1]])
    if read_.keys() != made.keys():
        return [f"layers {sorted(made)}"]
    wrong = []
    for name, layer in read_.items():
        (places, beside), (others, neighbours) = by_ids(layer), by_ids(made[name])
        if places.keys() - fixed[name] != others.keys() - fixed[name]:
            wrong.append(f"{name}: other ids")
        for id_ in places.keys() & others.keys() - fixed[name]:
            if not is_near(places[id_], others[id_]) or not is_near(others[id_], places[id_]):
                wrong.append(f"{name}: other positions of {id_}")
            before, after = beside[id_] - fixed[name], neighbours[id_] - fixed[name]
            if before != after and (has_steps or not before <= after):
                wrong.append(f"{name}: other neighbours of {id_}")
    return wrong


# ---- runs

def wrong_text(folder, file, text):
    """What is wrong with what togrid makes of a topology, by the program apart."""
    with open(file, "w", encoding="utf-8") as out:
        out.write(text)
    asked = rounding.Options()
    [record] = rounding.parse(text.encode(), False)[1]
    topology = stitching.Topology(record.value, asked)
    if topology.errors:
        return f"refused, {topology.errors[:3]}"
    return topojson_in.wrong_accepted(folder, file, topology, asked)


def main():
    look_for_program(TOGRID)
    count, wrong, by_client = 0, 0, has_client()
    for name, layers in maps().items():
        ids_of = {layer: [str(it["id"]) for it in its] for layer, its in layers.items()}
        for writer, (write, choices) in WRITERS.items():
            for steps in choices:
                title = f"{name} as {writer} writes it, {f'{steps:,} steps' if steps else 'no steps'}"
                with tempfile.TemporaryDirectory() as folder:
                    file = f"{folder}/map.topo.json"
                    found = wrong_text(folder, file, json.dumps(write(Maker(layers, steps)), separators=(",", ":")))
                    found = [found] if found else compared(folder, file, ids_of, steps is not None) if by_client else []
                count, wrong = count + 1, wrong + bool(found)
                for it in found[:3]:
                    print(f"{title}: {it[:1500]}")
    if not by_client:
        print("skipped topojson-client: there is no node or no package node-vega")
    print(f"{count} topologies, {wrong} wrong")
    return 1 if wrong or not count else 0


if __name__ == "__main__":
    sys.exit(main())
