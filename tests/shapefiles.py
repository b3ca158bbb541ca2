#!/usr/bin/env python3
"""Takes the shapefiles that are in Debian's packages through togrid and back, and compares what comes out with what went in.

    python3 tests/shapefiles.py [--files FOLDER]

FOLDER has what PACKAGES unpack to. Without it they are downloaded by apt-get and unpacked in a temporary folder; nothing is
installed. `ogr2ogr` (Debian: gdal-bin) makes GeoJSON of each shapefile, in degrees or metres. What is compared:

- the features: as many in the report as in the file; as many in the topology, without those that the report counts as equal; with
  `--number` each of them, by its number;
- of each feature its properties: numbers by their values, after `--back --numbers`, and all others as they are;
- of each feature of which nothing was fixed its type and its positions: the nearest on the grid, by Python's decimal numbers.

The same is done with the world of Datamaps, a topology in the package knot-resolver-module-http: its countries, ids and arcs.
Says that it is skipped where there is no ogr2ogr, or no package. Ends with a line of counts, and with status 1 where anything differs.
"""

import argparse
import collections
import glob
import itertools
import json
import os
import re
import shutil
import subprocess
import sys
import tempfile
from decimal import ROUND_HALF_UP, Decimal, getcontext

sys.dont_write_bytecode = True

import togrid
from many_runs import TOGRID, judged, look_for_program

getcontext().prec = 60
PACKAGES = ["libplplot-data", "knot-resolver-module-http", "python3-cartopy", "python3-geopandas", "python3-libpysal", "python3-mapnik",
            "r-cran-maptools", "r-cran-rgdal", "r-cran-sf", "r-cran-spdata"]
DEGREES, METRES = Decimal("0.000001"), Decimal("0.01")
WORLD = "worldTopo="
FIXES = ("closed", "collapsed", "folded", "lost")
FETCH = 200  # seconds


# ---- files

def is_run(words, folder, seconds):
    try:
        return subprocess.run(words, cwd=folder, stdin=subprocess.DEVNULL, capture_output=True, timeout=seconds).returncode == 0
    except (OSError, subprocess.TimeoutExpired):
        return False


def unpack(folder):
    """Downloads the packages, and unpacks those that can be had."""
    words = ["env", "--unset=TMPDIR", "apt-get", "-o", "Acquire::Retries=1", "-o", "Acquire::http::Timeout=20"]
    if shutil.which("apt-get") and shutil.which("dpkg-deb"):
        if not is_run([*words, "download", *PACKAGES], folder, FETCH):
            is_run([*words, "update"], folder, FETCH)
            for it in PACKAGES:
                is_run([*words, "download", it], folder, FETCH)
        for it in glob.glob(f"{folder}/*.deb"):
            is_run(["dpkg-deb", "-x", it, folder], folder, FETCH)


def found_in(folder, name):
    return sorted(glob.glob(f"{folder}/**/{name}", recursive=True))


def numbers_kept(text):
    """A value of JSON whose numbers are decimal."""
    return json.loads(text, parse_float=Decimal, parse_int=Decimal)


def geojson_of(shapefile, folder):
    """The file that ogr2ogr makes of a shapefile."""
    file = f"{folder}/map.geojson"
    subprocess.run(["ogr2ogr", "-f", "GeoJSON", file, shapefile], check=True, capture_output=True)
    with open(file, encoding="utf-8") as it:
        return file, numbers_kept(it.read())["features"]


def written(value):
    """A value as JSON, with its numbers as they are."""
    if isinstance(value, dict):
        return "{" + ",".join(f"{json.dumps(name)}:{written(it)}" for name, it in value.items()) + "}"
    if isinstance(value, list):
        return f"[{','.join(map(written, value))}]"
    return str(value) if isinstance(value, Decimal) else json.dumps(value)


def world_of(script, folder):
    """The topology in the script of Datamaps, whose names have no quotes there."""
    with open(script, encoding="utf-8") as it:
        text = it.read().split(WORLD, 1)[1]
    text = re.sub(r"([{,])([A-Za-z]\w*):", r'\1"\2":', text)
    text = re.sub(r"([\[,:])(-?)\.(\d)", r"\1\g<2>0.\3", text)
    topology, _ = json.JSONDecoder(parse_float=Decimal, parse_int=Decimal).raw_decode(text)
    file = f"{folder}/map.json"
    with open(file, "w", encoding="utf-8") as it:
        it.write(written(topology))
    return file, topology


# ---- positions

DEPTHS = {"Point": 0, "MultiPoint": 1, "LineString": 0, "MultiLineString": 1, "Polygon": 1, "MultiPolygon": 2}


def each(value, depth, part):
    return part(value) if depth == 0 else [each(it, depth - 1, part) for it in value]


def places_in(value):
    return [value] if value and isinstance(value[0], Decimal) else [place for it in value for place in places_in(it)]


def step_of(features):
    """The step for a file: that of degrees, or of metres where a number is beyond them."""
    places = [place for it in features if it["geometry"] for place in places_in(it["geometry"]["coordinates"])]
    return DEGREES if all(abs(x) <= 180 and abs(y) <= 90 for x, y, *_ in places) else METRES


def on_grid(position, step):
    return tuple(int((it / step).quantize(Decimal(1), rounding=ROUND_HALF_UP)) for it in position[:2])


def merged(places):
    return [it for i, it in enumerate(places) if i == 0 or it != places[i - 1]]


def from_least(ring):
    """A ring from where it is least."""
    ring = merged(ring)[:-1]
    least = min(ring)
    return [min(ring[at:] + ring[:at] for at, it in enumerate(ring) if it == least)]


def form(geometry, value, point, line):
    """The type of a geometry, and its positions, by what gives those of a point and of a line; a ring begins where it is least."""
    kind = geometry["type"]
    if "Point" in kind:
        return kind, each(value, DEPTHS[kind], point)
    asked = from_least if "Polygon" in kind else merged
    return kind, each(value, DEPTHS[kind], lambda it: asked(line(it)))


def form_in(geometry, step):
    """The form of a geometry of GeoJSON on the grid."""
    return geometry and form(geometry, geometry["coordinates"], lambda it: on_grid(it, step), lambda it: [on_grid(one, step) for one in it])


class Arcs:
    """The arcs of a topology, in whole numbers."""

    def __init__(self, topology):
        self.arcs = [list(itertools.accumulate(((int(x), int(y)) for x, y in arc), lambda a, b: (a[0] + b[0], a[1] + b[1]))) for arc in topology["arcs"]]

    def along(self, numbers):
        return [place for it in map(int, numbers) for place in (self.arcs[it] if it >= 0 else self.arcs[~it][::-1])]

    def form(self, geometry):
        if geometry["type"] is None:
            return None
        return form(geometry, geometry["arcs" if "arcs" in geometry else "coordinates"], lambda it: tuple(map(int, it)), self.along)


# ---- what is compared

class Run:
    """What togrid makes of a file: the report, the topology, and the topology in the unit of the map."""

    def __init__(self, folder, file, *words):
        topology, report = f"{folder}/map.topo.json", f"{folder}/report.json"
        self.wrong = wrong_run(togrid.togrid("--build", "-q", "--report", report, "-o", topology, *words, file))
        if self.wrong:
            return
        back = togrid.togrid("--back", "--numbers", "--rewind", "keep", topology)
        self.wrong = wrong_run(back)
        if not self.wrong:
            with open(report, encoding="utf-8") as it:
                [self.report] = json.load(it)["files"]
            self.topology = numbers_kept(back.stdout)
            [layer] = self.topology["objects"].values()
            self.geometries = layer["geometries"]


def wrong_run(ran):
    return f"status {ran.returncode}: {ran.stderr[:300]!r}" if ran.returncode or ran.stderr else None


def key_of(properties):
    return json.dumps(properties, sort_keys=True, default=lambda number: f"#{number.normalize()}")


def wrong_counts(features, run, forms):
    """What is wrong with how many features there are without --number, where equal ones are one."""
    report, count = run.report, len(features)
    if report["features"] != count or len(run.geometries) + report["equal"] != count:
        return f"{count} features: {report['features']} in the report, {len(run.geometries)} in the topology, {report['equal']} equal"
    if not any(report[it] for it in FIXES):
        distinct = len({(key_of(it["properties"]), str(one)) for it, one in zip(features, forms)})
        if distinct != len(run.geometries):
            return f"{distinct} features differ, {len(run.geometries)} are in the topology"
    return None


def is_number(value):
    return isinstance(value, Decimal) and not isinstance(value, bool)


def wrong_properties(given, found, texts):
    """What is wrong with properties: those of `texts` have texts, which may have become numbers where they look like them."""
    if given.keys() != found.keys():
        return f"properties {sorted(found)}, wanted {sorted(given)}"
    for name, it in given.items():
        one = found[name]
        is_same = type(it) is type(one) and it == one
        if not is_same and not (name in texts and is_number(one) and isinstance(it, str) and Decimal(it) == one):
            return f"{name}: {one!r}, wanted {it!r}"
    return None


def wrong_features(features, run, step, forms):
    """What is wrong with the features of a run with --number, or nothing."""
    if sorted(int(it["id"]) for it in run.geometries) != list(range(1, len(features) + 1)):
        return f"{len(run.geometries)} features, wanted {len(features)}"
    transform = run.topology["transform"]
    if transform["scale"] != [step, step] or any(transform["translate"]):
        return f"transform {transform}"
    texts = {name for it in features for name, one in it["properties"].items() if isinstance(one, str)}
    fixed = {it["feature"] for it in run.report["fixed"]}
    arcs = Arcs(run.topology)
    for geometry in run.geometries:
        number = int(geometry["id"]) - 1
        wrong = wrong_properties(features[number]["properties"], geometry.get("properties", {}), texts)
        if not wrong and number not in fixed and arcs.form(geometry) != forms[number]:
            wrong = f"geometry {str(arcs.form(geometry))[:300]}, wanted {str(forms[number])[:300]}"
        if wrong:
            return f"feature {number + 1}: {wrong}"
    return None


def wrong_map(folder, file, features):
    """What is wrong with a map, or nothing."""
    step = step_of(features)
    words = ["--step", str(step)] if step != DEGREES else []
    forms = [form_in(it["geometry"], step) for it in features]
    plain, numbered = Run(folder, file, *words), Run(folder, file, "--number", *words)
    return plain.wrong or numbered.wrong or wrong_counts(features, plain, forms) or wrong_features(features, numbered, step, forms)


def wrong_world(folder, file, topology):
    """What is wrong with the world, all of whose countries have an id, or nothing."""
    run = Run(folder, file)
    if run.wrong:
        return run.wrong
    given, found = topology["objects"]["world"]["geometries"], run.geometries
    members = [collections.Counter((it["id"], key_of(it.get("properties", {}))) for it in its) for its in (given, found)]
    if members[0] != members[1] or run.report["features"] != len(given) or run.report["equal"]:
        return f"{len(found)} countries, wanted {len(given)}; report {run.report}"
    if len(run.topology["arcs"]) != len(topology["arcs"]):
        return f"{len(run.topology['arcs'])} arcs, wanted {len(topology['arcs'])}"
    return None


def judge(path):
    """How many features and numbers with a fraction a file has, and what is wrong with its way, or nothing."""
    with tempfile.TemporaryDirectory() as folder:
        if path.endswith(".js"):
            file, topology = world_of(path, folder)
            return len(topology["objects"]["world"]["geometries"]), 0, tagged(path, wrong_world(folder, file, topology))
        file, features = geojson_of(path, folder)
        reals = sum(is_number(it) and it % 1 != 0 for one in features for it in one["properties"].values())
        return len(features), reals, tagged(path, wrong_map(folder, file, features))


def tagged(path, wrong):
    return wrong and f"{os.path.basename(path)}: {wrong}"


def main():
    words = argparse.ArgumentParser()
    words.add_argument("--files", help="a folder with what the packages unpack to")
    words = words.parse_args()
    look_for_program(TOGRID)
    if not shutil.which("ogr2ogr"):
        print("skipped: there is no ogr2ogr (Debian: gdal-bin); 0 files, 0 wrong")
        return 0
    with tempfile.TemporaryDirectory() as folder:
        if not words.files:
            unpack(folder)
        paths = [it for name in ("*.shp", "datamaps.world.min.js") for it in found_in(words.files or folder, name)]
        if not paths:
            print("skipped: no package can be had; 0 files, 0 wrong")
            return 0
        answers = list(judged(judge, paths, None))
    differ = [it for *_, it in answers if it]
    for it in differ[:10]:
        print(it[:1500])
    print(f"{len(answers)} files, {sum(it for it, *_ in answers):,} features, {sum(it for _, it, _ in answers):,} numbers with a fraction, {len(differ)} wrong")
    return 1 if differ else 0


if __name__ == "__main__":
    sys.exit(main())
