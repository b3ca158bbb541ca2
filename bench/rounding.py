#!/usr/bin/env python3
"""Measures togrid on a map in degrees, against topotool on the same map in whole numbers.

    for p in topotool togrid; do (cd crates/$p && rt run); done
    python3 bench/rounding.py
    python3 bench/rounding.py --positions 3200000 --no-instructions

The map is a tiling of about 8 MB, in degrees of seven digits, of which togrid takes away the last; or of 75 MB. `topotool build`
reads it in whole numbers, and has to print the same bytes. So has togrid of its topology in degrees; that topology, and one that is quantized
as geo2topo does, by scales of many digits, are compared with the GeoJSON in degrees. valgrind counts instructions; times are processor times (user and
system) of whole processes, the least of some interleaved runs. Beside a ratio is its goal, which no test asks for; a ratio that
misses it is marked by an exclamation mark.
"""

import os
import shutil
import subprocess
import sys
import tempfile

sys.dont_write_bytecode = True

from generate import features, tiling
from instructions import count
from measuring import GRID, TOOL, TOP, Failed, by_turns, end_with, need, parser_of, run_once, same_bytes
from topologies import marked

TOGRID = os.path.join(TOP, "crates", "togrid", "out", "togrid")
POSITIONS = 340_000
STEPS = 100  # of a millionth of a degree, for one of the tiling
BUILD = "topotool build"
OF_DEGREES = "togrid --build -q"
OF_TOPOLOGIES = {"togrid --build -q, of a topology": [], "togrid --build -q, of a quantized topology": ["--quantize", "1000000"]}
GOALS = {OF_DEGREES: 1.3, "togrid --build": 2.0}
OF_GEOJSON = 1.6
MEMORY = 1.25


def degrees(x, y):
    """A number of the tiling in degrees, less than half a millionth beside a whole number of millionths."""
    digits = f"{10 * STEPS * x + (7919 * x + 104729 * y) % 9 - 4:+09d}"
    return f"{digits[0].replace('+', '')}{digits[1:-7]}.{digits[-7:]}"


def feature_text(member, number):
    """A district whose coordinates are written by a function."""
    [ring] = member["geometry"]["coordinates"]
    positions = ",".join(f"[{number(x, y)},{number(y, x)}]" for x, y in ring)
    name, row = member["properties"]["name"], member["properties"]["row"]
    properties = f'{{"name":"{name}","row":{row}}}'
    return f'{{"type":"Feature","id":{member["id"]},"properties":{properties},"geometry":{{"type":"Polygon","coordinates":[[{positions}]]}}}}'


def write_maps(folder, positions, seed):
    """Writes the tiling in degrees, and in millionths of degrees."""
    members = [it for row in features(tiling(positions, seed)) for it in row]
    for name, number in ("degrees", degrees), ("whole", lambda x, _: STEPS * x):
        with open(os.path.join(folder, f"{name}.json"), "w", encoding="ascii") as file:
            file.write('{"type":"FeatureCollection","features":[')
            file.write(",".join(feature_text(it, number) for it in members) + "]}")


def write_topologies(folder):
    """Writes the topologies in degrees; gives them by their titles."""
    built = os.path.join(folder, "built.json")
    run_once([TOOL, "build", *GRID, f"a={os.path.join(folder, 'whole.json')}"], built)
    made = {title: os.path.join(folder, f"topology-{number}.json") for number, title in enumerate(OF_TOPOLOGIES)}
    for title, file in made.items():
        run_once([TOGRID, "--back", "--rewind", "keep", *OF_TOPOLOGIES[title], built], file)
    return made


def rows_of(folder, topologies):
    """The programs by their titles, of which the others are compared with the first."""
    whole, decimal = (os.path.join(folder, f"{name}.json") for name in ("whole", "degrees"))
    return {
        BUILD: [TOOL, "build", *GRID, f"a={whole}"],
        "togrid --build -q": [TOGRID, "--build", "-q", f"a={decimal}"],
        "togrid --build": [TOGRID, "--build", f"a={decimal}"],
        "togrid -q": [TOGRID, "-q", decimal],
        "togrid --snap 1 --build -q": [TOGRID, "--build", "-q", "--snap", "1", f"a={decimal}"],
        "togrid --faults, none": [TOGRID, "--faults", decimal],
        **{title: [TOGRID, "--build", "-q", file] for title, file in topologies.items()},
    }


def check(folder, rows):
    """The topology is the same, byte for byte."""
    outs = [os.path.join(folder, name) for name in ("left", "right")]
    run_once(rows[BUILD], outs[0])
    for title in (OF_DEGREES, *[it for it, words in OF_TOPOLOGIES.items() if not words]):
        run_once(rows[title], outs[1])
        if not same_bytes(*outs):
            raise Failed(f"{title} prints another topology than topotool build")


def ratio_of(title, found, base):
    return marked(found / base, GOALS[title]) if title in GOALS else f"{found / base:.2f}"


def main():
    parser = parser_of(__doc__.splitlines()[0])
    parser.set_defaults(positions=POSITIONS)
    parser.add_argument("--no-instructions", action="store_true", help="times and memory alone")
    parser.add_argument("--write", help="writes the maps into a folder, and measures nothing")
    words = parser.parse_args()
    if words.write:
        return write_maps(words.write, words.positions, words.seed)
    need(TOOL, TOGRID)
    has_counts = not words.no_instructions and shutil.which("valgrind")
    with tempfile.TemporaryDirectory() as folder:
        # another process writes: the peak memory of a measured one counts from its parent's
        written = [sys.executable, __file__, "--write", folder, "--positions", str(words.positions), "--seed", str(words.seed)]
        subprocess.run(written, check=True)
        rows = rows_of(folder, write_topologies(folder))
        check(folder, rows)
        found = by_turns(rows, os.path.join(folder, "printed"), words.runs)
        counts = {title: count(each) for title, each in rows.items()} if has_counts else {}
        size = os.path.getsize(os.path.join(folder, "degrees.json")) / 1e6
    base = found[BUILD]
    print(f"| Of {size:.1f} MB of degrees | Millions of instructions | Times `{BUILD}` | Seconds | Times | MB of memory | Times |\n|---|---|---|---|---|---|---|")
    for title, it in found.items():
        counted = f"{counts[title] / 1e6:,.0f} | {ratio_of(title, counts[title], counts[BUILD])}" if counts else " | "
        memory = marked(it.megabytes / base.megabytes, MEMORY) if title in GOALS else f"{it.megabytes / base.megabytes:.2f}"
        print(f"| `{title}` | {counted} | {it.seconds:.2f} | {it.seconds / base.seconds:.2f} | {it.megabytes:.0f} | {memory} |")
    for title in OF_TOPOLOGIES:
        unit, ratio = ("instructions", counts[title] / counts[OF_DEGREES]) if counts else ("seconds", found[title].seconds / found[OF_DEGREES].seconds)
        print(f"{title}: {marked(ratio, OF_GEOJSON)} times the {unit} of its GeoJSON")
    return 0


if __name__ == "__main__":
    end_with(main)
