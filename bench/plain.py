#!/usr/bin/env python3
"""Measures commands of topotool against plain Rust that prints the same bytes, and against topojson-client.

    (cd crates/topotool && rt run)
    python3 bench/plain.py --runs 9
    python3 bench/plain.py --check

bench/plain is a program of some hundred lines: what one would write for speed, but for sound files only, and with nothing
proved. It builds topologies over the values of the crate `serde_json` (`build`) and by a parser of its own (`scan`), and has
the commands that read a topology (ON_TOPOLOGIES), over such values too, which take the arcs as they stand. The script
compiles it in a folder of its own with `cargo`, without a network, from the sources that Debian's package
librust-serde-json-dev puts into /usr/share/cargo/registry; where no Rust or no such sources are there, or cargo doesn't
build it of them, it says that it was skipped.

It prints a table for each of some maps, of a kind of bench/generate.py and some megabytes (MAPS): the ratio of processor
times (user and system, the least of some runs), of instructions, and of peak memory, each of topotool to the other program.
All programs of a map run by turns. Instructions are counted by valgrind, where it is installed, for maps up to COUNTED
megabytes. Beside each ratio stands its goal, which no test asks for; one that is missed is marked by an exclamation mark.
topojson-client is measured where node and Debian's package node-vega are there. Texts are compared on each map, byte by byte.
In the end stand the least and the greatest ratio of times and of memory over the maps.

With `--check` nothing is measured: texts are compared on the examples, on small maps of each kind, and on some hundred random
maps, their topologies, and these spelled otherwise, and the last line counts them. Ends with status 1 where a text differs or
a program fails.
"""

import argparse
import json
import os
import shutil
import subprocess
import sys
import tempfile

sys.dont_write_bytecode = True

from generate import KINDS
from instructions import count
from measuring import (
    GRID, HERE, TOOL, TOP, Failed, by_turns, end_with, need, run_once, same_bytes, stop, write_tiling
)
from random_maps import random_map
from topologies import MODULES, marked

SOURCE = os.path.join(HERE, "plain")
REGISTRY = "/usr/share/cargo/registry"
BYTES_PER_POSITION = {"tiling": 15, "short arcs": 20, "coasts": 15}  # about
MAPS = ["tiling:8", "tiling:75", "short arcs:8", "coasts:8"]
EXAMPLES = [("1,1,0,0", ["squares"]), ("10,10,0,0", ["east"]), ("10,10,0,0", ["west", "east"])]
CHECKED_POSITIONS = [100, 3_000, 40_000]
COUNTED = 10

VALUES, PARSER, CLIENT = "plain Rust over values", "plain Rust with a parser", "topojson-client"
OF_LAYERS = ["neighbors", "feature"]
ON_TOPOLOGIES = ["check", "merge", "neighbors", "mesh", "feature"]

# the greatest ratio of times that is wanted
GOALS = {("build", VALUES): 0.75, ("build", PARSER): 1.8, ("neighbors", CLIENT): 0.35, ("mesh", CLIENT): 0.25,
         ("feature", CLIENT): 0.25, **{(command, VALUES): 0.55 for command in ON_TOPOLOGIES}}
GREATEST_MEMORY = {("build", VALUES): 0.3}


def skip(why):
    """Ends with status 0: what was to be compared with can't be had."""
    print(f"skipped: {why}; 0 texts compared, 0 differ")
    sys.exit(0)


def compile_plain(folder, registry):
    """Compiles the plain program, and answers its path."""
    for program in ["cargo", "rustc"]:
        if shutil.which(program) is None:
            skip(f"no Rust compiler is there ({program})")
    names = os.listdir(registry) if os.path.isdir(registry) else []
    if not any(name.startswith("serde_json-") for name in names):
        skip(f"no source of serde_json is in {registry} (Debian: librust-serde-json-dev)")
    copy = os.path.join(folder, "plain")
    shutil.copytree(SOURCE, copy, ignore=shutil.ignore_patterns("target", "Cargo.lock"))
    target = os.path.join(folder, "target")
    words = ["cargo", "build", "--quiet", "--release", "--offline", "--target-dir", target]
    words += ["--config", 'source.crates-io.replace-with="debian"']
    words += ["--config", f"source.debian.directory={json.dumps(os.path.abspath(registry))}"]
    home = {**os.environ, "CARGO_HOME": os.path.join(folder, "home")}
    if subprocess.run(words, cwd=copy, env=home).returncode != 0:
        skip(f"cargo doesn't build {SOURCE} from what is in {registry} (Debian: librust-serde-json-dev)")
    return os.path.join(target, "release", "plain")


def words_on(command, topology, layer):
    """The words of a command that reads a topology."""
    return [command, *(["--layer", layer] if command in OF_LAYERS else []), topology]


def do_apart(work):
    """Has another process do the work, and gives the number that it answers: a measured program's peak memory counts
    from its parent's. Ends where that process failed."""
    reader, writer = os.pipe()
    child = os.fork()
    if child == 0:
        status = 1
        try:
            os.write(writer, str(work()).encode())
            status = 0
        except (SystemExit, Failed) as fault:
            print(fault, file=sys.stderr, flush=True)
        finally:
            os._exit(status)
    os.close(writer)
    with os.fdopen(reader) as pipe:
        told = pipe.read()
    if os.waitpid(child, 0)[1] != 0:
        sys.exit(1)
    return int(told)


def answer(words):
    """What a program prints, and its status: 0, or 1 where a text is not canonical."""
    ran = subprocess.run(words, stdout=subprocess.PIPE, check=False)
    if ran.returncode not in (0, 1):
        raise Failed(f"{' '.join(words[:3])} ended with {ran.returncode}")
    return ran.stdout, ran.returncode


class Programs:
    """Both programs, and a folder for files."""

    def __init__(self, tool, plain, folder):
        self.tool = tool
        self.plain = plain
        self.folder = folder
        self.compared = 0

    def file(self, name):
        return os.path.join(self.folder, name)

    def compare(self, words, command=None):
        """Ends the script where both don't print the same bytes."""
        self.compared += 1
        if answer([self.tool, *words]) != answer([self.plain, command or words[0], *words[1:]]):
            sys.exit(f"the answers of {' '.join(words)} differ")

    def compare_builds(self, words):
        """Compares both builders with topotool, and answers the topology's file."""
        topology = self.file("topology.json")
        run_once([self.tool, "build", *words], topology)
        for builder in ("build", "scan"):
            self.compared += 1
            run_once([self.plain, builder, *words], self.file("built"))
            if not same_bytes(topology, self.file("built")):
                sys.exit(f"the texts of {builder} {' '.join(words)} differ")
        return topology

    def compare_questions(self, topology):
        """Compares the commands on a topology, and check and merge on the same one spelled otherwise."""
        with open(topology, encoding="utf-8") as file:
            value = json.load(file)
        for command in ON_TOPOLOGIES:
            for layer in value["objects"] if command in OF_LAYERS else [None]:
                self.compare(words_on(command, topology, layer))
        with open(self.file("spelled.json"), "w", encoding="utf-8") as file:
            json.dump(value, file, indent=1)
        for command in ("check", "merge"):
            self.compare([command, self.file("spelled.json")])
        return value

    def compare_map(self, kind, positions, seed):
        """Makes a map, and compares the texts; answers its positions, the words for it and its topology."""
        count_of_it = write_tiling(self.folder, positions, seed, 0, kind)
        words = [*GRID, "a=" + self.file("tiling.json")]
        self.compared = do_apart(lambda: self.count_compared(words))
        return count_of_it, words, self.file("topology.json")

    def count_compared(self, words):
        """Compares the texts of a map, and answers how many were compared."""
        self.compare_questions(self.compare_builds(words))
        return self.compared

    def check_examples(self):
        for grid, names in EXAMPLES:
            files = [os.path.join(TOP, "examples", name + ".json") for name in names]
            self.compare_questions(self.compare_builds(["--grid", grid, *("a=" + file for file in files)]))
        print(f"{len(EXAMPLES)} lists of examples: same bytes", flush=True)

    def check_kinds(self, seed):
        for kind in KINDS:
            counts = [self.compare_map(kind, positions, seed)[0] for positions in CHECKED_POSITIONS]
            print(f"{kind}, {', '.join(map(str, counts))} positions: same bytes", flush=True)

    def check_random(self, seed):
        """Compares the texts of a random map, and answers its topology's value."""
        grid, files = random_map(seed)
        words = ["--grid", grid]
        for number, (name, text) in enumerate(files):
            path = self.file(f"{number}.json")
            with open(path, "w", encoding="utf-8") as file:
                file.write(text)
            words.append(f"{name}={path}")
        try:
            return self.compare_questions(self.compare_builds(words))
        except SystemExit:
            print(f"--grid {grid}", *(f"{name}={text}" for name, text in files), sep="\n")
            print(f"this map's texts differ: --check --maps 1 --seed {seed}")
            raise

    def check_maps(self, maps, seed):
        geometries = arcs = 0
        for each in range(seed, seed + maps):
            topology = self.check_random(each)
            arcs += len(topology["arcs"])
            geometries += sum(len(layer["geometries"]) for layer in topology["objects"].values())
        print(f"{maps} random maps, {geometries} geometries and {arcs} arcs: same bytes", flush=True)

    def rows(self, words, topology):
        """The programs that are measured, by command and by who does it."""
        told = {("build", TOOL): [self.tool, "build", *words], ("build", VALUES): [self.plain, "build", *words],
                ("build", PARSER): [self.plain, "scan", *words]}
        has_client = shutil.which("node") and os.path.isdir(f"{MODULES}/topojson-client")
        for command in ON_TOPOLOGIES:
            asked = words_on(command, topology, "a")
            told[command, TOOL] = [self.tool, *asked]
            told[command, VALUES] = [self.plain, *asked]
            if has_client and (command, CLIENT) in GOALS:
                told[command, CLIENT] = ["node", os.path.join(HERE, "others.js"), command, topology]
        return told

    def print_map(self, kind, megabytes, seed, runs, is_counted):
        """Measures a map, and prints its table; gives the ratios of times and of memory."""
        positions, words, topology = self.compare_map(kind, max(1, round(megabytes * 1e6 / BYTES_PER_POSITION[kind])), seed)
        size = os.path.getsize(self.file("tiling.json")) / 1e6
        rows = self.rows(words, topology)
        measures = by_turns(rows, self.file("out"), runs)
        counts = {}
        if is_counted and megabytes <= COUNTED and shutil.which("valgrind"):
            counts = {key: count(words) for key, words in rows.items() if key[1] != CLIENT}
        print(f"\n{kind}, {size:.1f} MB of GeoJSON, {positions} positions, a topology of {os.path.getsize(topology) / 1e6:.1f} MB\n")
        print("| Command | Against | Seconds | Time | Instructions | Memory |\n|---|---|---|---|---|---|")
        return {key: print_row(key, measures, counts) for key in rows if key[1] != TOOL}


def print_row(key, measures, counts):
    """A line of the table: topotool's seconds, and the ratios to another program, of which those of times and memory are given."""
    command, other = key
    mine, its = measures[command, TOOL], measures[key]
    seconds, memory = mine.seconds / its.seconds, mine.megabytes / its.megabytes
    instructions = f"{counts[command, TOOL] / counts[key]:.2f}" if key in counts else ""
    print(
        f"| `{command}` | {other} | {mine.seconds:.3f} | {marked(seconds, GOALS[key])} | {instructions} "
        f"| {marked(memory, GREATEST_MEMORY[key]) if key in GREATEST_MEMORY else f'{memory:.2f}'} |",
        flush=True,
    )
    return seconds, memory


def print_ranges(told):
    """The least and the greatest ratios of some maps."""
    print(f"\n{len(told)} maps, from the least ratio to the greatest\n\n| Command | Against | Time | Memory |\n|---|---|---|---|")
    for command, other in told[0]:
        ranges = [f"{min(its):.2f} to {max(its):.2f}" for its in zip(*(it[command, other] for it in told))]
        print(f"| `{command}` | {other} | {' | '.join(ranges)} |")


def map_of(word):
    """A kind and megabytes, as in `coasts:8`."""
    kind, _, size = word.partition(":")
    if kind not in KINDS:
        raise ValueError(kind)
    return kind, float(size)


def main():
    parser = argparse.ArgumentParser(description="Measures commands against plain Rust.")
    parser.add_argument("--kinds", type=map_of, nargs="+", default=[*map(map_of, MAPS)], metavar="KIND:MEGABYTES")
    parser.add_argument("--no-instructions", action="store_true", help="times and memory alone")
    parser.add_argument("--runs", type=int, default=5)
    parser.add_argument("--seed", type=int, default=1)
    parser.add_argument("--check", action="store_true", help="compare texts alone")
    parser.add_argument("--maps", type=int, default=300, help="random maps of --check")
    parser.add_argument("--tool", default=TOOL)
    parser.add_argument("--registry", default=REGISTRY, help="where the sources of crates are")
    words = parser.parse_args()
    if words.runs < 1:
        stop("at least one run is needed")
    need(words.tool)
    os.environ["NODE_PATH"] = MODULES
    with tempfile.TemporaryDirectory() as folder:
        programs = Programs(words.tool, compile_plain(folder, words.registry), folder)
        if words.check:
            programs.check_examples()
            programs.check_kinds(words.seed)
            programs.check_maps(words.maps, words.seed)
            print(f"{programs.compared} texts compared, 0 differ")
        else:
            print_ranges([programs.print_map(*it, words.seed, words.runs, not words.no_instructions) for it in words.kinds])


if __name__ == "__main__":
    end_with(main)
