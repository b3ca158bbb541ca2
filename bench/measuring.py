"""What the scripts share that measure programs: running one, comparing bytes, making tilings."""

import argparse
import filecmp
import os
import resource
import subprocess
import sys

HERE = os.path.dirname(os.path.abspath(__file__))
TOP = os.path.dirname(HERE)
TOOL = os.path.join(TOP, "crates", "topotool", "out", "topotool")
BENCH = os.path.join(TOP, "crates", "examples", "out", "examples")
GENERATE = os.path.join(HERE, "generate.py")
GRID = ["--grid", "1,1,0,0"]


class Measure:
    """Processor seconds and peak megabytes."""

    def __init__(self, seconds, megabytes):
        self.seconds = seconds
        self.megabytes = megabytes


class Failed(Exception):
    """A program that has to succeed did not."""


def end_with(main):
    """Ends a script with the status that its `main` answers, or with 1 and a message where a program failed."""
    try:
        sys.exit(main())
    except Failed as fault:
        sys.exit(str(fault))


def stop(why):
    """Ends with status 2: nothing can be measured."""
    print(f"{os.path.basename(sys.argv[0])}: {why}", file=sys.stderr)
    sys.exit(2)


def need(*programs):
    """Ends where a program is not there."""
    for program in programs:
        if not os.access(program, os.X_OK):
            stop(f"{program} is not there: build it by rt run in crates/{os.path.basename(program)}")


def parser_of(description, runs=5):
    """A parser of the words that most scripts take."""
    parser = argparse.ArgumentParser(description=description)
    parser.add_argument("--positions", type=int, default=1_000_000)
    parser.add_argument("--seed", type=int, default=1)
    parser.add_argument("--runs", type=int, default=runs)
    return parser


def run_once(words, out, most_seconds=None, statuses=(0,)):
    """Runs a program to its end, with its output in a file; one that takes more processor seconds is ended. It has to end
    with one of some statuses."""
    limit = most_seconds and (lambda: resource.setrlimit(resource.RLIMIT_CPU, (most_seconds, most_seconds)))
    with open(out, "wb") as file:
        child = subprocess.Popen(words, stdout=file, preexec_fn=limit)
        try:
            _, status, usage = os.wait4(child.pid, 0)
        except BaseException:
            child.kill()
            raise
        child.returncode = os.waitstatus_to_exitcode(status)
    if child.returncode not in statuses:
        raise Failed(f"{' '.join(words[:3])} ended with {child.returncode}")
    return Measure(usage.ru_utime + usage.ru_stime, usage.ru_maxrss / 1024)


def least(measures):
    """The least time and the greatest memory of some runs."""
    return Measure(
        min(each.seconds for each in measures), max(each.megabytes for each in measures)
    )


def by_turns(programs, out, runs, look=None, statuses=(0,)):
    """The measures of programs, by their keys, that are run by turns, so that all meet the same hours of a shared
    machine. After each run `look` is called with the program's key, while what it printed stands in `out`.
    """
    measures = {}
    for _ in range(runs):
        for key, words in programs.items():
            measures.setdefault(key, []).append(run_once(words, out, statuses=statuses))
            if look:
                look(key)
    return {key: least(each) for key, each in measures.items()}


def measure_both(command, other, out, runs):
    """The measures of two programs that are run by turns."""
    return by_turns({"command": command, "other": other}, out, runs).values()


def write_tiling(folder, positions, seed, shards, kind="tiling"):
    """Writes a tiling, or another kind of map, and its shards, and answers how many positions it has.

    Another process makes it: a measured program's peak memory counts from its parent's.
    """
    words = [sys.executable, GENERATE, folder, "--positions", str(positions), "--seed", str(seed)]
    words += ["--shards", str(shards), "--kind", kind]
    told = subprocess.run(words, check=True, capture_output=True, text=True).stdout
    return int(told.split()[0])


def build_topology(source, to):
    """Builds the topology of a GeoJSON file, as the layer `a`."""
    run_once([TOOL, "build", *GRID, f"a={source}"], to)


def make_topologies(folder, positions, seed, shards):
    """Writes a tiling, its topology and those of its shards, and answers how many positions it has and the files."""
    count = write_tiling(folder, positions, seed, shards)
    names = [os.path.join(folder, name) for name in ("tiling", *[f"shard_{shard:02}" for shard in range(shards)])]
    for name in names:
        build_topology(f"{name}.json", f"{name}.topo.json")
    whole, *parts = [f"{name}.topo.json" for name in names]
    return count, whole, parts


def same_bytes(left, right):
    return filecmp.cmp(left, right, shallow=False)
