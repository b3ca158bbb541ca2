"""Measures the library for C, called from Python, against the program as a process, on small and on large texts.

    python3 bench/library.py LIBRARY [--rounds N]
    python3 bench/library.py LIBRARY --instructions

LIBRARY is libnoshinka.so.1, as dist/libraries makes it; TOPOTOOL names the program. With --instructions valgrind counts, which
doesn't depend on other work: bench/library.c calls libnoshinka.a of the same folder, once and twice, and the difference is
one call; of the program it is a whole process. Otherwise times are processor times of this process
and of those that it starts, the least of some interleaved rounds: of a build of two squares, of a build of some 1 MB of
GeoJSON, and of a merge of the four quarters of the same map. Four threads build the two squares at once, and their wall time
is compared with that of one thread that builds as many. Nothing is compared with a goal.
"""

import argparse
import json
import os
import re
import resource
import subprocess
import sys
import tempfile
import threading
import time

TOP = os.path.dirname(os.path.dirname(os.path.abspath(__file__)))
PROGRAM = os.path.abspath(os.environ.get("TOPOTOOL", f"{TOP}/crates/topotool/out/topotool"))
SIDE = 80  # squares of the large map, in each direction
SMALL = 200  # small builds of a round


def used():
    """The processor time of this process and of those that it started and that have ended."""
    kinds = (resource.RUSAGE_SELF, resource.RUSAGE_CHILDREN)
    return sum(it.ru_utime + it.ru_stime for it in map(resource.getrusage, kinds))


def square(x, y):
    ring = [[x, y], [x + 1, y], [x + 1, y + 1], [x, y + 1], [x, y]]
    return {"type": "Feature", "id": x * SIDE + y, "properties": {"name": f"{x}, {y}"}, "geometry": {"type": "Polygon", "coordinates": [ring]}}


def collection(xs, ys):
    features = [square(x, y) for x in xs for y in ys]
    return json.dumps({"type": "FeatureCollection", "features": features}).encode()


def process(*words, given=None):
    return subprocess.run([PROGRAM, *words], input=given, stdout=subprocess.PIPE, check=True).stdout


def least(tasks, rounds):
    """The least processor time of each task."""
    best = {}
    for _ in range(rounds):
        for name, task in tasks.items():
            begun = used()
            task()
            best[name] = min(best.get(name, 1e9), used() - begun)
    return best


def in_threads(count, task):
    """The wall time of as many threads that each do a task."""
    threads = [threading.Thread(target=task) for _ in range(count)]
    begun = time.perf_counter()
    for it in threads:
        it.start()
    for it in threads:
        it.join()
    return time.perf_counter() - begun


def instructions(*words):
    """The instructions of a process, in millions."""
    words = ["valgrind", "--tool=callgrind", "--callgrind-out-file=/dev/null", *words]
    ran = subprocess.run(words, stdin=subprocess.DEVNULL, stdout=subprocess.DEVNULL, stderr=subprocess.PIPE, text=True, check=True)
    return int(re.search(r"Collected : (\d+)", ran.stderr)[1]) / 1e6


def count_calls(folder, small, large, quarters):
    """Prints the instructions of calls and of processes that do the same."""
    library, caller = os.path.dirname(os.environ["NOSHINKA_LIBRARY"]), f"{folder}/library"
    subprocess.run(["cc", "-O1", f"-I{TOP}/c", "-o", caller, f"{TOP}/bench/library.c", f"{library}/libnoshinka.a"], check=True)
    files = {"small.json": small, "large.json": large, **{f"{n}.json": text for n, text in enumerate(quarters)}}
    for name, text in files.items():
        with open(f"{folder}/{name}", "wb") as file:
            file.write(text)
    small, large, *quarters = (f"{folder}/{it}" for it in files)

    def call(name, *given):
        once, twice = (instructions(caller, name, str(times), *given) for times in (1, 2))
        return twice - once

    build = [PROGRAM, "build", "--grid", "1,1,0,0"]
    for what, by_call, by_process in (
        ("small build", call("build", small), instructions(*build, f"a={small}")),
        ("large build", call("build", large), instructions(*build, f"a={large}")),
        ("merge of quarters", call("merge", *quarters), instructions(PROGRAM, "merge", *quarters)),
    ):
        print(f"{what}: {by_call:.3f} million instructions by a call, {by_process:.3f} by a process")
    print(f"rounding of the large text: {call('round', large):.3f} million; copies of the quarters: {call('copy', *quarters):.3f} million")


def main():
    words = argparse.ArgumentParser()
    words.add_argument("library")
    words.add_argument("--rounds", type=int, default=9)
    words.add_argument("--instructions", action="store_true")
    words = words.parse_args()
    os.environ["NOSHINKA_LIBRARY"] = os.path.abspath(words.library)
    sys.path.insert(0, f"{TOP}/python")
    import noshinka

    halves = range(SIDE // 2), range(SIDE // 2, SIDE)
    small, large = collection(range(2), range(1)), collection(range(SIDE), range(SIDE))
    quarters = [noshinka.build({"a": collection(xs, ys)}) for xs in halves for ys in halves]
    grid = ["build", "--grid", "1,1,0,0", "a=-"]
    if words.instructions:
        with tempfile.TemporaryDirectory() as folder:
            return count_calls(folder, small, large, quarters)

    def builds():
        for _ in range(SMALL):
            noshinka.build({"a": small})

    with tempfile.TemporaryDirectory() as folder:
        names = [f"{folder}/{n}" for n in range(4)]
        for name, text in zip(names, quarters):
            with open(name, "wb") as file:
                file.write(text)
        tasks = {
            "small, library": builds,
            "small, process": lambda: [process(*grid, given=small) for _ in range(SMALL)],
            "large, library": lambda: noshinka.build({"a": large}),
            "large, process": lambda: process(*grid, given=large),
            "merge, library": lambda: noshinka.merge(quarters),
            "merge, process": lambda: process("merge", *names),
        }
        assert noshinka.merge(quarters) == process("merge", *names) == noshinka.build({"a": large})
        best = least(tasks, words.rounds)
    for name, seconds in best.items():
        print(f"{name}: {1000 * seconds / (SMALL if name.startswith('small') else 1):.3f} ms")
    alone = min(in_threads(1, lambda: [builds() for _ in range(4)]) for _ in range(3))
    four = min(in_threads(4, builds) for _ in range(3))
    print(f"{4 * SMALL} small builds: {1000 * alone:.0f} ms of wall time by one thread, {1000 * four:.0f} ms by four")
    print(f"library: {len(large):,} bytes of GeoJSON, {sum(map(len, quarters)):,} bytes of quarters, {words.rounds} rounds")


if __name__ == "__main__":
    main()
