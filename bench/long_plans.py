#!/usr/bin/env python3
"""Merges very many files at once, in each shape of plan, on a stack of the usual size.

    (cd crates/topotool && rt run)
    python3 bench/long_plans.py

builds the program, and then merges 100,000 topologies of one square each, left, right and by
halves, with a stack of 8 MB. There are 10,000 squares, and each file is named ten times. Each text
is compared, byte by byte, with the build of all squares at once. Prints processor times, and ends
with status 1 where a text differs or the program fails.
"""

import argparse
import json
import os
import resource
import subprocess
import sys
import tempfile

sys.dont_write_bytecode = True

from measuring import GRID, TOOL, same_bytes

SHAPES = ["left", "right", "halves"]
DIGITS = "0123456789abcdefghijklmnopqrstuvwxyz"


def short_name(number):
    """A name of four letters and digits: all names together are words of one command."""
    letters = ""
    for _ in range(4):
        number, digit = divmod(number, len(DIGITS))
        letters = DIGITS[digit] + letters
    return letters


def write_compact(name, value):
    with open(name, "w", encoding="ascii") as file:
        json.dump(value, file, separators=(",", ":"))


def square_topology(x, y):
    """A topology whose one arc is the border of a square, against the direction of its ring."""
    return {
        "type": "Topology",
        "transform": {"scale": [1, 1], "translate": [0, 0]},
        "arcs": [[[x, y], [0, 1], [1, 0], [0, -1], [-1, 0]]],
        "objects": {
            "a": {
                "type": "GeometryCollection",
                "geometries": [{"type": "Polygon", "arcs": [[-1]]}],
            }
        },
    }


def square_feature(x, y):
    ring = [[x, y], [x + 1, y], [x + 1, y + 1], [x, y + 1], [x, y]]
    geometry = {"type": "Polygon", "coordinates": [ring]}
    return {"type": "Feature", "properties": None, "geometry": geometry}


def write_squares(folder, count):
    """Writes a square after the other, in rows, each into a file; and all of them into one."""
    columns = max(1, int(count**0.5))
    places = [(number % columns, number // columns) for number in range(count)]
    names = [short_name(number) for number in range(count)]
    for name, (x, y) in zip(names, places):
        write_compact(os.path.join(folder, name), square_topology(x, y))
    features = [square_feature(x, y) for x, y in places]
    whole = {"type": "FeatureCollection", "features": features}
    write_compact(os.path.join(folder, "whole.json"), whole)
    return names


def limit_stack(kilobytes):
    """The limit that `ulimit -s` sets."""
    _, hard = resource.getrlimit(resource.RLIMIT_STACK)
    resource.setrlimit(resource.RLIMIT_STACK, (kilobytes * 1024, hard))


def run(words, folder, out, kilobytes):
    """Runs the program to its end, and answers its status and processor seconds."""
    with open(os.path.join(folder, out), "wb") as file:
        child = subprocess.Popen(
            [TOOL, *words], cwd=folder, stdout=file, preexec_fn=lambda: limit_stack(kilobytes)
        )
        _, status, usage = os.wait4(child.pid, 0)
        child.returncode = os.waitstatus_to_exitcode(status)
    return child.returncode, usage.ru_utime + usage.ru_stime


def judge_shape(shape, names, folder, kilobytes):
    """Merges in one shape, prints how it went, and answers whether the text is right."""
    out = f"{shape}.topo.json"
    status, seconds = run(["merge", "--shape", shape, *names], folder, out, kilobytes)
    if status != 0:
        print(f"{shape}: ended with {status}")
        return False
    same = same_bytes(os.path.join(folder, out), os.path.join(folder, "whole.topo.json"))
    print(f"{shape}: {seconds:.2f} s, {'the bytes' if same else 'NOT the bytes'} of the whole")
    return same


def main():
    parser = argparse.ArgumentParser(description="Merges very many files in each shape of plan.")
    parser.add_argument("--words", type=int, default=100_000, help="how many files are named")
    parser.add_argument("--files", type=int, default=10_000, help="how many files there are")
    parser.add_argument("--stack", type=int, default=8192, help="kilobytes")
    words = parser.parse_args()
    with tempfile.TemporaryDirectory() as folder:
        files = write_squares(folder, words.files)
        names = [files[place % len(files)] for place in range(words.words)]
        build = ["build", *GRID, "a=whole.json"]
        status, seconds = run(build, folder, "whole.topo.json", words.stack)
        if status != 0:
            sys.exit(f"the build of the whole ended with {status}")
        print(f"{len(names)} words, a stack of {words.stack} KB; build: {seconds:.2f} s")
        judged = [judge_shape(shape, names, folder, words.stack) for shape in SHAPES]
    sys.exit(0 if all(judged) else 1)


if __name__ == "__main__":
    main()
