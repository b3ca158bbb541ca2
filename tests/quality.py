#!/usr/bin/env python3
"""Compares `check --ids`, `check --near`, `mesh --by` and `neighbors --by` with a program written from their help, on random maps.

    python3 tests/quality.py [--seed N] [--texts N] [--seconds N]

A map has one or two layers of rectangles, walks and points on a small field, so that borders are shared, and some are drawn
twice, a step apart. Ids are missing or stand more than once; values of the property `p` are numbers, texts, null, lists and
objects, or there is none; some features stand in both layers. Near vertices are sought by comparing each pair, and borders
and neighbours by comparing each pair of features. With a limit of time it stops there. Ends with a line of counts, and with status 1 where
something differed, or almost no map was tried.
"""

import collections
import itertools
import json
import random
import sys
import tempfile

sys.dont_write_bytecode = True

from many_runs import LEAST_TEXTS, judged, told, topotool, words_of

IDS = [None, None, 1, 2, 3, 4, -5, "1", "a", "b\"c"]
VALUES = [1, 1, 2, "1", "a", None, True, [1, 2], [2, 1], {"x": 1, "y": [2]}, {"y": [2], "x": 1}]
GRIDS = [(1, 1, 0, 0), (10, 5, -500, 3)]
FIRST = 10


def compact(value):
    return json.dumps(value, sort_keys=True, separators=(",", ":"), ensure_ascii=False)


# ---- random maps, by numbers on the grid

def rectangle(chance, size):
    """A ring along the borders of grid cells, with every grid point on it, or with its corners alone."""
    x, y = chance.randrange(size), chance.randrange(size)
    w, h = chance.randint(1, 4), chance.randint(1, 4)
    if chance.random() < 0.3:
        ring = [(x, y), (x + w, y), (x + w, y + h), (x, y + h)]
    else:
        ring = [(x + i, y) for i in range(w)] + [(x + w, y + i) for i in range(h)]
        ring += [(x + w - i, y + h) for i in range(w)] + [(x, y + h - i) for i in range(h)]
    return [*ring, ring[0]]


def walk(chance, size):
    """A line that visits no position twice."""
    line = [(chance.randrange(size), chance.randrange(size))]
    for _ in range(chance.randint(1, 5)):
        x, y = line[-1]
        after = (x + chance.randint(-2, 2), y + chance.randint(-2, 2))
        if after not in line:
            line.append(after)
    return line if len(line) > 1 else [*line, (line[0][0] + 1, line[0][1])]


def geometry(chance, size):
    kind = chance.choice(["Polygon", "Polygon", "Polygon", "LineString", "Point", "MultiPoint", None])
    if kind == "Polygon":
        return kind, [rectangle(chance, size)]
    if kind == "LineString":
        return kind, walk(chance, size)
    if kind == "Point":
        return kind, (chance.randrange(size), chance.randrange(size))
    return kind, [(chance.randrange(size), chance.randrange(size)) for _ in range(3)]


def feature(chance, number, size):
    properties = {"n": number}
    if chance.random() < 0.8:
        properties["p"] = chance.choice(VALUES)
    return {"id": chance.choice(IDS), "properties": properties, "geometry": geometry(chance, size)}


def random_layers(chance):
    size, count = chance.choice([4, 8, 14]), chance.randint(1, 12)
    features = [feature(chance, number, size) for number in range(count)]
    layers = {"b": features}
    if chance.random() < 0.6:
        others = [feature(chance, count + number, size) for number in range(chance.randint(0, 5))]
        layers[chance.choice(["a", "c"])] = [it for it in features if chance.random() < 0.3] + others
    return layers


def in_order(features):
    """Features as a layer has them: without an id first, then numbers, then texts, then by properties."""
    def key(it):
        rank = 0 if it["id"] is None else 2 if isinstance(it["id"], str) else 1
        return rank, it["id"] if rank == 1 else 0, it["id"].encode() if rank == 2 else b"", compact(it["properties"]).encode()
    return sorted(features, key=key)


def geojson(features, grid):
    def placed(it):
        if isinstance(it, tuple):
            return [it[0] * grid[0] + grid[2], it[1] * grid[1] + grid[3]]
        return [placed(part) for part in it]
    made = []
    for it in features:
        kind, places = it["geometry"]
        shape = None if kind is None else {"type": kind, "coordinates": placed(places)}
        made.append({"type": "Feature", "properties": it["properties"], "geometry": shape})
        if it["id"] is not None:
            made[-1]["id"] = it["id"]
    return json.dumps({"type": "FeatureCollection", "features": made})


def vertices(it):
    kind, places = it["geometry"]
    return set() if kind is None else {places} if kind == "Point" else set(places[0] if kind == "Polygon" else places)


def segments(it):
    kind, places = it["geometry"]
    line = places[0] if kind == "Polygon" else places if kind == "LineString" else []
    return {frozenset(it) for it in itertools.pairwise(line)}


# ---- what has to be printed

def counted(count, what):
    return f"{count} {what}" if count == 1 else f"{count} {what}s"


def lines_of_ids(layers):
    """The lines of --ids, and whether all is well."""
    missing, repeated, lines = 0, 0, []
    for name, features in sorted(layers.items()):
        without = [number for number, it in enumerate(features) if it["id"] is None]
        places = collections.defaultdict(list)
        for number, it in enumerate(features):
            if it["id"] is not None:
                places[compact(it["id"])].append(number)
        twice = {id: numbers for id, numbers in places.items() if len(numbers) > 1}
        missing, repeated = missing + len(without), repeated + len(twice)
        lines += [f'layer "{name}": feature {number} has no id' for number in without]
        lines += [f'layer "{name}": id {id} more than once: features {", ".join(map(str, numbers))}' for id, numbers in twice.items()]
    return [f"ids: {counted(missing, 'feature')} without an id, {counted(repeated, 'id')} more than once", *lines], not lines


def lines_of_near(layers, steps, grid):
    """The lines of --near, and whether all is well."""
    named = [(f'layer "{name}"', number, it) for name, features in sorted(layers.items()) for number, it in enumerate(features)]
    owners = collections.defaultdict(list)
    for place, (_, _, it) in enumerate(named):
        for vertex in vertices(it):
            owners[vertex].append(place)

    def told_of(vertex, place):
        layer, number, it = named[place]
        x, y = vertex[0] * grid[0] + grid[2], vertex[1] * grid[1] + grid[3]
        return f"[{x},{y}] of {layer} " + (f"feature {number}" if it["id"] is None else f"id {compact(it['id'])}")

    lines, count = [], 0
    for one, other in itertools.combinations(sorted(owners), 2):
        if abs(one[0] - other[0]) > steps or abs(one[1] - other[1]) > steps:
            continue
        ones = [it for it in owners[one] if it not in owners[other]]
        others = [it for it in owners[other] if it not in owners[one]]
        if ones and others:
            count += 1
            lines.append(f"{told_of(one, ones[0])} and {told_of(other, others[0])}")
    first = f", the first {FIRST}" if count > FIRST else ""
    pairs = "1 pair" if count == 1 else f"{count} pairs"
    return [f"near: {pairs} of vertices at most {counted(steps, 'step')} apart{first}", *lines[:FIRST]], not count


def differ(one, other):
    """Whether two features differ in the property; null counts as none."""
    both = [it["properties"].get("p") for it in (one, other)]
    return None in both or compact(both[0]) != compact(both[1])


def dividing(features):
    """The segments that two features have that differ, of features each once."""
    each = list({compact(it): it for it in features}.values())
    return {segment for one, other in itertools.combinations(each, 2) if differ(one, other) for segment in segments(one) & segments(other)}


def neighbors(features):
    """For each feature the places of those that have a segment with it and differ."""
    return [[place for place, other in enumerate(features) if other is not one and segments(one) & segments(other) and differ(one, other)]
            for one in features]


def is_mesh(lines, wanted, grid):
    """Whether the lines have just these segments, each once, and end only where not two of them meet, or where they began."""
    had, ends = [], []
    for line in lines:
        places = [((x - grid[2]) // grid[0], (y - grid[3]) // grid[1]) for x, y in line]
        had += [frozenset(it) for it in itertools.pairwise(places)]
        ends += [] if places[0] == places[-1] else [places[0], places[-1]]
    meeting = collections.Counter(vertex for segment in wanted for vertex in segment)
    return len(had) == len(wanted) and set(had) == wanted and all(meeting[it] != 2 for it in ends)


def wrong(seed):
    """What is wrong with the answers about a random map, in words."""
    chance = random.Random(seed)
    layers, grid, steps = random_layers(chance), chance.choice(GRIDS), chance.choice([1, 1, 2, 3, 100])
    with tempfile.TemporaryDirectory() as folder:
        for name, features in layers.items():
            with open(f"{folder}/{name}.json", "w", encoding="utf-8") as file:
                file.write(geojson(features, grid))
        file = f"{folder}/t.json"
        built = topotool("build", "--grid", ",".join(map(str, grid)), *(f"{it}={folder}/{it}.json" for it in layers), "-o", file)
        if built.returncode:
            return f"seed {seed}: not built: {built.stderr!r}"
        layers = {name: in_order(features) for name, features in layers.items()}
        ids, is_good = lines_of_ids(layers)
        near, is_far = lines_of_near(layers, steps, grid)
        for words, lines, good in [(["--ids"], ids, is_good), (["--near", str(steps)], near, is_far),
                                   (["--near", str(steps), "--ids"], ids + near, is_good and is_far)]:
            ran = topotool("check", *words, file)
            if (ran.stdout.decode(), ran.stderr, ran.returncode) != ("\n".join(["canonical", *lines, ""]), b"", 0 if good else 1):
                return f"seed {seed}: check {words}: {ran.stdout.decode()}{ran.stderr!r}, and not\n" + "\n".join(lines)
        for words, features in [([], sum(layers.values(), [])), (["--layer", "b"], layers["b"])]:
            ran = topotool("mesh", "--by", "p", *words, file)
            if ran.returncode or not is_mesh(json.loads(ran.stdout)["coordinates"], dividing(features), grid):
                return f"seed {seed}: mesh {words}: {ran.stdout!r} {ran.stderr!r}"
        ran = topotool("neighbors", "--by", "p", "--layer", "b", file)
        if ran.returncode or json.loads(ran.stdout) != neighbors(layers["b"]):
            return f"seed {seed}: neighbors: {ran.stdout!r} {ran.stderr!r}"
    return None


def main():
    words = words_of(3000)
    seeds = range(words.seed * 1_000_000, words.seed * 1_000_000 + words.texts)
    answers = list(judged(wrong, seeds, words.seconds))
    differing = [answer for answer in answers if answer]
    for answer in differing[:5]:
        print(answer)
    print(f"{told(len(answers), words.texts, 'maps', words.seconds)}, {len(differing)} differ")
    sys.exit(bool(differing) or len(answers) < min(LEAST_TEXTS, words.texts))


if __name__ == "__main__":
    main()
