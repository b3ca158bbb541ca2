#!/usr/bin/env python3
"""Writes maps of districts as GeoJSON.

A tiling is a square of districts. Each is a polygon of four sides with many wiggles, and each inner
side is shared by two districts. Each side has 26 positions; in a tiling of short arcs it has 4 to 8.
A map of coasts has pairs of countries, with one border and a long coast, and islands that touch
nothing, each of which belongs to one of the two. All coordinates are whole numbers, so a map is on
the grid 1,1,0,0. The same kind, size and seed give the same bytes.

    python3 bench/generate.py --kind tiling --positions 1000000 --seed 1 --shards 16 FOLDER

writes FOLDER/tiling.json, and FOLDER/shard_00.json and so on, which together have its districts.
"""

import argparse
import json
import os
import random

CELL = 1000  # the side of a district
STEPS = 25  # segments of a side
SWING = 80  # how far a side may leave its straight line
SLANT = 15  # and how far, for each segment from its nearer end: sides of one corner stay apart
SHORT = (3, 7)  # segments of a side where arcs are short
REACH = 40  # how far a segment of a coast goes
COAST, ISLAND = 400, (3, 60)  # segments of a side of a country, and of an island
COUNTRIES, ISLANDS = 3, 10  # of a group


def districts_per_side(positions, steps):
    """How many districts a side of the square has, for about this many positions in all."""
    return max(1, round((positions / (4 * steps + 1)) ** 0.5))


def side(rng, start, end, steps=STEPS):
    """The positions from start to end, both included."""
    positions = [start]
    for step in range(1, steps):
        x = start[0] + (end[0] - start[0]) * step // steps
        y = start[1] + (end[1] - start[1]) * step // steps
        swing = min(SWING, SLANT * min(step, steps - step))
        if abs(end[0] - start[0]) > abs(end[1] - start[1]):
            y += rng.randint(-swing, swing)
        else:
            x += rng.randint(-swing, swing)
        positions.append((x, y))
    positions.append(end)
    return positions


def around(bottom, right, top, left):
    """The ring of four sides, which go to the right and up."""
    return bottom[:-1] + right[:-1] + top[:0:-1] + left[::-1]


def tiling(positions, seed, segments=(STEPS, STEPS)):
    """The districts of a tiling, row by row: lists of the positions of their rings. A side has so many segments, from the
    least to the most."""
    rng = random.Random(seed)
    least, most = segments
    count = districts_per_side(positions, (least + most) / 2)
    corners = [
        [
            (CELL * x + rng.randint(-SWING, SWING), CELL * y + rng.randint(-SWING, SWING))
            for x in range(count + 1)
        ]
        for y in range(count + 1)
    ]

    def border(start, end):
        return side(rng, start, end, least if least == most else rng.randint(least, most))

    flat = [
        [border(corners[y][x], corners[y][x + 1]) for x in range(count)]
        for y in range(count + 1)
    ]
    upright = [
        [border(corners[y][x], corners[y + 1][x]) for x in range(count + 1)]
        for y in range(count)
    ]
    return [
        [around(flat[y][x], upright[y][x + 1], flat[y + 1][x], upright[y][x]) for x in range(count)]
        for y in range(count)
    ]


def features(rows):
    """The districts as GeoJSON features, row by row."""
    return [
        [
            {
                "type": "Feature",
                "id": y * len(row) + x,
                "properties": {"name": f"district {x} {y}", "row": y},
                "geometry": {"type": "Polygon", "coordinates": [ring]},
            }
            for x, ring in enumerate(row)
        ]
        for y, row in enumerate(rows)
    ]


def land(rng, corner, steps, left=None):
    """The ring of a square of land, whose left side may be there already, and its right side."""
    (x, y), reach = corner, REACH * steps
    right = side(rng, (x + reach, y), (x + reach, y + reach), steps)
    bottom = side(rng, corner, (x + reach, y), steps)
    top = side(rng, (x, y + reach), (x + reach, y + reach), steps)
    return around(bottom, right, top, left or side(rng, corner, (x, y + reach), steps)), right


def group(rng, x, y):
    """The rings of each of three countries: the second has a border with the first, and the third is an island. Below them is
    a row of small islands, which belong to one after the other."""
    width, gap = REACH * COAST, 4 * SWING
    first, border = land(rng, (x, y), COAST)
    second, _ = land(rng, (x + width, y), COAST, border)
    third, _ = land(rng, (x + 2 * width + gap, y), COAST)
    rings = [[first], [second], [third]]
    for place in range(ISLANDS):
        corner = (x + place * (REACH * ISLAND[1] + gap), y - REACH * ISLAND[1] - gap)
        rings[place % COUNTRIES].append(land(rng, corner, rng.randint(*ISLAND))[0])
    return rings


def coasts(positions, seed):
    """The countries of a map of coasts, as GeoJSON features."""
    rng = random.Random(seed)
    of_group = COUNTRIES * (4 * COAST + 1) + ISLANDS * (2 * sum(ISLAND) + 1)
    groups = max(1, round(positions / of_group))
    across = max(1, round(groups**0.5))
    width, height = (COUNTRIES + 1) * REACH * COAST, REACH * (COAST + ISLAND[1]) + 8 * SWING
    rings = [it for place in range(groups) for it in group(rng, place % across * width, place // across * height)]
    return [
        {
            "type": "Feature",
            "id": number,
            "properties": {"name": f"country {number}", "row": number // (COUNTRIES * across)},
            "geometry": {"type": "MultiPolygon", "coordinates": [[ring] for ring in its]},
        }
        for number, its in enumerate(rings)
    ]


def districts(positions, seed, segments=(STEPS, STEPS)):
    return [member for row in features(tiling(positions, seed, segments)) for member in row]


KINDS = {
    "tiling": districts,
    "short arcs": lambda positions, seed: districts(positions, seed, SHORT),
    "coasts": coasts,
}


def rings_of(member):
    kind, content = member["geometry"]["type"], member["geometry"]["coordinates"]
    return content if kind == "Polygon" else [ring for polygon in content for ring in polygon]


def write_collection(path, members):
    with open(path, "w") as file:
        file.write('{"type":"FeatureCollection","features":[')
        for place, member in enumerate(members):
            # a whole feature at once: `json.dump` would write number by number
            text = json.dumps(member, separators=(",", ":"))
            file.write("," + text if place > 0 else text)
        file.write("]}")


def write_map(folder, kind, positions, seed, shards):
    """Writes the whole map, and its features spread over shards."""
    os.makedirs(folder, exist_ok=True)
    members = KINDS[kind](positions, seed)
    write_collection(os.path.join(folder, "tiling.json"), members)
    for shard in range(shards):
        start = len(members) * shard // shards
        end = len(members) * (shard + 1) // shards
        write_collection(os.path.join(folder, f"shard_{shard:02}.json"), members[start:end])
    return sum(len(ring) for member in members for ring in rings_of(member))


def main():
    parser = argparse.ArgumentParser(description="Writes a map of districts as GeoJSON.")
    parser.add_argument("folder")
    parser.add_argument("--kind", choices=KINDS, default="tiling")
    parser.add_argument("--positions", type=int, default=1_000_000)
    parser.add_argument("--seed", type=int, default=1)
    parser.add_argument("--shards", type=int, default=0)
    words = parser.parse_args()
    count = write_map(words.folder, words.kind, words.positions, words.seed, words.shards)
    print(f"{count} positions")


if __name__ == "__main__":
    main()
