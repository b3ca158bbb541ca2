"""Writes a made-up country as shards: each a GeoJSON file of some of its districts, as from one of many hands.

    python3 shards.py FOLDER [--shards N] [--side N]

The districts are dealt over the shards so that neighbours stand in different files, and every seventh district
stands in two of them. Coordinates are multiples of 10.
"""

import argparse
import json

STEP = 1000


def bend(*numbers):
    """How far a vertex stands off the straight border: the same whoever draws it."""
    return 10 * (sum(factor * it for factor, it in zip((7, 13, 5, 3), numbers)) % 31 - 15)


def across(column, row):
    """The border from a corner to the next one on its right, without that one."""
    at = [(STEP * column + 200 * it, STEP * row + bend(column, row, it, 1)) for it in range(1, 5)]
    return [(STEP * column, STEP * row), *at]


def up(column, row):
    """The border from a corner to the next one above it, without that one."""
    at = [(STEP * column + bend(column, row, it, 2), STEP * row + 200 * it) for it in range(1, 5)]
    return [(STEP * column, STEP * row), *at]


def back(border, end):
    return [end, *border[:0:-1]]


def district(column, row, side):
    right, top = (STEP * (column + 1), STEP * (row + 1))
    ring = across(column, row) + up(column + 1, row)
    ring += back(across(column, row + 1), (right, top)) + back(up(column, row), (STEP * column, top))
    number = row * side + column
    return {"type": "Feature", "id": number, "properties": {"name": f"District {number}"}, "geometry": {"type": "Polygon", "coordinates": [[*ring, ring[0]]]}}


def main():
    words = argparse.ArgumentParser()
    words.add_argument("folder")
    words.add_argument("--shards", type=int, default=23)
    words.add_argument("--side", type=int, default=12)
    words = words.parse_args()
    shards = [[] for _ in range(words.shards)]
    for number in range(words.side**2):
        found = district(number % words.side, number // words.side, words.side)
        shards[number % words.shards].append(found)
        if number % 7 == 0:
            shards[(number + 5) % words.shards].append(found)
    for number, features in enumerate(shards):
        with open(f"{words.folder}/{number:03}.geojson", "w", encoding="utf-8") as file:
            json.dump({"type": "FeatureCollection", "features": features}, file, separators=(",", ":"))


if __name__ == "__main__":
    main()
