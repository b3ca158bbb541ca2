#!/usr/bin/env python3
"""Compares `togrid --back` on other transforms with a program over Python's fractions that is written from docs/TOGRID.md.

    python3 tests/back.py [--seed N] [--texts N] [--seconds N]

The topologies are those that togrid builds of the random GeoJSON of tests/togrid.py. Each goes back with random options: the unit,
and `--like` a topology of a random transform (scales that are small, great, unequal, negative, with exponents), or `--quantize N`.

What is compared: the transform, number for number, and with `--quantize` its size; each position of points and arcs; ids,
properties and types. Ends with a line of counts, and with status 1 where something
differed, or almost no topology was tried.
"""

import itertools
import json
import random
import sys
import tempfile
from fractions import Fraction

sys.dont_write_bytecode = True

import rounding
import togrid
from stitching import LONGEST, places_of
from many_runs import LEAST_TEXTS, TOGRID, judged, look_for_program, told, words_of
from togrid import Maker, dumped, spelled

SCALES = ["0.0036003600360036005", "1", "1e-5", "25e-2", "0.1", "123.456", "-0.5", "7"]
COUNTS = [2, 3, 100, 10**4, 10**6]
MOST_PLACES = 17


class Raw(str):
    """A number as it is written."""


def read(text):
    """A value of JSON whose numbers keep their text."""
    return json.loads(text, parse_int=Raw, parse_float=Raw)


# ---- transforms

class Axis:
    """An axis of a transform: what is written, and what it is worth."""

    def __init__(self, scale, translate):
        self.words, self.scale, self.translate = (scale, translate), Fraction(scale), Fraction(translate)

    def has_few_digits(self):
        """Whether both numbers have at most 25 digits over one power of ten, and not so many places that it may be refused."""
        places = max(map(places_of, self.words))
        return places <= MOST_PLACES and all(abs(it) * 10**places < LONGEST for it in (self.scale, self.translate))

    def number(self, worth):
        """The nearest whole number, of two the one farther from 0."""
        return rounding.nearest((worth - self.translate) / self.scale, 1)


def axes_of(topology):
    return [Axis(*it) for it in zip(topology["transform"]["scale"], topology["transform"]["translate"])]


def like(chance, unit):
    """A topology of a random transform near a map, and its axes; there may be other members."""
    numbers = []
    for _ in range(2):
        scale, translate = Fraction(chance.choice(SCALES)) * unit * 10 ** chance.choice([0, 0, 2, 4]), chance.randint(-10**4, 10**4) * unit
        numbers.append([spelled(chance, *decimal(it)) for it in (scale, translate)])
    scales, translates = zip(*numbers)
    transform = f'{{"translate":[{",".join(translates)}],"scale":[{",".join(scales)}]}}'
    members = [f'"transform":{transform}', '"type":"Topology"', '"arcs":[[[0.5,"x"]]]', '"objects":5', '"bbox":null']
    members = members[:2] + chance.sample(members[2:], chance.randint(0, 3))
    chance.shuffle(members)
    return "{" + ",".join(members) + "}", [Axis(*it) for it in numbers]


def decimal(worth):
    places = next(it for it in itertools.count() if (worth * 10**it).denominator == 1)
    return int(worth * 10**places), places


# ---- what has to be printed

def along(arc):
    return list(itertools.accumulate(((int(x), int(y)) for x, y in arc), lambda a, b: (a[0] + b[0], a[1] + b[1])))


class Back:
    """The numbers of positions of a topology on other axes."""

    def __init__(self, built, axes, unit):
        grid = [(int(scale) * unit, int(translate) * unit) for scale, translate in zip(built["transform"]["scale"], built["transform"]["translate"])]
        self.axes, self.grid = axes, grid

    def numbers(self, position):
        return tuple(axis.number(int(n) * scale + translate) for axis, n, (scale, translate) in zip(self.axes, position, self.grid))

    def arc(self, arc):
        """The numbers along an arc: those that are equal to the ones before are left out, but for the second of two."""
        found = [self.numbers(it) for it in along(arc)]
        made = [it for i, it in enumerate(found) if i == 0 or it != found[i - 1]]
        return made if len(made) > 1 else made * 2

    def coordinates(self, geometry):
        if geometry["type"] == "Point":
            return self.numbers(geometry["coordinates"])
        return [self.numbers(it) for it in geometry["coordinates"]]


def as_numbers(coordinates):
    """The numbers of a position, or of a list of them."""
    is_one = bool(coordinates) and isinstance(coordinates[0], str)
    return tuple(map(int, coordinates)) if is_one else [tuple(map(int, it)) for it in coordinates]


def wrong_geometry(one, other, back):
    if one.get("properties") != other.get("properties"):
        return f"properties {other.get('properties')}"
    if (one.get("id"), one["type"]) != (other.get("id"), other["type"]) or "arcs" in one and "arcs" not in other:
        return f"geometry {other}"
    if "coordinates" in one and as_numbers(other["coordinates"]) != back.coordinates(one):
        return f"coordinates {other['coordinates']}, wanted {back.coordinates(one)}"
    return None


def wrong_size(built, axes, count, unit):
    """What is wrong with the axes that --quantize makes, or nothing: from 0 to the last of so many numbers, along the bounding box. A
    scale has twelve places more than the unit, and is rounded up, so a small map may end before."""
    for axis, it in enumerate(axes):
        least, greatest = (int(built["bbox"][at]) * unit for at in (axis, axis + 2))
        missing = count - 1 - it.number(greatest) if greatest > least else 0
        if it.number(least) != 0 or not 0 <= missing <= 1 + (count - 1) ** 2 * unit / (10**12 * max(greatest - least, unit)):
            return f"numbers from {it.number(least)} to {it.number(greatest)} by {it.words}"
    return None


def wrong_back(built, back, axes, unit):
    """What is wrong with a topology on the way back, or nothing."""
    found = axes_of(back)
    if axes and [it.words for it in found] != [it.words for it in axes]:
        return f"transform {back['transform']}"
    if [Fraction(it) for it in back.get("bbox", [])] != [int(it) * unit for it in built.get("bbox", [])]:
        return f"bbox {back['bbox']}"
    numbers = Back(built, found, unit)
    if [along(it) for it in back["arcs"]] != [numbers.arc(it) for it in built["arcs"]]:
        return f"arcs {back['arcs']}"
    for name, layer in built["objects"].items():
        for one, other in zip(layer["geometries"], back["objects"][name]["geometries"], strict=True):
            if wrong := wrong_geometry(one, other, numbers):
                return wrong
    return None


def judge(seed):
    """Whether a topology was tried, and what is wrong with it on the way back, or nothing."""
    chance = random.Random(seed)
    options = togrid.options_of(chance)
    options.is_sequence, options.scales, options.reals = False, {}, chance.choice(["whole", "text"])
    text = dumped(chance, Maker(chance, options).root(), ",")
    count = chance.choice(COUNTS)
    with tempfile.TemporaryDirectory() as folder:
        built = togrid.togrid("--build", "-q", *options.words(), "map=-", input=text.encode())
        if built.returncode:
            return None
        with open(f"{folder}/map.topo.json", "wb") as out:
            out.write(built.stdout)
        other, axes = like(chance, options.one)
        with open(f"{folder}/like.json", "w", encoding="utf-8") as out:
            out.write(other)
        kind = chance.choice(["like", "quantize", None])
        words = ["--rewind", "keep", *(["--unit", options.unit] if options.unit else [])]
        words += {"like": ["--like", f"{folder}/like.json"], "quantize": ["--quantize", str(count)], None: []}[kind]
        ran = togrid.togrid("--back", *words, f"{folder}/map.topo.json")
    one = read(built.stdout)
    if kind == "like" and not all(it.has_few_digits() for it in axes) and ran.returncode:
        is_right = (ran.returncode, ran.stderr.decode()) == (4, f"togrid: {folder}/like.json: 6 OutOfRange $/transform\n")
        wrong = None if is_right else f"{ran.returncode} {ran.stderr!r}"
    elif ran.returncode or ran.stderr:
        wrong = f"{ran.returncode} {ran.stderr!r}"
    else:
        back = read(ran.stdout)
        wrong = wrong_back(one, back, axes if kind == "like" else None, options.one)
        if kind == "quantize" and "bbox" in one:
            wrong = wrong or wrong_size(one, axes_of(back), count, options.one)
    return wrong and f"seed {seed}: {words}: {wrong}\n  of {built.stdout!r}\n  {ran.stdout!r}"


def main():
    words = words_of(2000)
    look_for_program(TOGRID)
    seeds = range(words.seed * 1_000_000, words.seed * 1_000_000 + words.texts)
    answers = list(judged(judge, seeds, words.seconds))  # None is right, or a map that isn't built
    differ = [it for it in answers if it]
    for it in differ[:5]:
        print(it[:3000])
    print(f"{told(len(answers), words.texts, 'maps', words.seconds)}, {len(differ)} differ")
    return 1 if differ or len(answers) < min(LEAST_TEXTS, words.texts) else 0


if __name__ == "__main__":
    sys.exit(main())
