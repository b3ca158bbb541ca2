#!/usr/bin/env python3
"""Compares the properties that `togrid --back` prints with a program over Python's fractions that is written from docs/TOGRID.md.

    python3 tests/numbers_back.py [--seed N] [--texts N] [--seconds N]

Half of the maps are GeoJSON with numbers in many spellings, which `togrid --build` takes with random `--reals`; the others are
topologies with any texts and whole numbers. Their columns have whole numbers, numbers with a fraction, texts that look like numbers
and almost do, nulls, lists and objects, or all of these, and some features lack them. Each goes back with `--numbers`, with
names, or without, with scales or not, and as it is, `--like` another topology or by `--quantize`.

What is compared: each property, a number by its value and also by its digits; and of what was GeoJSON, that columns of numbers have the
numbers of the file. Ends with a line of counts, and with status 1 where something differed, or almost no map was tried.
"""

import json
import random
import sys
import tempfile
from fractions import Fraction

sys.dont_write_bytecode = True

import rounding
import togrid
from back import Raw, read
from many_runs import LEAST_TEXTS, TOGRID, judged, look_for_program, told, words_of
from togrid import spelled

NAMES = ["a", "b", "area", "rate", "é", "a b", "", "x,y", "0", "a\"b"]
LOOKALIKES = ["1.5", "-0.25", "1e5", "1E-3", "-0", "0.0", "12", "007", "+1", ".5", "1.", " 1", "1 ", "1e", "NaN", "", "-", "0x1", "1_0", "１", "1,5", "2.50e+07",
              "123456789012345678901234567890.5", "1e999", "-1.0e-999", "true", "null", "[1]", "1\n"]
KINDS = ["whole", "real", "real", "mixed", "text", "alike", "alike", "null", "any"]
GREAT = [0, 1, -1, 10, 1300, 999999, 2**53, 2**63, 2**64 - 1, -(2**63), 10**12]


# ---- maps

def alike(chance):
    """A text that is a number, and rarely one that isn't."""
    return chance.choice(LOOKALIKES[:6] if chance.random() < 0.95 else LOOKALIKES)


def numeral(chance, places):
    """A number as it may be written."""
    return Raw(spelled(chance, chance.randint(-10**6, 10**6), chance.choice(places)))


class Column:
    """Makes the values of a property. Numbers are as they are written; a topology has whole ones alone."""

    def __init__(self, chance, is_topology):
        self.chance, self.is_topology, self.kind = chance, is_topology, chance.choice(KINDS)
        self.gaps = chance.choice([0, 0, 0.1, 0.5])

    def whole(self):
        return Raw(self.chance.choice(GREAT) if self.chance.random() < 0.3 else self.chance.randint(-10**6, 10**6))

    def real(self):
        if self.is_topology:
            return str(rounding.spelled(numeral(self.chance, [1, 2, 3, 7])))
        return numeral(self.chance, [0, 0, 1, 2, 3, 7])

    def any(self):
        one = self.chance.choice([self.whole(), self.real(), alike(self.chance), "text", True, None])
        return self.chance.choice([one, one, [one], {"a": one}])

    def value(self):
        if self.chance.random() < self.gaps:
            return None
        made = {"whole": self.whole, "real": self.real, "mixed": lambda: self.chance.choice([self.whole, self.real])(), "text": lambda: f"n{self.whole()}",
                "alike": lambda: alike(self.chance), "null": lambda: None, "any": self.any}
        return made[self.kind]()


def layer(chance, is_topology):
    """The properties of features."""
    columns = {name: Column(chance, is_topology) for name in chance.sample(NAMES, chance.randint(1, 5))}
    lacking = chance.choice([0, 0, 0.1])
    return [{name: it.value() for name, it in columns.items() if chance.random() >= lacking} for _ in range(chance.randint(0, 6))]


def text_of(value):
    """The text of a value, whose numbers are as they are written."""
    if isinstance(value, Raw):
        return str(value)
    if isinstance(value, list):
        return f"[{','.join(map(text_of, value))}]"
    if isinstance(value, dict):
        return "{" + ",".join(f"{json.dumps(name)}:{text_of(it)}" for name, it in value.items()) + "}"
    return json.dumps(value)


def feature(number, properties, is_topology):
    body = {"type": "Point", "coordinates": [Raw(number), Raw(2 * number)]}
    return {"id": Raw(number), "properties": properties, **body} if is_topology else {"type": "Feature", "id": Raw(number), "properties": properties, "geometry": body}


def files_of(layers, is_topology):
    """The texts of files, by their names: a topology, or GeoJSON for each layer."""
    made = {name: [feature(number + 1, it, is_topology) for number, it in enumerate(its)] for name, its in layers.items()}
    if not is_topology:
        return {f"{name}.geojson": text_of({"type": "FeatureCollection", "features": it}) for name, it in made.items()}
    objects = {name: {"type": "GeometryCollection", "geometries": it} for name, it in made.items()}
    transform = {"scale": [Raw(1), Raw(1)], "translate": [Raw(0), Raw(0)]}
    return {"map.topo.json": text_of({"type": "Topology", "transform": transform, "arcs": [], "objects": objects})}


# ---- what has to be printed

class Rules:
    """The options of the way back: which texts become numbers, and which numbers are divided."""

    def __init__(self, chance):
        self.names = chance.sample([it for it in NAMES if it and "," not in it], chance.randint(1, 3)) if chance.random() < 0.4 else None
        self.has_numbers = self.names is not None or chance.random() < 0.8
        self.scales = {name: chance.choice([0, 1, 3, 12]) for name in NAMES if chance.random() < 0.1}

    def words(self, chance):
        made = [] if not self.has_numbers else ["--numbers"] if self.names is None else [f"--numbers={','.join(self.names)}"]
        if self.names and len(self.names) > 1 and chance.random() < 0.3:
            made = [f"--numbers={it}" for it in self.names]
        return made + [it for name, places in self.scales.items() for it in ("--reals", f"scale:{name}={10**places}")]

    def is_column(self, name, columns):
        return self.has_numbers and (name in columns if self.names is None else name in self.names)

    def value(self, name, value, columns):
        """A property on the way back; a number is as it is written."""
        if isinstance(value, str) and not isinstance(value, Raw) and rounding.is_decimal(value) and self.is_column(name, columns):
            return Raw(value)
        if isinstance(value, Raw) and name in self.scales:
            return Raw(divided(int(value), self.scales[name]))
        return value

    def layer(self, features):
        columns = columns_of(features)
        return [{name: self.value(name, it, columns) for name, it in one.items()} for one in features]


def divided(number, places):
    """A whole number divided by a power of ten, without zeros that end its fraction."""
    return rounding.decimal_text(abs(Fraction(number, 10**places))) if number >= 0 else f"-{rounding.decimal_text(Fraction(-number, 10**places))}"


def unraw(value):
    return int(value) if isinstance(value, Raw) else value


def columns_of(features):
    return rounding.columns_of([{name: unraw(it) for name, it in one.items()} for one in features])


def is_same(one, other):
    """Whether values are equal, and their numbers written alike."""
    if isinstance(one, list) and isinstance(other, list):
        return len(one) == len(other) and all(map(is_same, one, other))
    if isinstance(one, dict) and isinstance(other, dict):
        return one.keys() == other.keys() and all(is_same(it, other[name]) for name, it in one.items())
    return type(one) is type(other) and one == other


def properties_in(topology, name):
    """The properties of the features of a layer, in the order of their ids."""
    return [it.get("properties", {}) for it in sorted(topology["objects"][name]["geometries"], key=lambda it: int(it["id"]))]


def is_plain(values):
    """Whether all are numbers or null, and the texts that they become on the way in have a point or an exponent, if there are any."""
    numbers = [it for it in values if it is not None]
    return all(isinstance(it, Raw) for it in numbers) and any(rounding.is_fraction(rounding.spelled(it)) and not rounding.is_whole(it) for it in numbers)


def wrong_numbers(given, found, rules):
    """What is wrong with numbers of GeoJSON that came back, or nothing: each of a column of numbers has its value."""
    if not rules.has_numbers or rules.names is not None:
        return None
    names = {name for it in given for name in it} - rules.scales.keys()
    for name in sorted(it for it in names if is_plain([one.get(it) for one in given])):
        for one, other in zip(given, found):
            value = other.get(name)
            if name in one and one[name] is not None and not (isinstance(value, Raw) and rounding.worth_of(value) == rounding.worth_of(one[name])):
                return f"{name}: {value!r}, and was {one[name]}"
    return None


# ---- runs

def ways_of(chance, folder):
    kind = chance.choice(["plain", "plain", "like", "quantize"])
    if kind == "like":
        with open(f"{folder}/like.json", "w", encoding="utf-8") as out:
            out.write('{"type":"Topology","transform":{"scale":[0.0036,25e-4],"translate":[-180,0.5]}}')
    return {"plain": [], "like": ["--like", f"{folder}/like.json"], "quantize": ["--quantize", "100"]}[kind]


def built(chance, folder, layers, is_topology):
    """The bytes of a topology of layers, and how its numbers became texts."""
    files = files_of(layers, is_topology)
    for name, text in files.items():
        with open(f"{folder}/{name}", "w", encoding="utf-8") as out:
            out.write(text)
    if is_topology:
        return files["map.topo.json"].encode()
    words = ["--reals", chance.choice(["whole", "text"])]
    ran = togrid.togrid("--build", "-q", *words, *(f"{folder}/{it}" for it in files))
    with open(f"{folder}/map.topo.json", "wb") as out:
        out.write(ran.stdout)
    return ran.stdout if ran.returncode == 0 else None


def judge(seed):
    """What is wrong with a map, or nothing."""
    chance = random.Random(seed)
    is_topology, rules = chance.random() < 0.5, Rules(chance)
    layers = {name: layer(chance, is_topology) for name in ["l", "m"][:chance.choice([1, 1, 2])]}
    with tempfile.TemporaryDirectory() as folder:
        topology = built(chance, folder, layers, is_topology)
        if topology is None:
            return f"seed {seed}: not built: {files_of(layers, is_topology)}"
        words = [*rules.words(chance), *ways_of(chance, folder)]
        ran = togrid.togrid("--back", *words, f"{folder}/map.topo.json")
    title = f"seed {seed}: {words}"
    if ran.returncode or ran.stderr:
        return f"{title}: {ran.returncode} {ran.stderr!r}\n  of {topology!r}"
    one, back = read(topology), read(ran.stdout)
    for name, given in layers.items():
        before, found = properties_in(one, name), properties_in(back, name)
        wanted = rules.layer(before)
        if not is_same(found, wanted):
            return f"{title}: {found}, wanted {wanted}\n  of {topology!r}"
        if wrong := None if is_topology else wrong_numbers(given, found, rules):
            return f"{title}: {wrong}\n  of {given}"
    return None


def main():
    words = words_of(1000)
    look_for_program(TOGRID)
    seeds = range(words.seed * 1_000_000, words.seed * 1_000_000 + words.texts)
    answers = list(judged(judge, seeds, words.seconds))
    differ = [it for it in answers if it]
    for it in differ[:5]:
        print(it[:3000])
    print(f"{told(len(answers), words.texts, 'maps', words.seconds)}, {len(differ)} differ")
    return 1 if differ or len(answers) < min(LEAST_TEXTS, words.texts) else 0


if __name__ == "__main__":
    sys.exit(main())
