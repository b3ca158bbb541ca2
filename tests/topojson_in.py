#!/usr/bin/env python3
"""Compares what togrid makes of topologies in decimal numbers with the program of tests/stitching.py and tests/rounding.py, which
are written from docs/TOGRID.md.

    python3 tests/topojson_in.py [--seed N] [--texts N] [--seconds N]

Each text is a random topology as other tools write them: with scales of 17 digits, unequal, negative or with exponents, or without
a transform; members in any order, bbox first, some of them foreign or there twice; several objects, single geometries in place of
collections, collections in one another, geometries of type null; ids and properties of any kind; arcs of one position, positions
that are there twice, heights, arcs that are shared and reversed; broken arcs that nothing uses. Rings and lines collapse, fold and
are open. Every third text is damaged. It is run with random options, and sometimes one object is named.

togrid has to print the topology of its layers, with the same report, as lines and as JSON, and each layer as GeoJSON; or to refuse
it with the same first error, and `--faults` has to print the same list. One layer may get another name, several may not. The layers as GeoJSON in exact decimal numbers, in files
of their own, have to give the same topology. Ends with a line of counts, and with status 1 where something differed, or almost no
text was tried, or almost all or none were refused.
"""

import collections
import json
import os
import random
import sys
import tempfile
from fractions import Fraction

sys.dont_write_bytecode = True

import rounding
import stitching
import togrid
from many_runs import LEAST_TEXTS, TOGRID, judged, look_for_program, told, words_of
from rounding import COLLECTION
from togrid import Maker, Members, Numeral, members, near, spelled

SURE_TEXTS = 100
SCALES = ["0.0036003600360036005", "1", "0.000001", "1e-6", "0.5", "2", "3", "10", "0.33333333333333333", "25e-2", "0.1"]
NAMES = ["a", "b", "map", "c d", "", "type", "\u00e9"]


def decimal(worth):
    """A decimal number as digits and how many of them are behind the point."""
    places = 0
    while (worth * 10**places).denominator > 1:
        places += 1
    return int(worth * 10**places), places


class Axis:
    """An axis of the transform: both numbers, and how they are written."""

    def __init__(self, chance, step):
        self.scale = Fraction(chance.choice(SCALES)) * step * chance.choice([1, 1, 1, -1])
        self.translate = step * chance.choice([0, 0, chance.randint(-50, 50), Fraction(chance.randint(-10**6, 10**6), 10**4)])


class Arcs:
    """The arcs of a topology as they are made, each a list of vertices, and numbers for them."""

    def __init__(self, chance):
        self.chance, self.made, self.numbers = chance, [], {}

    def number_of(self, arc):
        """The number of an arc, perhaps of one that is there already, or backwards."""
        chance = self.chance
        if arc in self.numbers and chance.random() < 0.9:
            return self.numbers[arc]
        if arc[::-1] in self.numbers and chance.random() < 0.9:
            return ~self.numbers[arc[::-1]]
        number = len(self.made)
        self.numbers[arc] = number
        self.made.append(arc)
        return number

    def cut(self, line):
        """A line in pieces, as numbers; some pieces have one position."""
        chance, made = self.chance, []
        stops = sorted({0, len(line) - 1, *(chance.randrange(len(line)) for _ in range(chance.choice([0, 0, 1, 2])))})
        for at, to in zip(stops, stops[1:]):
            made.append(self.number_of(tuple(line[at:to + 1])))
            if chance.random() < 0.03:
                made.append(self.number_of((line[to],)))
        return made or [self.number_of((line[0],))]

    def renumber(self, number, order):
        return order[number] if number >= 0 else ~order[~number]


class TopologyMaker(Maker):
    """Makes random topologies near the grid of some options."""

    def __init__(self, chance, asked):
        super().__init__(chance, asked)
        self.arcs = Arcs(chance)
        self.axes = [Axis(chance, asked.size) for _ in range(2)] if chance.random() < 0.75 else None
        self.numerals = {}
        self.names = ("coordinates", "bbox", "arcs", "transform", "objects")

    # ---- positions

    def doubled(self, made):
        """As elsewhere, but for members that say which arcs are used: those behind count too."""
        return made if any(name in ("arcs", "geometries") for name, _ in made) else super().doubled(made)

    def heights(self):
        return [Numeral(self.one_of("5.5", "0", "-1e3")) for _ in range(self.chance.choice([0] * 19 + [1, 2]))]

    def whole(self, number):
        """A whole number in some spelling."""
        if self.chance.random() < 0.95:
            return number
        return spelled(self.chance, number, 0)

    def vertex(self, place):
        """The numbers of a vertex, without a transform. Those of one place have one worth, so that arcs meet there."""
        for axis, number in enumerate(place):
            if (axis, number) not in self.numerals:
                self.numerals[axis, number] = near(self.chance, self.step, number)
        return [self.numerals[axis, number] for axis, number in enumerate(place)]

    def position(self, place):
        """A position of a Point."""
        if self.axes is None:
            return super().position(place)
        if self.chance.random() < self.far:
            return [self.whole(self.one_of(2**40, 2**40 + 1, -2**40 - 1, 2**63)), 0]
        return [*map(self.whole, place), *self.heights()]

    def arc(self, places):
        if self.chance.random() < 0.1:  # positions that are there twice
            at = self.chance.randrange(len(places))
            places = (*places[:at + 1], *places[at:])
        if self.axes is None:
            return [self.vertex(it) + self.heights() for it in places]
        befores = ((0, 0), *places)
        return [[self.whole(x - a), self.whole(y - b), *self.heights()] for (a, b), (x, y) in zip(befores, places)]

    # ---- geometries

    def line(self, size):
        places = self.places(self.one_of(0, 1, 2, 2, 2), size)
        return self.arcs.cut(places) if places else []

    def ring(self, size):
        made = self.places(self.one_of(0, 1, 3, 3, 3, 3), size)
        if self.chance.random() < 0.3:
            made += made[::-1][1:]
        made += [] if self.chance.random() < self.open else made[:1]
        return self.arcs.cut(made) if made else []

    def multipoint(self):
        return [self.position(it) for it in self.places(0, 100)]

    def body(self, kind):
        if kind == "Point":
            return [] if self.chance.random() < 0.1 else self.position(self.places(1, 3)[0])
        if kind == "MultiPoint":
            return self.multipoint()
        return self.coordinates(kind)

    def geometry(self, depth=0, **more):
        if self.chance.random() < 0.05:
            return self.object(self.names, type=None, **more)
        if self.chance.random() < (0.1 if depth == 0 else 0.2):
            parts = [self.geometry(depth + 1) for _ in range(self.chance.randint(0, 3))]
            return self.object(self.names, type=COLLECTION, geometries=parts, **more)
        kind = self.chance.choice(rounding.GEOMETRIES)
        name = "coordinates" if kind in stitching.POINTS else "arcs"
        return self.object([it for it in self.names if it != name], type=kind, **{name: self.body(kind)}, **more)

    def feature(self):
        more = {}
        if self.chance.random() < 0.7:
            more["id"] = self.id()
        if self.chance.random() < self.has_properties:
            more["properties"] = self.properties() if self.chance.random() < self.has_properties else self.one_of(None, members())
        return self.geometry(**more)

    def layer(self):
        if self.chance.random() < 0.2:
            return self.feature()
        features = [self.feature() for _ in range(self.chance.randint(0, 5))]
        return self.object((*self.names, "id", "properties"), type=COLLECTION, geometries=features)

    # ---- the whole

    def transform(self):
        def numeral(worth):
            digits, places = decimal(worth)
            is_plain = self.chance.random() < 0.7
            return Numeral(f"{'-' * (worth < 0)}{rounding.decimal_text(abs(worth))}") if is_plain else spelled(self.chance, digits, places)

        def pair(name):
            return [numeral(getattr(it, name)) for it in self.axes]

        return self.object(("arcs", "bbox"), scale=pair("scale"), translate=pair("translate"))

    def unused(self):
        return self.one_of([], [[0, 0]], 5, None, [[1]], [["x", 2]], members(), [[Numeral("1.5"), Numeral("1e999")], [0, 0]])

    def root(self):
        names = self.chance.sample(NAMES, self.one_of(0, 1, 1, 1, 1, 1, 1, 2, 2, 2, 3, 3))
        objects = Members([name, self.layer()] for name in names)
        arcs = [self.arc(it) for it in self.arcs.made]
        count = len(arcs) + self.chance.choice([0, 0, 0, 1, 2])
        order = self.chance.sample(range(count), len(arcs))
        made = [None] * count
        for old, new in enumerate(order):
            made[new] = arcs[old]
        made = [self.unused() if it is None else it for it in made]
        self.renumber(objects, order)
        more = {} if self.axes is None else {"transform": self.transform()}
        root = self.object(("features", "geometries", "crs", "coordinates"), type="Topology", arcs=made, objects=objects, **more)
        if self.chance.random() < 0.5:
            root.insert(0, ["bbox", [0, Numeral("1.5"), 2, 3]])
        return root

    def renumber(self, value, order):
        """Gives the numbers of arcs in lists of `arcs` their places in the order; some are spelled otherwise."""
        def again(it):
            return [again(one) for one in it] if isinstance(it, list) else self.whole(self.arcs.renumber(it, order))

        kinds = [it for name, it in value if name == "type"] if isinstance(value, Members) else []
        for at, (name, it) in enumerate(value) if isinstance(value, Members) else ():
            is_last = all(one != name for one, _ in value[at + 1:])
            if name == "arcs" and is_last and kinds and kinds[-1] in rounding.GEOMETRIES and kinds[-1] not in stitching.POINTS:
                value[at][1] = again(it)
            elif name != "properties":
                self.renumber(it, order)
        for it in value if isinstance(value, list) and not isinstance(value, Members) else ():
            if isinstance(it, list):
                self.renumber(it, order)


# ---- runs

def is_alike(found, lines, text):
    """Whether lines of --faults are those that are wanted, but for ids and the member that 13 names."""
    def compared(line):
        line = line.partition(" 13 PropertyNumber ")[0] + line.partition(" 13 PropertyNumber ")[1] + line.partition(" 13 PropertyNumber ")[2].partition(' member "')[0]
        return line.partition(" id ")[0]

    return list(map(compared, found)) == list(map(compared, lines))


def fault_line(file, text, value, error):
    path, number = error
    line, column = rounding.line_and_column(text, rounding.value_at(value, path).at)
    return f"{file}:{line}:{column}: {number} {rounding.faults.NAMES[number]} {rounding.path_text(path)}"


def wrong_refused(file, text, value, errors, asked):
    """What is wrong with the runs on a text with errors, or nothing: the first line, and the lines of --faults."""
    first = rounding.first_line(file, *errors[0], asked)
    for words in ([], ["--build"]):
        ran = togrid.togrid(*words, "-q", *asked.words(), file)
        if (ran.returncode, ran.stdout, ran.stderr.decode()) != (4, b"", first):
            return f"refused {ran.returncode} {ran.stderr!r}, wanted {first!r}"
    ran = togrid.togrid("--faults", *asked.words_of_errors(), file)
    found, lines = ran.stdout.decode().split("\n")[:-1], [fault_line(file, text, value, it) for it in errors]
    if (ran.returncode, ran.stderr) != (4, b"") or not is_alike(found, lines, text):
        return f"--faults {ran.returncode} {ran.stdout!r} {ran.stderr!r}, wanted {lines}"
    return None


def title_of(file, name):
    """How the report names a layer of a topology."""
    return f"{file}, layer {name}"


def wrong_topology(folder, file, rounded, asked):
    """What is wrong with the topology of a text, or nothing: it is that of its layers, whose texts are in the folder."""
    files = [f"{it.name}={folder}/{number}.rounded.json" for number, it in enumerate(rounded.files)]
    for it, path in zip(rounded.files, files):
        with open(path.partition("=")[2] if it.name else path[1:], "wb") as out:
            out.write(rounding.text_of(it))
    ran = togrid.togrid("--build", "--strict", "--report", f"{folder}/report.json", *asked.words(), file)
    if not files:
        # (topotool builds no topology of no file)
        empty = f'{{"arcs":[],"objects":{{}},"transform":{{"scale":[{asked.scale},{asked.scale}],"translate":[0,0]}},"type":"Topology"}}'
        report = "".join(f"{it}\n" for it in [f"{file}: no objects", *rounding.report_lines(rounded, [])])
        is_right = (ran.returncode, ran.stdout.decode().strip(), ran.stderr.decode()) == (0, empty, report)
        return None if is_right else f"--build {ran.returncode} {ran.stdout!r} {ran.stderr!r}, wanted {empty} {report!r}"
    built = togrid.topotool("build", "--grid", f"{asked.scale},{asked.scale},0,0", *files)
    report = "".join(f"{it}\n" for it in rounding.report_lines(rounded, [title_of(file, it.name) for it in rounded.files], is_build=True))
    if built.returncode or (ran.returncode, ran.stdout) != (int(rounded.is_lossy()), built.stdout):
        return f"--build {ran.returncode} {ran.stdout!r} {ran.stderr!r}, wanted {built.stdout!r} {built.stderr!r}"
    if ran.stderr.decode() != report:
        return f"reported {ran.stderr!r}, wanted {report!r}"
    with open(f"{folder}/report.json", encoding="utf-8") as it:
        found, wanted = json.load(it), rounding.report_of(rounded, [file for _ in rounded.files], is_build=True)
    return None if togrid.same_report(found, wanted) else f"report {found}, wanted {wanted}"


def wrong_layers(folder, file, rounded, asked):
    """What is wrong with the layers, each as GeoJSON, or nothing."""
    if len(rounded.files) == 1:
        ran, wanted = togrid.togrid("-q", *asked.words(), file), rounding.text_of(rounded.files[0])
        if (ran.returncode, ran.stdout, ran.stderr) != (0, wanted, b""):
            return f"printed {ran.returncode} {ran.stdout!r} {ran.stderr!r}, wanted {wanted!r}"
    if any(it.name == "" for it in rounded.files):
        return None
    os.mkdir(f"{folder}/out")
    ran = togrid.togrid("-q", *asked.words(), "-o", f"{folder}/out", file)
    if (ran.returncode, ran.stdout, ran.stderr) != (0, b"", b""):
        return f"-o: {ran.returncode} {ran.stdout!r} {ran.stderr!r}"
    for it in rounded.files:
        with open(f"{folder}/out/{it.name}.json", "rb") as text:
            if text.read() != rounding.text_of(it):
                return f"-o: {it.name}.json differs"
    return None


def wrong_name(folder, file, rounded, asked):
    """What is wrong where the layer gets another name, or nothing: of several it is refused."""
    ran = togrid.togrid("--build", *asked.words(), f"x={file}")
    if len(rounded.files) != 1:
        wanted = (2, b"", b"togrid: several objects would be called x: say --layer OBJECT\n")
        return None if not rounded.files or (ran.returncode, ran.stdout, ran.stderr) == wanted else f"a name for all: {ran.returncode} {ran.stderr!r}"
    path = f"{folder}/0.rounded.json"
    built = togrid.topotool("build", "--grid", f"{asked.scale},{asked.scale},0,0", f"x={path}")
    report = "".join(f"{it}\n" for it in rounding.report_lines(rounded, [file], is_build=True))
    is_right = (ran.returncode, ran.stdout, ran.stderr.decode()) == (0, built.stdout, report)
    return None if is_right else f"another name: {ran.returncode} {ran.stdout!r} {ran.stderr!r}, wanted {built.stdout!r} {report!r}"


def wrong_peers(folder, file, topology, asked):
    """What differs where the layers are GeoJSON files in exact decimal numbers, or nothing."""
    words = []
    for number, (name, collection) in enumerate(topology.collections()):
        path = f"{folder}/{number}.geojson"
        with open(path, "w", encoding="utf-8") as out:
            out.write(stitching.text_of(collection))
        words.append(f"{name}={path}")
    if not words:
        return None
    one, other = (togrid.togrid("--build", "-q", *asked.words(), *it) for it in ([file], words))
    return None if (one.returncode, one.stdout) == (0, other.stdout) else f"as GeoJSON: {other.returncode} {other.stdout!r} {other.stderr!r}"


def wrong_accepted(folder, file, topology, asked):
    sources = [(name, [collection]) for name, collection in topology.collections()]
    try:
        rounded = rounding.Rounded(sources, asked)
    except rounding.Refused as refused:
        ran, (_, number) = togrid.togrid("-q", "--build", *asked.words(), file), refused.error
        is_right = ran.returncode == 4 and not ran.stdout and ran.stderr.startswith(f"togrid: {file}: {number} ".encode())
        return None if is_right else f"moves that are refused: {ran.returncode} {ran.stderr!r}, wanted {refused.error}"
    wrongs = (it(folder, file, rounded, asked) for it in (wrong_topology, wrong_name, wrong_layers))
    return next(filter(None, wrongs), None) or wrong_peers(folder, file, topology, asked)


def options_of(chance):
    asked = togrid.options_of(chance)
    asked.is_sequence = False
    return asked


def text_for(seed):
    """The options, the bytes of a topology, and its text."""
    chance = random.Random(seed)
    asked = options_of(chance)
    root, is_damaged = TopologyMaker(chance, asked).root(), chance.random() < 0.33
    for _ in range(chance.choice([1, 1, 2, 3]) if is_damaged else 0):
        togrid.damage(chance, root)
    asked.layer = chance.choice(NAMES) if chance.random() < 0.2 else None
    return asked, togrid.dumped(chance, root, chance.choice([",", ", ", " ,\n"]))


def judge(seed):
    """Whether a text is refused, and what is wrong with the runs on it, or nothing; None where it is no topology any more."""
    asked, text = text_for(seed)
    [record] = rounding.parse(text.encode(), False)[1]
    if record.value is None or not stitching.is_topology(record.value) or togrid.is_deep(text):
        return None
    topology = stitching.Topology(record.value, asked)
    with tempfile.TemporaryDirectory() as folder:
        file = f"{folder}/map.topo.json"
        with open(file, "w", encoding="utf-8") as it:
            it.write(text)
        if topology.errors:
            wrong = wrong_refused(file, text, record.value, topology.errors, asked)
        else:
            wrong = wrong_accepted(folder, file, topology, asked)
    return bool(topology.errors), wrong and f"seed {seed}: {asked.words()}: {wrong}\n  of {text}"


def main():
    words = words_of(5000)
    look_for_program(TOGRID)
    seeds = range(words.seed * 1_000_000, words.seed * 1_000_000 + words.texts)
    tried = list(judged(judge, seeds, words.seconds))
    answers = [it for it in tried if it is not None]
    refused, differ = sum(it for it, _ in answers), [it for _, it in answers if it]
    for it in differ[:5]:
        print(it)
    print(f"{told(len(tried), words.texts, 'texts', words.seconds)}, {len(answers):,} of them topologies, {refused:,} refused, {len(differ)} differ")
    is_enough = len(answers) >= min(LEAST_TEXTS, words.texts) and (len(answers) < SURE_TEXTS or 0.1 < refused / len(answers) < 0.7)
    return 1 if differ or not is_enough else 0


if __name__ == "__main__":
    sys.exit(main())
