#!/usr/bin/env python3
"""Compares togrid with the program of tests/rounding.py, which is written from docs/TOGRID.md, on random GeoJSON.

    python3 tests/togrid.py [--seed N] [--texts N] [--seconds N]

Each text has numbers in many spellings: zeros behind, exponents, fifty digits, ties, -0. Its features are points, lines and
rings, some of which are open, collapse or fold on the grid, with heights, properties with a fraction, and collections in one
another; some are there twice. Members are in any order, some are there twice, and some are foreign: `features`, `coordinates`
and others where they mean nothing, of any kind. Every fifth file is a sequence of texts, and some begin with a byte order mark.
Every third is damaged. It is run with random options: the step and the unit, and what becomes of heights, numbers with a
fraction, ids, open rings, what collapses or folds, collections, directions and vertices that are nearly shared.

The program has to print the same bytes, with the same report, as lines and as JSON; or to refuse the text with the same
first error, and `--faults` has to print the same list. What is printed is printed again as it is; what `--build` prints is
what topotool builds of it; and what `--back` makes of that has the transform and the bounding box in the unit of the map, and
rings as d3 wants them. The features in two files, in either order, give the same bytes, built together or apart and merged.
With a limit of time it stops there. Ends with a line of counts, and with status 1 where something differed, or almost no text
was tried, or almost all or none were refused.
"""

import itertools
import json
import random
import re
import subprocess
import sys
import tempfile
from fractions import Fraction

sys.dont_write_bytecode = True

import faults
import rounding
from many_runs import LEAST_TEXTS, TOGRID, judged, look_for_program, told, topotool, words_of
from rounding import Options, area

SURE_TEXTS = 100  # of so many some are refused, and some are not
STEPS = [(None, None)] * 3 + [("0.000001", None), ("1e-6", None), ("0.25", None), ("1e-3", None), ("1", None), ("3", "1"), ("0.0000001", "1e-7"), (None, "1e-7"),
         ("25e-2", "0.25"), ("6.3", "7e-3"), ("1000000", "1"), ("0.999983", "0.000001"), ("1", "1.0")]


# ---- texts: an object is a list of members, so that a name may be there twice

class Numeral(str):
    """A number as it is written."""


class Members(list):
    """The members of an object, each a list of a name and a value."""


def members(**given):
    return Members([name, value] for name, value in given.items())


def spelled(chance, digits, places):
    """A numeral of JSON of a decimal number: digits and how many of them are behind the point."""
    minus = "-" if digits < 0 else ""
    digits = str(abs(digits))
    zeros = chance.choice([0, 0, 0, 1, 3])
    digits, places = digits + "0" * zeros, places + zeros
    shift = chance.choice([0, 0, 0, 1, 2, 5, 17])
    places += shift
    digits = digits.rjust(places + 1, "0")
    text = digits[: len(digits) - places].lstrip("0") or "0"
    if places:
        text += "." + digits[len(digits) - places:]
    exponents = [f"e{shift}", f"E+{shift}", f"e+0{shift}"]
    return Numeral(minus + text + (chance.choice(exponents) if shift else chance.choice(["", "", "", "e0", "E-0"])))


def near(chance, step, steps):
    """A number near so many steps: just there, at a tie, or with many digits."""
    is_exact = chance.random() < 0.5
    worth = step * steps + (0 if is_exact else step * chance.choice([0, 5, -5, chance.randint(-5, 5)]) / 10)
    places = 30
    digits = int(worth * 10**places)
    if not is_exact and chance.random() < 0.3:
        places += 20
        digits = digits * 10**20 + chance.choice([0, 1, -1, chance.randint(-9, 9)])
    while digits % 10 == 0 and places:
        digits, places = digits // 10, places - 1
    return spelled(chance, digits, places)


class Maker:
    """Makes random GeoJSON near the grid of some options."""

    def __init__(self, chance, asked):
        self.chance, self.step = chance, asked.size
        self.far = 0.002 if chance.random() < 0.1 else 0
        self.open = chance.choice([0, 0.05, 0.3]) if asked.unclosed == "close" else chance.choice([0, 0.05])
        self.limits = [n + more for n in asked.limits for more in (-1, 0, 0, 1)]
        self.has_properties = 0.85 if asked.id is None else 0.99
        self.is_great = 0.06 if not asked.scales else 0.01

    def one_of(self, *choices):
        return self.chance.choice(choices)

    def position(self, place):
        numbers = [near(self.chance, self.step, n) for n in place]
        if self.chance.random() < self.far:
            far = Numeral(self.one_of("1e30", "-99999999999999999999", "1e13", "1e99999999999"))
            numbers[self.chance.randrange(2)] = self.one_of(far, near(self.chance, self.step, self.one_of(1, -1) * self.one_of(*self.limits)))
        heights = self.chance.choice([0] * 9 + [1, 2])
        return numbers + [Numeral("1e999" if self.chance.random() < 0.02 else self.one_of("5.5", "0", "-1e3")) for _ in range(heights)]

    def places(self, least, size):
        return [(self.chance.randint(-1, size), self.chance.randint(0, size)) for _ in range(self.chance.randint(least, 8))]

    def line(self, size):
        return [self.position(it) for it in self.places(self.one_of(0, 2, 2, 2), size)]

    def ring(self, size):
        made = self.places(self.one_of(0, 1, 3, 3, 3, 3), size)
        if self.chance.random() < 0.3:  # there and back, without area
            made += made[::-1][1:]
        positions = [self.position(it) for it in made]
        return positions if self.chance.random() < self.open else positions + positions[:1]

    def some(self, part):
        return [part() for _ in range(self.one_of(0, 1, 1, 2, 3))]

    def coordinates(self, kind):
        size = self.one_of(2, 3, 100)
        line, ring = lambda: self.line(size), lambda: self.ring(size)
        if kind == "Point":
            return [] if self.chance.random() < 0.1 else self.position(self.places(1, size)[0])
        return {"MultiPoint": line, "LineString": line, "MultiLineString": lambda: self.some(line), "Polygon": lambda: self.some(ring),
                "MultiPolygon": lambda: self.some(lambda: self.some(ring))}[kind]()

    def geometry(self, depth=0):
        if self.chance.random() < (0.12 if depth == 0 else 0.2):
            parts = [self.geometry(depth + 1) for _ in range(self.chance.randint(0, 3))]
            return self.object(("features", "coordinates", "geometry", "properties"), type="GeometryCollection", geometries=parts)
        kind = self.chance.choice(rounding.GEOMETRIES)
        foreign = ("features", "geometries", "geometry", "id", "properties")
        return self.object(foreign, type=kind, coordinates=self.coordinates(kind))

    def id(self):
        return self.one_of(1, "a", "\u00e9\n\"", None, *map(Numeral, ("1.50", "7e0", "-0", "-7", "7.0", "9223372036854775807.0", "9223372036854775808e0", "9223372036854775808", "-9223372036854775808", "18446744073709551616", "1e400")))

    def properties(self):
        great = ["1e400", "1e-400", "18446744073709551616", "18446744073709551615", "1844674407370955161.5e1", "-92233720368547758080e-1", "-9223372036854775809.0", "10000000000000", "1e13"]
        area = self.chance.choice(great if self.chance.random() < self.is_great else ["8810.0400", "99.0", "-0.50", "15e-1", "0.0", "-0", "-0.0e7", "0.0005", "7.50", "2e-3", "1", "10e-1", "1.20e3"])
        made = members(whole=self.chance.randint(-10**18, 10**18), code=self.one_of(3, "b", "", *map(Numeral, ("2.50", "-0", "7.0"))), area=Numeral(area))
        made.append(["coordinates", [Numeral("1.5"), members(features=[Numeral("0.10")], x=True)]])
        self.chance.shuffle(made)
        return self.doubled(made if self.chance.random() < self.has_properties else Members(made[:2]))

    def feature(self):
        geometry = self.geometry() if self.chance.random() < 0.9 else None
        made = self.object(("features", "coordinates", "geometries", "bbox"), type="Feature", geometry=geometry)
        if self.chance.random() < 0.7:
            self.insert(made, "id", self.id())
        if self.chance.random() < self.has_properties:
            self.insert(made, "properties", self.properties() if self.chance.random() < self.has_properties else self.one_of(None, members()))
        return made

    def insert(self, made, name, value):
        made.insert(self.chance.randint(0, len(made)), [name, value])

    def foreign(self):
        """The value of a member that means nothing."""
        n = Numeral
        return self.one_of(5, n("0.5"), [5], [[n("0.5"), 1]], members(lat=1), "x", None, True, n("1e400"), [[[n("1.5"), 2], [3, 4]]], [], members(), [[]],
                           [members(type="Feature", geometry=None)], members(type="Point", coordinates=[1, 2]), [members(type="Point", coordinates=[n("7.5"), 8])])

    def doubled(self, made):
        """An object, perhaps with a member that doesn't count, since one of its name is behind it."""
        if made and self.chance.random() < 0.06:
            at = self.chance.randrange(len(made))
            made.insert(self.chance.randint(0, at), [made[at][0], self.foreign()])
        return made

    def object(self, foreign, **given):
        """An object of members in any order, some of them foreign."""
        made = members(**given)
        if self.chance.random() < 0.1:
            made.append([self.chance.choice((*foreign, "crs", "lat")), self.foreign()])
        self.chance.shuffle(made)
        return self.doubled(made)

    def root(self):
        kind = self.chance.random()
        if kind < 0.15:
            return self.geometry()
        if kind < 0.25:
            return self.feature()
        features = [self.feature() for _ in range(self.chance.randint(0, 6))]
        if features and self.chance.random() < 0.3:
            features.insert(self.chance.randint(0, len(features)), copied(self.chance.choice(features)))
        return self.object(("coordinates", "geometries", "geometry", "properties", "id"), type="FeatureCollection", features=features)


# ---- texts that are damaged

JUNK = [None, True, "x", -1, 0, [], [1], [0, 0], [[0, 0]], [1, 2, 3], "Point", "Polygon", "GeometryCollection", "Feature", Members(), *map(Numeral, ("1.5", "1e3", "-0", "1e999",
        "1099511627776.5", "18446744073709551616", "9" * 400))]


def parts_of(value):
    """Each place of a value: what holds it, and its index there."""
    if isinstance(value, Members):
        for member in value:
            yield member, 1
            yield from parts_of(member[1])
    elif isinstance(value, list):
        for index, it in enumerate(value):
            yield value, index
            yield from parts_of(it)


def copied(value):
    if isinstance(value, Members):
        return Members([name, copied(it)] for name, it in value)
    return [copied(it) for it in value] if isinstance(value, list) else value


def damage(chance, value):
    """Changes one place of a value."""
    found = [*parts_of(value)]
    if not found:
        return
    holder, at = chance.choice(found)
    kind = chance.randrange(6)
    if kind == 0 and isinstance(holder[at], Members) and holder[at]:
        del holder[at][chance.randrange(len(holder[at]))]
    elif kind == 1 and isinstance(holder[at], list) and not isinstance(holder[at], Members):
        holder[at] = holder[at][:-1]
    elif kind == 2 and isinstance(holder[at], list) and not isinstance(holder[at], Members):
        holder[at] = copied(holder[at]) * 2
    elif kind == 3:
        other, there = chance.choice(found)
        holder[at] = copied(other[there])
    elif kind == 4 and chance.random() < 0.2:
        holder[at] = deep(chance)
    else:
        holder[at] = copied(chance.choice(JUNK))


def deep(chance):
    """A value that nests about as deep as properties may."""
    value = Numeral("1.5")
    for _ in range(chance.choice([60, 62, 63, 64, 65])):
        value = [value] if chance.random() < 0.5 else members(d=value)
    return value


def name_text(chance, name):
    """A name, now and then with an escape that it doesn't need."""
    text = json.dumps(name)
    return f'"\\u{ord(name[0]):04x}{text[2:]}' if name and name[0].isalpha() and chance.random() < 0.01 else text


def dumped(chance, value, comma):
    if isinstance(value, Numeral):
        return str(value)
    if isinstance(value, Members):
        return "{" + comma.join(f"{name_text(chance, name)}:{dumped(chance, it, comma)}" for name, it in value) + "}"
    if isinstance(value, list):
        return "[" + comma.join(dumped(chance, it, comma) for it in value) + "]"
    return json.dumps(value, ensure_ascii=chance.random() < 0.5)


def record_of(chance, value, is_damaged, commas):
    text = dumped(chance, value, chance.choice(commas))
    kind = chance.randrange(12) if is_damaged else None
    if kind == 0:
        text = text[: chance.randrange(len(text))]
    elif kind == 1:
        at = chance.randrange(len(text))
        text = text[:at] + chance.choice('{}[],:"x0e.-') + text[at:]
    return text


def text_of(chance, values, is_damaged, is_sequence):
    """The bytes of a file: of one text, or of a sequence, whose texts a line's end separates, or the byte 30."""
    mark = "\ufeff" if chance.random() < 0.1 else ""
    if not is_sequence:
        return (mark + record_of(chance, values[0], is_damaged, [",", ", ", " ,\n"])).encode()
    has_bytes = chance.random() < 0.3
    texts = [record_of(chance, it, is_damaged, [",", ", ", " ,\n"] if has_bytes or is_damaged else [",", ", "]) for it in values]
    for _ in range(chance.choice([0, 0, 1, 2])):
        texts.insert(chance.randint(0, len(texts)), chance.choice(["", " ", "\t\r"]))
    if has_bytes:
        return (mark + "".join(f"\x1e{it}{chance.choice(['', chr(10)])}" for it in texts)).encode()
    return (mark + "\n".join(texts) + chance.choice(["", "\n", "\r\n"])).encode()


def options_of(chance):
    step, unit = chance.choice(STEPS)
    asked = Options(step=step, unit=unit, rewind=chance.choice(["keep", "keep", "rfc7946", "d3"]))
    asked.refuses_heights, asked.reals = chance.random() < 0.05, chance.choice(["whole"] * 10 + ["text"] * 4 + ["refuse"])
    asked.is_sequence, asked.numbers = chance.random() < 0.2, chance.random() < 0.2
    asked.unclosed = chance.choice(["close"] * 4 + ["refuse"])
    asked.id = "code" if chance.random() < 0.2 else None
    asked.scales = {name: chance.choice([0, 1, 3, 12]) for name in ("area", "code") if chance.random() < 0.25}
    asked.collapsed = chance.choice(["null"] * 12 + ["drop"] * 4 + ["refuse"])
    asked.folded = chance.choice(["split"] * 15 + ["refuse"])
    asked.collections = chance.choice(["split"] * 15 + ["refuse"])
    asked.distance = chance.choice([0, 0, 0, 1, 2, 10])
    return asked


# ---- runs

def togrid(*words, **how):
    return subprocess.run([TOGRID, *words], capture_output=True, **how)


def stitched(topology, ring):
    arcs = []
    for number in ring:
        arc = list(itertools.accumulate(topology["arcs"][number if number >= 0 else ~number], lambda a, b: (a[0] + b[0], a[1] + b[1])))
        arcs.append(arc if number >= 0 else arc[::-1])
    return [tuple(position) for arc in arcs for position in arc]


def wrong_rings(built, back):
    """What is wrong with the geometries of a topology on the way back, or nothing."""
    for one, other in zip(built["objects"]["map"]["geometries"], back["objects"]["map"]["geometries"]):
        if {**one, "arcs": None} != {**other, "arcs": None}:
            return f"geometry {other}"
        polygons = {"Polygon": [other.get("arcs")], "MultiPolygon": other.get("arcs")}.get(other["type"], [])
        for place, ring in ((place, ring) for rings in polygons for place, ring in enumerate(rings)):
            turn = area(stitched(back, ring))
            if turn and (turn > 0) == (place == 0):
                return f"a ring that turns the other way: {ring}"
        if not polygons and one != other:
            return f"geometry {other}"
    return None if back["arcs"] == built["arcs"] else "arcs"


def wrong_back(folder, topology, asked):
    """What is wrong with a topology in the unit of the map, or nothing."""
    with open(f"{folder}/map.topo.json", "wb") as it:
        it.write(topology)
    ran = togrid("--back", *(["--unit", asked.unit] if asked.unit else []), f"{folder}/map.topo.json")
    if ran.returncode:
        return f"--back: {ran.stderr!r}"
    built, back = json.loads(topology), json.loads(ran.stdout, parse_float=Fraction)
    if list(back)[0] != "type" or [Fraction(it) for it in back["transform"]["scale"]] != [asked.size] * 2 or back["transform"]["translate"] != [0, 0]:
        return f"--back: transform {back['transform']}"
    if [Fraction(it) for it in back.get("bbox", [])] != [it * asked.one for it in built.get("bbox", [])]:
        return f"--back: bbox {back['bbox']}"
    wrong = wrong_rings(built, back)
    return wrong and f"--back: {wrong}"


def halves_of(folder, root, chance):
    """The features of a collection in two files."""
    at = max(number for number, (name, _) in enumerate(root) if name == "features")
    features = root[at][1]
    for name, part in ("front", features[: len(features) // 2]), ("rest", features[len(features) // 2:]):
        with open(f"{folder}/{name}.geojson", "wb") as it:
            it.write(dumped(chance, Members([*root[:at], ["features", part], *root[at + 1:]]), ",").encode())
        yield f"map={folder}/{name}.geojson"


def wrong_halves(files, topology, asked):
    """What differs where features are in two files, in either order, built together, or apart and merged in either order."""
    for order in files, files[::-1]:
        ran = togrid("--build", *asked.words(), *order)
        paths, sources = [it.partition("=")[2] for it in order], []
        for path in paths:
            with open(path, "rb") as it:
                sources.append(("map", [it.value for it in rounding.parse(it.read(), False)[1]]))
        report = "".join(f"{it}\n" for it in rounding.report_lines(rounding.Rounded(sources, asked), paths, is_build=True))
        if (ran.returncode, ran.stdout) != (0, topology) and not asked.numbers or ran.stderr.decode() != report:
            return f"two files differ: {order} {ran.stderr!r}, wanted {report}"
    if asked.distance or asked.numbers:
        return None  # what --snap joins depends on all files, so that they are built together
    shards = [f"{file.partition('=')[2]}.topo.json" for file in files]
    for file, shard in zip(files, shards):
        ran = togrid("--build", "-q", *asked.words(), "-o", shard, file)
        if ran.returncode or ran.stdout:
            return f"{file}: {ran.stderr!r}"
    for order in shards, shards[::-1]:
        ran = topotool("merge", *order)
        if (ran.returncode, ran.stdout) != (0, topology):
            return f"merged files differ: {order} {ran.stderr!r}"
    return None


def is_behind(folder, words, text, report):
    """Whether a text is written behind the report, where a terminal shows both."""
    with open(f"{folder}/shown", "wb") as it:
        status = subprocess.run([TOGRID, *words], stdout=it, stderr=it).returncode
    with open(f"{folder}/shown", "rb") as it:
        return status == 0 and it.read() == report + text


def wrong_topology(folder, file, text, report, asked):
    """The topology of a text, and what differs of it."""
    with open(f"{folder}/map.json", "wb") as it:
        it.write(text)
    built = topotool("build", "--grid", f"{asked.scale},{asked.scale},0,0", f"map={folder}/map.json")
    whole = togrid("--build", "-q", *asked.words(), *seq_of(file, asked), f"map={file}")
    if built.returncode or (whole.returncode, whole.stdout, whole.stderr) != (0, built.stdout, b""):
        return None, f"--build differs: {whole.stderr!r} {built.stderr!r}"
    if not is_behind(folder, ["--build", "-o", "-", *asked.words(), *seq_of(file, asked), f"map={file}"], built.stdout, report):
        return None, "--build -o -: not behind the report"
    return built.stdout, None


def same_report(found, wanted):
    """Whether a report has these members, its decimal texts as fractions."""
    try:
        for file in found["files"]:
            file |= {name: Fraction(file[name]) for name in ("furthest_steps", "furthest")}
    except (KeyError, TypeError, ValueError):
        return False
    return found == wanted


def seq_of(file, asked):
    """The word by which a file is a sequence, unless its name says it."""
    return ["--seq"] if asked.is_sequence and not file.endswith((".ndjson", ".geojsonl", ".geojsons")) else []


def printed(folder, file, values, asked):
    """What has to be printed of a file without errors, with the report of --build, and what is wrong with the run; None, None where the
    moves are refused."""
    seq = seq_of(file, asked)
    try:
        rounded = rounding.Rounded([("map", values)], asked)
    except rounding.Refused as refused:
        ran, line = togrid("-q", *asked.words(), *seq, file), rounding.first_line(file, *refused.error, asked)
        is_right = (ran.returncode, ran.stdout, ran.stderr.decode()) == (4, b"", line)
        return None, None if is_right else f"moves that are refused: {ran.returncode} {ran.stderr!r}, wanted {line}"
    text = rounding.text_of(rounded.files[0])
    report = "".join(f"{it}\n" for it in rounding.report_lines(rounded, [file])).encode()
    ran = togrid("--strict", "--report", f"{folder}/report.json", *asked.words(), *seq, f"map={file}")
    if ran.stdout != text:
        return None, f"printed {ran.returncode} {ran.stdout!r} {ran.stderr!r}, wanted {text!r}"
    if (ran.returncode, ran.stderr) != (int(rounded.is_lossy()), report):
        return None, f"reported {ran.returncode} {ran.stderr!r}, wanted {report!r}"
    with open(f"{folder}/report.json", encoding="utf-8") as it:
        found, wanted = json.load(it), rounding.report_of(rounded, [file])
    built = "".join(f"{it}\n" for it in rounding.report_lines(rounded, [file], is_build=True)).encode()
    return (text, built), None if same_report(found, wanted) else f"report {found}, wanted {wanted}"


def wrong_accepted(folder, file, values, root, asked, chance):
    """What is wrong with the runs on a file without errors, or nothing."""
    made, wrong = printed(folder, file, values, asked)
    if made is None or wrong:
        return wrong
    text, report = made
    again = togrid("-q", "--unit", "1", "--step", str(asked.scale), "--rewind", asked.rewind, "-", input=text)
    if (again.returncode, again.stdout) != (0, text):
        return f"printed again as {again.stdout!r} {again.stderr!r}, and not {text!r}"
    topology, wrong = wrong_topology(folder, file, text, report, asked)
    if wrong:
        return wrong
    if root is not None:
        wrong = wrong_halves([*halves_of(folder, root, chance)], topology, asked)
    return wrong or wrong_back(folder, topology, asked)


def has_great_number(text):
    """Whether a number of a text is past all floats."""
    return any(abs(float(it)) == float("inf") for it in re.findall(r"-?\d+(?:\.\d+)?(?:[eE][-+]?\d+)?", text))


def is_deep(text):
    """Whether values of a text nest more than 127 deep, as brackets do outside of strings."""
    brackets = re.findall(r"[][{}]", re.sub(r'"(?:[^"\\]|\\.)*"', "", text))
    return max(itertools.accumulate(1 if it in "[{" else -1 for it in brackets), default=0) > faults.DEEPEST_TEXT


def compared(line, record):
    """What is compared of a line of --faults: not the member that 13 names; and of a text that not every reader of JSON takes,
    by a number past all floats or its depth, neither an id, nor where it stops being JSON."""
    line = re.sub(r'( 13 PropertyNumber .*) member ".*', r"\1", line)
    if has_great_number(record.text) or is_deep(record.text):
        line = re.sub(r"^.*:\d+:\d+:( 1 NotJson)", r"\1", re.sub(r' id (-?\d+|".*")$', "", line))
    return line


def wrong_refused(file, text, errors, asked):
    """What is wrong with the runs on a file with errors, or nothing: the first line, and the lines of --faults."""
    record, (path, number) = errors[0]
    first, seq = rounding.first_line(file, record.path + path, number, asked), seq_of(file, asked)
    ran = togrid("-q", *asked.words(), *seq, file)
    if (ran.returncode, ran.stdout, ran.stderr.decode()) != (4, b"", first):
        return f"refused {ran.returncode} {ran.stderr!r}, wanted {first!r}"
    ran = togrid("--faults", *asked.words_of_errors(), *seq, file)
    found, lines = ran.stdout.decode().split("\n")[:-1], [rounding.fault_line(file, text, *it) for it in errors]
    is_alike = len(found) == len(errors) and all(compared(one, it) == compared(line, it) for one, line, (it, _) in zip(found, lines, errors))
    if (ran.returncode, is_alike, ran.stderr) != (4, True, b""):
        return f"--faults {ran.returncode} {ran.stdout!r} {ran.stderr!r}, wanted {lines}"
    return None


def judge(seed):
    """Whether a file is refused, and what is wrong with the runs on it, or nothing."""
    chance = random.Random(seed)
    asked = options_of(chance)
    maker = Maker(chance, asked)
    roots = [maker.root() for _ in range(chance.randint(0, 4) if asked.is_sequence else 1)]
    is_damaged = chance.random() < 0.33
    for _ in range(chance.choice([1, 1, 2, 3]) if is_damaged and roots else 0):
        damage(chance, chance.choice(roots))
    bytes_ = text_of(chance, roots, is_damaged, asked.is_sequence)
    with tempfile.TemporaryDirectory() as folder:
        file = f"{folder}/map.{chance.choice(['geojson', 'ndjson', 'geojsonl', 'geojsons']) if asked.is_sequence else 'geojson'}"
        with open(file, "wb") as it:
            it.write(bytes_)
        text, records = rounding.parse(bytes_, asked.is_sequence)
        errors = rounding.errors_of(records, asked)
        if errors:
            wrong = wrong_refused(file, text, errors, asked)
        else:
            values = [it.value for it in records]
            is_collection = not is_damaged and not asked.is_sequence and values[0].what["type"].what == "FeatureCollection"
            wrong = wrong_accepted(folder, file, values, roots[0] if is_collection else None, asked, chance)
    return bool(errors), wrong and f"seed {seed}: {asked.words()}: {wrong}\n  of {bytes_!r}"


def main():
    words = words_of(5000)
    look_for_program(TOGRID)
    seeds = range(words.seed * 1_000_000, words.seed * 1_000_000 + words.texts)
    answers = list(judged(judge, seeds, words.seconds))
    refused, differ = sum(it for it, _ in answers), [it for _, it in answers if it]
    for it in differ[:5]:
        print(it)
    print(f"{told(len(answers), words.texts, 'texts', words.seconds)}, {refused:,} refused, {len(differ)} differ")
    is_enough = len(answers) >= min(LEAST_TEXTS, words.texts) and (len(answers) < SURE_TEXTS or 0.1 < refused / len(answers) < 0.7)
    return 1 if differ or not is_enough else 0


if __name__ == "__main__":
    sys.exit(main())
