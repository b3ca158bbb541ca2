"""What docs/TOGRID.md says of a file of GeoJSON in decimal numbers, as a program over Python's fractions.

tests/togrid.py compares `togrid` with it: the errors of a file under some options, the features that are read, what is left of
them, what is joined, the text that is printed, and what is reported. It is written from that page alone, and from
docs/FAULTS.md and docs/DECISIONS.md, to which the page leads.
"""

import collections
import itertools
import json
import math
import re
from fractions import Fraction

import faults
from faults import Value, collapsed as merged, escaped, line_and_column

GREATEST, GREATEST_NUMBER = 2**40, 2**53 - 1
DEGREES = (180 * 10**6, 90 * 10**6)
DEEPEST_PROPERTIES = 64
GEOMETRIES = faults.GEOMETRIES
COLLECTION = "GeometryCollection"
FIXES = ("closed", "collapsed", "folded", "collections", "lost")
BLANK = " \t\r\n"


class Options:
    """The options of a run, by their names."""

    def __init__(self, **given):
        self.step = self.unit = None
        self.refuses_heights = self.is_sequence = self.numbers = False
        self.reals, self.scales = "whole", {}
        self.id = self.layer = None
        self.unclosed, self.collapsed, self.folded, self.collections, self.rewind = "close", "null", "split", "split", "keep"
        self.distance = 0
        self.__dict__.update(given)

    @property
    def step_word(self):
        return self.step or "0.000001"

    @property
    def size(self):
        return Fraction(self.step_word)

    @property
    def one(self):
        """What a 1 of the result is, in the unit of the map."""
        return Fraction(self.unit or "0.000001")

    @property
    def scale(self):
        """How many of these a step is."""
        return int(self.size / self.one)

    @property
    def limits(self):
        limits = (GREATEST, GREATEST) if self.step else DEGREES
        return [min(it, GREATEST_NUMBER // self.scale) for it in limits]

    def words_of_errors(self):
        """Those on which it depends what is an error, but for --seq."""
        made = ["--step", self.step] if self.step else []
        made += ["--unit", self.unit] if self.unit else []
        made += ["--heights", "refuse"] if self.refuses_heights else []
        made += ["--reals", self.reals] if self.reals != "whole" else []
        for name, places in self.scales.items():
            made += ["--reals", f"scale:{name}={10**places}"]
        made += ["--id", self.id] if self.id is not None else []
        made += ["--layer", self.layer] if self.layer is not None else []
        for name, default in ("unclosed", "close"), ("collapsed", "null"), ("folded", "split"), ("collections", "split"):
            if getattr(self, name) != default:
                made += [f"--{name}", getattr(self, name)]
        return made

    def words(self):
        """All of them, but for --seq."""
        made = ["--rewind", self.rewind] if self.rewind != "keep" else []
        made += ["--number"] if self.numbers else []
        return self.words_of_errors() + made + (["--snap", str(self.distance)] if self.distance else [])


# ---- numbers

def worth_of(text):
    """A decimal numeral as a fraction. One that is too great or too small for any step here is another such one."""
    digits, _, exponent = text.lower().partition("e")
    exponent = int(exponent or 0)
    if not digits.strip("-0."):
        return Fraction(0)
    if abs(exponent) > 1000:
        return Fraction(-1 if text.startswith("-") else 1) * (Fraction(10) ** (200 if exponent > 0 else -200))
    return Fraction(digits) * Fraction(10) ** exponent


def nearest(worth, step):
    """The nearest whole number of steps, of two the one farther from 0."""
    whole = math.floor(abs(worth) / step + Fraction(1, 2))
    return whole if worth >= 0 else -whole


def is_integer(text, past=2**64):
    """Whether a number has no fraction and no exponent, and is within some limits."""
    return not set(text) & set(".eE") and text != "-0" and len(text) < 30 and -(2**63) <= int(text) < past


def is_whole(text, past=2**64):
    """Whether the value of a number is whole, and within some limits."""
    worth = worth_of(text)
    return worth.denominator == 1 and -(2**63) <= worth < past


def spelled(text):
    """The text that a number becomes: the zeros that end its fraction go."""
    if "." in text and not set(text) & set("eE"):
        return text.rstrip("0").rstrip(".")
    return text


# ---- JSON with the text of its numbers

class Reader(faults.Reader):
    """Reads one value, of which each number keeps its text; nests at most 128 deep."""

    deepest = 128

    def number(self, at):
        match = json.scanner.NUMBER_RE.match(self.text, at)
        if match is None:
            raise faults.NotJson(at)
        self.end(at, match.end())
        return Value("number", at, match.group())


class Record:
    """A text of a file: its number where the file is a sequence, where it begins, and its value, or where it is no JSON."""

    def __init__(self, number, start, text):
        self.path, self.start, self.text = () if number is None else (number,), start, text
        self.value = self.wrong = None
        try:
            self.value = Reader(text).whole()
        except faults.NotJson as wrong:
            self.wrong = wrong.at

    def place_of(self, path):
        """Where in the file an error is: that of what is no JSON is at the last character, where the text is cut off."""
        if self.value is None:
            return self.start + self.wrong - (self.wrong == len(self.text) and self.text[-1:] not in ("", "\n"))
        return self.start + value_at(self.value, path).at


def parse(bytes_, is_sequence):
    """The text of a file without a byte order mark, and its records."""
    text = bytes_.decode().removeprefix("\ufeff")
    if not is_sequence:
        return text, [Record(None, 0, text)]
    separator, start, made = "\x1e" if text.startswith("\x1e") else "\n", 0, []
    for part in text.split(separator):
        if part.strip(BLANK):
            made.append(Record(len(made), start, part))
        start += len(part) + 1
    return text, made


def inner(value):
    """The values in a value."""
    if value.kind == "list":
        return value.what
    return list(value.what.values()) if value.kind == "object" else []


def member(value, name):
    """A member that is there and isn't null."""
    found = value.what.get(name)
    return None if found is None or found.kind == "null" else found


# ---- errors, each a path and a number

under, required = faults.under, faults.required


class Errors:
    """The errors of a text under some options."""

    def __init__(self, options):
        self.options = options

    def each(self, value, part):
        if value.kind != "list":
            return [((), 3)]
        return [it for i, one in enumerate(value.what) for it in under(i, part(one))]

    def coordinate(self, axis, value):
        if value.kind != "number":
            return [((), 3)]
        return [] if abs(nearest(worth_of(value.what), self.options.size)) <= self.options.limits[axis] else [((), 6)]

    def position(self, value):
        if value.kind != "list":
            return [((), 3)]
        if len(value.what) < 2 or self.options.refuses_heights and len(value.what) > 2:
            return [((), 16)]
        heights = [it for i, one in enumerate(value.what[2:]) for it in under(i + 2, [] if one.kind == "number" else [((), 3)])]
        return [it for axis in (0, 1) for it in under(axis, self.coordinate(axis, value.what[axis]))] + heights

    def point(self, value):
        return [] if value.kind == "list" and not value.what else self.position(value)

    def outline(self, value, asked):
        """Positions, and what is wrong with a line or ring of them that isn't fixed."""
        errors = self.each(value, self.position)
        return errors or self.unfixed(asked([place(it, self.options) for it in value.what]))

    def ring_error(self, positions):
        return faults.ring_error(closed(positions) if self.options.unclosed == "close" else positions)

    def unfixed(self, errors):
        fixed = ([8] if self.options.collapsed != "refuse" else []) + ([10] if self.options.folded == "split" else [])
        return [it for it in errors if it[1] not in fixed]

    def typed(self, kind, value):
        if kind == COLLECTION:
            return required(value, "geometries", lambda v: self.each(v, self.geometry))
        line, ring = (lambda v, asked=asked: self.outline(v, asked) for asked in (faults.line_error, self.ring_error))
        parts = {"Point": self.point, "MultiPoint": lambda v: self.each(v, self.position), "LineString": line,
                 "MultiLineString": lambda v: self.each(v, line), "Polygon": lambda v: self.each(v, ring),
                 "MultiPolygon": lambda v: self.each(v, lambda w: self.each(w, ring))}
        return required(value, "coordinates", parts[kind])

    def types(self):
        return (*GEOMETRIES, COLLECTION) if self.options.collections == "split" else GEOMETRIES

    def geometry(self, value):
        if value.kind != "object":
            return [((), 3)]
        kind, errors = faults.read_type(value, self.types())
        return errors or self.typed(kind, value)

    def property_errors(self, properties):
        if properties.kind != "object":
            return [((), 3)]
        too_great = any(abs(nearest(worth_of(it.what), Fraction(1, 10**self.options.scales[name]))) > GREATEST
                        for name, it in properties.what.items() if self.is_scaled(name, it))
        real = self.options.reals == "refuse" and any(has_real(it) for name, it in properties.what.items() if not self.is_scaled(name, it))
        errors = [((), 13)] if too_great or real else []
        return errors + ([((), 14)] if faults.depth_of(properties) > DEEPEST_PROPERTIES else [])

    def is_scaled(self, name, value):
        return name in self.options.scales and value.kind == "number"

    def id_errors(self, value):
        if value.kind == "number":
            return [((), 5)] if self.options.reals == "refuse" and not is_whole(value.what, past=2**63) else []
        return [] if value.kind == "text" else [((), 3)]

    def attributes(self, value):
        properties, id_ = member(value, "properties"), member(value, "id")
        errors = under("properties", self.property_errors(properties)) if properties is not None else []
        if self.options.id is not None:
            if properties is not None and properties.kind != "object":
                return errors
            id_ = None if properties is None else properties.what.get(self.options.id)
            found = [((), 2)] if id_ is None else self.id_errors(id_)
            return errors + under("properties", under(self.options.id, found))
        return errors + (under("id", self.id_errors(id_)) if id_ is not None else [])

    def feature(self, value):
        geometry = member(value, "geometry")
        return (under("geometry", self.geometry(geometry)) if geometry is not None else []) + self.attributes(value)

    def element(self, value):
        if value.kind != "object":
            return [((), 3)]
        _, errors = faults.read_type(value, ("Feature",))
        return errors or self.feature(value)

    def root(self, value):
        if value.kind != "object":
            return [((), 3)]
        kind, errors = faults.read_type(value, ("FeatureCollection", "Feature", *self.types()))
        if errors:
            return errors
        if kind == "FeatureCollection":
            return required(value, "features", lambda v: self.each(v, self.element))
        return self.feature(value) if kind == "Feature" else self.typed(kind, value)


def has_real(value):
    return not is_whole(value.what) if value.kind == "number" else any(has_real(it) for it in inner(value))


def in_order(errors):
    """By path, names by their bytes and numbers as numbers, and then by number."""
    return sorted(errors, key=lambda it: ([(0, step.encode()) if isinstance(step, str) else (1, step) for step in it[0]], it[1]))


def errors_of(records, options):
    """The errors of a file, each with its record."""
    return [(record, it) for record in records for it in in_order([((), 1)] if record.value is None else Errors(options).root(record.value))]


# ---- features

class Tally:
    """What is counted of a file as it is read."""

    def __init__(self):
        self.positions = self.heights = self.moved = self.furthest = self.reals = 0

    def take(self, value, options):
        """Counts a position, and gives it on the grid."""
        self.positions, self.heights = self.positions + 1, self.heights + len(value.what) - 2
        worths = [worth_of(it.what) / options.size for it in value.what[:2]]
        far = max(abs(worth - nearest(worth, 1)) for worth in worths)
        self.moved, self.furthest = self.moved + (far > 0), max(self.furthest, math.ceil(far * 10000))
        return place(value, options)


class Feature:
    """A feature of a file: its number there, its id and properties, and its shapes, of which a collection has any number."""

    def __init__(self, number, id_, properties, shapes):
        self.number, self.id, self.properties, self.shapes = number, id_, properties, shapes

    def with_shapes(self, shapes):
        return Feature(self.number, self.id, self.properties, shapes)


def place(value, options):
    """A position on the grid."""
    return tuple(nearest(worth_of(it.what), options.size) for it in value.what[:2])


def shape_of(value, options, tally):
    """A shape: its kind, and lists of positions."""
    def inside(one, depth):
        return tally.take(one, options) if depth == 0 else [inside(it, depth - 1) for it in one.what]

    kind, coordinates = value.what["type"].what, value.what["coordinates"]
    depth = {"Point": 0, "MultiPoint": 1, "LineString": 1, "MultiLineString": 2, "Polygon": 2, "MultiPolygon": 3}[kind]
    return None if depth == 0 and not coordinates.what else (kind, inside(coordinates, depth))


def shapes_of(value, options, tally):
    """All shapes of a geometry, those of collections in their order."""
    if value.what["type"].what != COLLECTION:
        return [shape_of(value, options, tally)]
    return [it for one in value.what["geometries"].what for it in shapes_of(one, options, tally)]


def number_of(text, options, tally, past=2**64):
    """What a number of ids and properties becomes: an integer, or a text."""
    if is_integer(text, past) or options.reals != "text" and is_whole(text, past):
        return int(worth_of(text))
    tally.reals += 1
    return spelled(text)


def plain(value, options, tally):
    """A value of properties."""
    if value.kind == "number":
        return number_of(value.what, options, tally)
    if value.kind == "object":
        return {name: plain(it, options, tally) for name, it in value.what.items()}
    return [plain(it, options, tally) for it in value.what] if value.kind == "list" else value.what


def properties_of(value, options, tally):
    if value is None:
        return {}
    judge = Errors(options)
    return {name: nearest(worth_of(it.what), Fraction(1, 10**options.scales[name])) if judge.is_scaled(name, it) else plain(it, options, tally)
            for name, it in value.what.items()}


def id_of(value, options, tally):
    if value is None or value.kind != "number":
        return None if value is None else value.what
    return number_of(value.what, options, tally, past=2**63)


def feature_of(value, options, tally):
    """A feature, without its number, and whether its geometry is a collection."""
    properties, geometry = member(value, "properties"), member(value, "geometry")
    id_ = member(value, "id") if options.id is None else properties.what[options.id]
    made = properties_of(properties, options, tally)
    shapes = None if geometry is None else shapes_of(geometry, options, tally)
    is_collection = geometry is not None and geometry.what["type"].what == COLLECTION
    return Feature(None, id_of(id_, options, tally), made, shapes), is_collection


def features_of(value, options, tally):
    """The features of a text that has no error."""
    kind = value.what["type"].what
    if kind == "FeatureCollection":
        return [feature_of(it, options, tally) for it in value.what["features"].what]
    if kind == "Feature":
        return [feature_of(value, options, tally)]
    return [(Feature(None, None, {}, shapes_of(value, options, tally)), kind == COLLECTION)]


def read(values, options):
    """The features of a file that has no error, each with whether its geometry is a collection, and what is counted."""
    tally = Tally()
    found = [it for value in values for it in features_of(value, options, tally)]
    for number, (feature, _) in enumerate(found):
        feature.number = number
        if options.numbers and feature.id is None:
            feature.id = number + 1
    return found, tally


# ---- what is left of shapes

def closed(ring):
    """A ring that ends where it begins."""
    return [*ring, ring[0]] if ring and ring[0] != ring[-1] else ring


def runs(line):
    """A line cut where it comes to a segment again."""
    used, made, run = set(), [], []
    for position in line:
        if run:
            segment = frozenset((run[-1], position))
            if segment in used:
                made.append(run)
                run = []
            used.add(segment)
        run.append(position)
    return [run for run in [*made, run] if len(run) > 1]


def loops(ring):
    """A ring cut at the positions that it meets again."""
    path, made = [], []
    for position in ring:
        if position in path:
            at = path.index(position)
            if len(path) - at > 2:
                made.append([*path[at:], position])
            path = path[: at + 1]
        else:
            path.append(position)
    return made


def area(ring):
    return sum(ax * by - bx * ay for (ax, ay), (bx, by) in zip(ring, ring[1:]))


def is_inside(ring, x, y):
    odd = False
    for (ax, ay), (bx, by) in zip(ring, ring[1:]):
        if (ay > y) != (by > y):
            odd ^= Fraction(bx - ax) * (y - ay) / (by - ay) + ax > x
    return odd


def lies_in(ring, other):
    """Whether more than half of the middles of the first eight sides of a ring are inside another."""
    middles = [(Fraction(ax + bx, 2), Fraction(ay + by, 2)) for (ax, ay), (bx, by) in zip(ring[:9], ring[1:9])]
    return 2 * sum(is_inside(other, x, y) for x, y in middles) > len(middles)


def home_of(polygons, ring):
    return next((polygon for polygon in polygons if lies_in(ring, polygon[0])), None)


class Fixer:
    """What is left of the shapes of a feature, and how much was fixed."""

    def __init__(self, options):
        self.options, self.fixes = options, collections.Counter()

    def outline(self, positions, errors, split):
        """What is left of a line or ring: nothing, all, or what it is split into."""
        if not errors:
            return [positions]
        is_short = errors[0][1] == 8
        self.fixes["collapsed" if is_short else "folded"] += 1
        return [] if is_short else split(positions)

    def line(self, positions):
        return self.outline(positions, faults.line_error(positions), lambda it: runs(merged(it)))

    def ring(self, positions):
        return self.outline(positions, faults.ring_error(positions), loops)

    def closed(self, ring):
        self.fixes["closed"] += closed(ring) != ring
        return closed(ring)

    def polygon(self, rings):
        """The polygons that are left of one."""
        if not rings:
            return [[]]
        rings = [self.closed(it) for it in rings]
        outers, others = self.ring(rings[0]), []
        if len(outers) > 1:
            turn = area(rings[0]) > 0
            others = [it for it in outers if (area(it) > 0) != turn]
            outers = [it for it in outers if (area(it) > 0) == turn]
        polygons = [[it] for it in outers]
        for ring in others:
            if home := home_of(polygons, ring):
                home.append(ring)
        for hole in [it for ring in rings[1:] for it in self.ring(ring)]:
            if polygons:
                home = home_of(polygons, hole) if len(polygons) > 1 else None
                (home or polygons[0]).append(hole)
        return polygons

    def parts(self, name, parts, fix, is_single):
        left = [it for part in parts for it in fix(part)]
        if parts and not left:
            return None
        return (name, left[0]) if is_single and len(left) == 1 else (f"Multi{name}", left)

    def shape(self, shape):
        """What is left of a shape, or None."""
        kind, coordinates = shape
        if kind in ("Point", "MultiPoint"):
            return shape
        is_single = not kind.startswith("Multi")
        parts = [coordinates] if is_single else coordinates
        if kind.endswith("LineString"):
            return self.parts("LineString", parts, self.line, is_single)
        return self.parts("Polygon", parts, self.polygon, is_single)

    def shapes(self, shapes, is_collection):
        """The shapes that are left, each of a feature of its own; a null geometry is None."""
        if shapes is None or shapes == [None] and not is_collection:
            return [None]
        self.fixes["collections"] += is_collection
        left = [it for it in map(self.shape, filter(None, shapes)) if it]
        if left:
            return left
        self.fixes["lost"] += 1
        return [] if self.options.collapsed == "drop" else [None]


def ring_form(ring):
    """A ring from where its list of positions is least."""
    ring = merged(ring)[:-1]
    least = min(ring[place:] + ring[:place] for place in range(len(ring)))
    return [*least, least[0]]


def turned(rewind, is_outer, ring):
    if rewind == "keep":
        return ring_form(ring)
    size = area(ring)
    if size == 0:
        return min(ring_form(ring), ring_form(ring[::-1]))
    is_left = is_outer == (rewind == "rfc7946")
    return ring_form(ring if (size > 0) == is_left else ring[::-1])


def form(shape, rewind):
    """A shape as it is printed: equal neighbours are one, and rings begin where they are least and are turned as is asked."""
    kind, coordinates = shape
    if kind == "LineString":
        return kind, merged(coordinates)
    if kind == "MultiLineString":
        return kind, [merged(it) for it in coordinates]
    if kind == "Polygon":
        return kind, [turned(rewind, i == 0, it) for i, it in enumerate(coordinates)]
    if kind == "MultiPolygon":
        return kind, [[turned(rewind, i == 0, it) for i, it in enumerate(polygon)] for polygon in coordinates]
    return shape


# ---- vertices that are nearly shared

def positions_in(coordinates):
    if isinstance(coordinates, tuple):
        return [coordinates]
    return [position for it in coordinates for position in positions_in(it)]


def users_of(shapes):
    """The numbers of the features that have a position, of each position."""
    users = collections.defaultdict(set)
    for number, shape in enumerate(shapes):
        for position in positions_in(shape[1]) if shape else []:
            users[position].add(number)
    return users


def near_pairs(users, distance):
    """The pairs of positions that are nearly shared, and at most so far apart."""
    for a, b in itertools.combinations(sorted(users), 2):
        if max(abs(a[0] - b[0]), abs(a[1] - b[1])) <= distance and users[a] - users[b] and users[b] - users[a]:
            yield a, b


def clusters_of(users, distance):
    """The sets of positions that pairs connect, of two or more."""
    cluster = {}
    for a, b in near_pairs(users, distance):
        one, other = cluster.setdefault(a, {a}), cluster.setdefault(b, {b})
        if one is not other:
            one |= other
            cluster.update(dict.fromkeys(other, one))
    return list({id(it): it for it in cluster.values()}.values())


def moves_of(shapes, distance):
    """Where positions move to, and the least positions of the clusters that are too wide."""
    moves, wide = {}, []
    for cluster in clusters_of(users_of(shapes), distance):
        least = min(cluster)
        if any(max(abs(x - least[0]), abs(y - least[1])) > distance for x, y in cluster):
            wide.append(least)
        else:
            moves.update({position: least for position in cluster if position != least})
    return moves, sorted(wide)


def moved(coordinates, moves):
    if isinstance(coordinates, tuple):
        return moves.get(coordinates, coordinates)
    return [moved(it, moves) for it in coordinates]


# ---- files

class Refused(Exception):
    """What the moves of --snap collapse or fold is refused: the error of a feature."""

    def __init__(self, feature, number):
        super().__init__(feature, number)
        self.error = (("features", feature), number)


class File:
    """What becomes of a file: its features, each with one shape, what is counted, what was fixed of each of its own, and which
    equal earlier ones of their layer."""

    def __init__(self, name, values, options):
        found, self.tally = read(values, options)
        self.name, self.equal = name, []
        self.count, self.options, self.features, self.fixed = len(found), options, [], collections.defaultdict(collections.Counter)
        for feature, is_collection in found:
            fixer = Fixer(options)
            self.take(feature, fixer, fixer.shapes(feature.shapes, is_collection))

    def take(self, feature, fixer, shapes):
        self.fixed[feature.number].update(fixer.fixes)
        self.features += [feature.with_shapes([it and form(it, self.options.rewind)]) for it in shapes]

    def move(self, moves):
        """Moves positions, and fixes what they collapse or fold."""
        features, self.features = self.features, []
        for feature in features:
            [shape], fixer = feature.shapes, Fixer(self.options)
            if shape:
                shape = (shape[0], moved(shape[1], moves))
            shapes = fixer.shapes([shape], False)
            for name, number in ("collapsed", 8), ("folded", 10):
                if getattr(self.options, name) == "refuse" and fixer.fixes[name]:
                    raise Refused(feature.number, number)
            self.take(feature, fixer, shapes)

    def count_of(self, name):
        return sum(it[name] for it in self.fixed.values())


class Rounded:
    """What becomes of some files together, each a name and the values of its texts."""

    def __init__(self, sources, options):
        self.options = options
        self.files = [File(name, values, options) for name, values in sources]
        self.moves, self.wide = {}, []
        if options.distance:
            self.moves, self.wide = moves_of(self.shapes(), options.distance)
            for file in self.files if self.moves else []:
                file.move(self.moves)
        users = users_of(self.shapes())
        self.shared = sum(len(it) > 1 for it in users.values())
        self.near = list(near_pairs(users, 1))
        seen = set()
        for file, feature in ((file, it) for file in self.files for it in file.features):
            text = (file.name, feature_text(feature, options))
            file.equal += [feature.number] if text in seen else []
            seen.add(text)

    def shapes(self):
        return [feature.shapes[0] for file in self.files for feature in file.features]

    def absent(self):
        """The properties that are scaled and that no feature of the result has."""
        return [name for name in self.options.scales if not any(name in it.properties for file in self.files for it in file.features)]

    def columns(self, is_build):
        """The columns of each file that has numbers made texts; of a topology those of the file's layer, which has equal features once."""
        layers = collections.defaultdict(dict)
        for number, file in enumerate(self.files):
            for i, it in enumerate(file.features):
                layers[file.name if is_build else number][feature_text(it, self.options) if is_build else i] = it.properties
        return [columns_of(layers[file.name if is_build else i].values()) if file.tally.reals else {} for i, file in enumerate(self.files)]

    def is_lossy(self):
        counts = [file.tally.heights + file.tally.reals + len(file.equal) + sum(map(file.count_of, FIXES)) for file in self.files]
        return bool(self.near or any(counts))


# ---- columns of numbers

NUMERAL = re.compile(r"-?(?:0|[1-9][0-9]*)(?:\.[0-9]+)?(?:[eE][-+]?[0-9]+)?")


def is_decimal(value):
    """Whether a value of properties is a text that is a number of JSON."""
    return isinstance(value, str) and NUMERAL.fullmatch(value) is not None


def is_fraction(value):
    """Whether it is one with a point or an exponent."""
    return is_decimal(value) and bool(set(value) & set(".eE"))


def is_numeric(value):
    """Whether a column of numbers may have the value."""
    return value is None or isinstance(value, int) and not isinstance(value, bool) or is_decimal(value)


def columns_of(features):
    """How many texts with a point or an exponent each column of numbers has, by its name, of the properties of some features."""
    values = collections.defaultdict(list)
    for properties in features:
        for name, it in properties.items():
            values[name].append(it)
    counts = {name: sum(map(is_fraction, its)) for name, its in values.items() if all(map(is_numeric, its))}
    return {name: counts[name] for name in sorted(counts, key=str.encode) if counts[name]}


# ---- what is printed

def written(value):
    return json.dumps(value, separators=(",", ":"), sort_keys=True, ensure_ascii=False)


def in_numbers(coordinates, options):
    """Positions, or lists of them, in the numbers of the result."""
    if isinstance(coordinates, int):
        return coordinates * options.scale
    return [in_numbers(it, options) for it in coordinates]


def geometry_text(shape, options):
    return "null" if shape is None else written({"type": shape[0], "coordinates": in_numbers(shape[1], options)})


def feature_text(feature, options):
    id_ = "" if feature.id is None else f'"id":{written(feature.id)},'
    return f'{{"geometry":{geometry_text(feature.shapes[0], options)},{id_}"properties":{written(feature.properties)},"type":"Feature"}}'


def text_of(file):
    texts = (feature_text(it, file.options) for it in file.features)
    return f'{{"features":[{",".join(texts)}],"type":"FeatureCollection"}}'.encode()


def decimal_text(number):
    """A decimal number without an exponent, and without zeros at its end."""
    places = 0
    while (number * 10**places).denominator > 1:
        places += 1
    digits = str(int(number * 10**places)).rjust(places + 1, "0")
    return f"{digits[:-places]}.{digits[-places:]}" if places else digits


def furthest_of(file):
    """How far a position moved, in steps and in the unit of the map."""
    steps = Fraction(file.tally.furthest, 10000)
    return steps, steps * file.options.size


def fixed_members(fixes):
    return {name: fixes[name] for name in FIXES}


def file_report(file, path, columns):
    tally = file.tally
    steps, units = furthest_of(file)
    fixed = [{"feature": number, **fixed_members(it)} for number, it in sorted(file.fixed.items()) if any(it.values())]
    return {"file": path, "name": file.name, "features": file.count, "positions": tally.positions, "moved": tally.moved,
            "furthest_steps": steps, "furthest": units, "heights": tally.heights, "reals": tally.reals, "columns": columns,
            **{it: file.count_of(it) for it in FIXES}, "equal": len(file.equal), "first_equal": file.equal[0] if file.equal else None, "fixed": fixed}


def back_words(rounded, columns):
    """The words of the way back, of a topology on standard input."""
    names = sorted({name for it in columns for name in it}, key=str.encode)
    words = ["togrid", "--back", *(["--unit", rounded.options.unit] if rounded.options.unit else [])]
    if names:
        words.append("--numbers" if any(not it or "," in it for it in names) else f"--numbers={','.join(names)}")
    for name, places in rounded.options.scales.items():
        words += ["--reals", f"scale:{name}={10**places}"]
    return [*words, "-"]


def shell_word(word):
    quoted = word.replace("'", "'\\''")
    return word if re.fullmatch(r"[A-Za-z0-9_./=,:+@%-]*", word) else f"'{quoted}'"


def report_of(rounded, paths, is_build=False):
    """The report as an object, with fractions for the decimal numbers of files."""
    options, columns = rounded.options, rounded.columns(is_build)
    made = {"step": options.step_word, "files": [file_report(*it) for it in zip(rounded.files, paths, columns)]}
    made |= {"absent": rounded.absent()} if options.scales else {}
    made["shared"] = rounded.shared
    if options.distance:
        wide = in_numbers(rounded.wide[0], options) if rounded.wide else None
        made |= {"joined": len(rounded.moves), "too_wide": len(rounded.wide), "first_too_wide": wide}
    near = in_numbers(rounded.near[0], options) if rounded.near else None
    return {**made, "nearly_shared": len(rounded.near), "first_nearly_shared": near, "back": back_words(rounded, columns)}


WORDS = {"closed": "rings closed", "collapsed": "lines or rings collapsed", "folded": "lines or rings folded, and split", "collections": "collections split",
         "lost": "features without a shape left"}


def file_lines(file, path, columns):
    tally = file.tally
    yield f"{path}: {file.count} features, {tally.positions} positions, step {file.options.step_word}"
    if tally.moved:
        steps, units = map(decimal_text, furthest_of(file))
        yield f"  {tally.moved} positions moved, by at most {steps} steps ({units})"
    if tally.heights:
        yield f"  {tally.heights} heights dropped"
    if tally.reals:
        yield f"  {tally.reals} numbers made texts"
    for name, count in columns.items():
        yield f"  {count} texts in column {name}"
    for name in FIXES:
        if count := file.count_of(name):
            yield f"  {count} {WORDS[name]}, the first in feature {min(number for number, it in file.fixed.items() if it[name])}"
    if file.equal:
        yield f"  {len(file.equal)} features equal to others, the first is feature {file.equal[0]}"


def pair_text(position, options):
    return ",".join(map(str, in_numbers(position, options)))


def report_lines(rounded, paths, is_build=False):
    """The report on standard error."""
    columns = rounded.columns(is_build)
    for it in zip(rounded.files, paths, columns):
        yield from file_lines(*it)
    for name in rounded.absent():
        yield f"no feature has the property of --reals scale:{name}"
    if rounded.shared:
        yield f"{rounded.shared} vertices shared"
    if rounded.options.distance:
        yield f"{len(rounded.moves)} vertices joined to others"
        if rounded.wide:
            yield f"{len(rounded.wide)} clusters too wide to be joined, the first at {pair_text(rounded.wide[0], rounded.options)}"
    if rounded.near:
        yield f"{len(rounded.near)} nearly shared vertices, the first at {' and '.join(pair_text(it, rounded.options) for it in rounded.near[0])}"
    if any(columns) or rounded.options.scales:
        yield f"back: {' '.join(map(shell_word, back_words(rounded, columns)))}"


# ---- what is reported of errors

def path_text(path):
    return "$" + "".join(f"/{escaped(it)}" for it in path)


def first_line(file, path, number, options):
    """The line of a file that is refused."""
    hint = ": numbers beyond 180 and 90 need --step" if number == 6 and options.step is None else ""
    return f"togrid: {file}: {number} {faults.NAMES[number]} {path_text(path)}{hint}\n"


def value_at(value, path):
    """The value at a path, or the last on the way to it."""
    for step in path:
        is_index = value.kind == "list" and isinstance(step, int)
        found = value.what.get(step) if value.kind == "object" else value.what[step] if is_index else None
        if found is None:
            return value
        value = found
    return value


def feature_id(value, path):
    """The id of the feature that an error lies in, as JSON, where it is a text or a whole number."""
    feature = value_at(value, path[:2]) if path[:1] == ("features",) and len(path) > 1 else value
    is_feature = path[:1] == ("features",) and len(path) > 1 or "type" in value.what and value.what["type"].what == "Feature"
    id_ = member(feature, "id") if is_feature and feature.kind == "object" else None
    if id_ is None or id_.kind not in ("text", "number") or id_.kind == "number" and not is_integer(id_.what, past=2**63):
        return None
    return written(int(id_.what) if id_.kind == "number" else id_.what)


def fault_line(file, text, record, error):
    """The line that --faults prints of an error, but for the member that 13 names."""
    path, number = error
    line, column = line_and_column(text, record.place_of(path))
    id_ = feature_id(record.value, path) if record.value is not None and record.value.kind == "object" else None
    return f"{file}:{line}:{column}: {number} {faults.NAMES[number]} {path_text(record.path + path)}" + (f" id {id_}" if id_ is not None else "")
