"""What docs/TOGRID.md says of a topology in decimal numbers, as a program over Python's fractions.

tests/topojson_in.py compares `togrid` with it: the errors of a topology under some options, and the GeoJSON that its layers are
stitched to, by exact decimal numbers. What becomes of that says tests/rounding.py.
"""

import re
from fractions import Fraction

import faults
import rounding
from faults import Value, read_type, required, under
from rounding import COLLECTION, GEOMETRIES, GREATEST, decimal_text, member, nearest, worth_of

LONGEST = 10**25
PAST = 2**64
POINTS = ("Point", "MultiPoint")


def whole(value):
    """The whole number below 2^64 that a number is worth, or None."""
    worth = worth_of(value.what)
    return int(worth) if worth.denominator == 1 and abs(worth) < PAST else None


def places_of(text):
    """How many places a numeral has behind its point, those of a negative exponent too."""
    _, fraction, exponent = re.fullmatch(r"-?(\d+)(?:\.(\d+))?(?:[eE]([-+]?\d+))?", text).groups()
    return len(fraction or "") + max(0, -int(exponent or 0))


def is_fit(value, other):
    """Whether a number has at most 25 digits over the power of ten that it and another have in common."""
    places = max(places_of(value.what), places_of(other.what))
    return abs(Fraction(value.what) * 10**places) < LONGEST


def pair_errors(value, element):
    if value is None:
        return [((), 2)]
    if value.kind != "list":
        return [((), 3)]
    if len(value.what) != 2:
        return [((), 16)]
    return [it for axis, one in enumerate(value.what) for it in under(axis, element(axis, one))]


def transform_errors(value):
    """Two numbers each, and then within their limits."""
    if value.kind != "object":
        return [((), 3)]
    names = ("scale", "translate")
    found = [it for name in names for it in under(name, pair_errors(value.what.get(name), lambda _, it: [] if it.kind == "number" else [((), 3)]))]
    if found:
        return found
    pairs = [value.what[name].what for name in names]
    return [((name, axis), 6) for name, numbers, others in zip(names, pairs, pairs[::-1]) for axis in (0, 1) if not is_fit(numbers[axis], others[axis])]


def numbers_in(value):
    """The numbers in lists of lists."""
    return [value] if value.kind == "number" else [it for one in value.what for it in numbers_in(one)] if value.kind == "list" else []


def used_arcs(value, count):
    """The arcs, of so many, that a geometry object has in its member `arcs`, or one of its geometries has."""
    if value.kind != "object":
        return set()
    arcs, parts = value.what.get("arcs"), value.what.get("geometries")
    numbers = [] if arcs is None else map(whole, numbers_in(arcs))
    found = {it if it >= 0 else ~it for it in numbers if it is not None and -count <= it < count}
    return found.union(*(used_arcs(it, count) for it in (parts.what if parts is not None and parts.kind == "list" else [])))


class Place:
    """A position: on the grid, and as a value of GeoJSON."""

    def __init__(self, value, options):
        self.value, self.at = value, rounding.place(value, options)


class Topology(rounding.Errors):
    """The errors of a topology under some options, and the layers that it is stitched to where it has none."""

    def __init__(self, value, options):
        super().__init__(options)
        self.axes, self.arcs = None, []
        self.errors = rounding.in_order(self.root(value))
        self.value = value

    # ---- positions

    def through(self, numbers, heights):
        """The position of whole numbers, through the transform."""
        worths = [number * scale + translate for number, (scale, translate) in zip(numbers, self.axes)]
        return Value("list", 0, [*(Value("number", 0, decimal_text(abs(it)) if it >= 0 else f"-{decimal_text(abs(it))}") for it in worths), *heights])

    def coordinate_through(self, axis, number):
        scale, translate = self.axes[axis]
        is_within = abs(number) <= GREATEST and abs(nearest(number * scale + translate, self.options.size)) <= self.options.limits[axis]
        return [] if is_within else [((), 6)]

    def step(self, sums, value):
        """The errors of a position as a difference; the sums are moved."""
        if value.kind != "list" or len(value.what) < 2 or self.options.refuses_heights and len(value.what) > 2:
            sums[:] = [None, None]
            return [((), 3 if value.kind != "list" else 16)]
        found = []
        for axis, it in enumerate(value.what[:2]):
            number = whole(it) if it.kind == "number" else None
            sums[axis] = None if number is None or sums[axis] is None else sums[axis] + number
            wrong = [((), 3)] if it.kind != "number" else [((), 5)] if number is None else []
            wrong = wrong or ([] if sums[axis] is None else self.coordinate_through(axis, sums[axis]))
            sums[axis] = None if wrong else sums[axis]  # behind an error of an axis its sums are unknown
            found += under(axis, wrong)
        return found + [it for i, one in enumerate(value.what[2:]) for it in under(i + 2, [] if one.kind == "number" else [((), 3)])]

    def position(self, value):
        return super().position(value) if self.axes is None else self.step([0, 0], value)

    def place(self, value):
        if self.axes is None:
            return Place(value, self.options)
        return Place(self.through(map(whole, value.what[:2]), value.what[2:]), self.options)

    # ---- arcs

    def arc(self, value):
        sums = [0, 0]
        errors = self.each(value, self.position if self.axes is None else lambda it: self.step(sums, it))
        return errors or ([] if value.what else [((), 8)])

    def along(self, value):
        """The places along an arc."""
        if self.axes is None:
            return [self.place(it) for it in value.what]
        x = y = 0
        made = []
        for it in value.what:
            x, y = x + whole(it.what[0]), y + whole(it.what[1])
            made.append(Place(self.through((x, y), it.what[2:]), self.options))
        return made

    def arc_of(self, value):
        """The places along the arc that a number names, where they are known, and the error of the number."""
        number = whole(value) if value.kind == "number" else None
        if number is None:
            return None, [((), 3 if value.kind != "number" else 5)]
        if not -len(self.arcs) <= number < len(self.arcs):
            return None, [((), 11)]
        arc = self.arcs[number if number >= 0 else ~number]
        return arc and (arc if number >= 0 else arc[::-1]), []

    def stitched(self, value):
        """The places that a list of numbers is stitched to, and the errors of the numbers."""
        made, errors, end, is_known = [], [], None, True
        for i, it in enumerate(value.what):
            arc, wrong = self.arc_of(it)
            if arc and end is not None and arc[0].at != end:
                wrong = [((), 12)]
            errors += under(i, wrong)
            is_known, end = is_known and bool(arc), arc[-1].at if arc else None
            made += (arc or [])[bool(i):]
        return made, errors, is_known

    def outline(self, value, asked):
        if value.kind != "list":
            return [((), 3)]
        made, errors, is_known = self.stitched(value)
        return errors or (self.unfixed(asked([it.at for it in made])) if is_known else [])

    # ---- geometries

    def typed(self, kind, value):
        if kind == "null":
            return []
        if kind == COLLECTION or kind in POINTS:
            return super().typed(kind, value)
        arcs = Value("object", value.at, {"coordinates": value.what["arcs"]} if "arcs" in value.what else {})
        return [(("arcs", *path[1:]), number) for path, number in super().typed(kind, arcs)]

    def geometry(self, value):
        if value.kind != "object":
            return [((), 3)]
        kind, errors = read_type(value, self.types(), may_be_null=True)
        return errors or self.typed(kind, value)

    def feature(self, value):
        if value.kind != "object":
            return [((), 3)]
        kind, errors = read_type(value, self.types(), may_be_null=True)
        return errors or self.typed(kind, value) + self.attributes(value)

    def layer(self, value):
        if value.kind != "object":
            return [((), 3)]
        kind, errors = read_type(value, (*GEOMETRIES, COLLECTION), may_be_null=True)
        if errors:
            return errors
        if kind == COLLECTION:
            return required(value, "geometries", lambda v: self.each(v, self.feature))
        return self.typed(kind, value) + self.attributes(value)

    def layers(self, value):
        if value.kind != "object":
            return [((), 3)]
        if self.options.layer is not None:
            one = value.what.get(self.options.layer)
            return under(self.options.layer, [((), 2)] if one is None else self.layer(one))
        return [it for name, one in value.what.items() for it in under(name, self.layer(one))]

    def root(self, value):
        transform, arcs = value.what.get("transform"), value.what.get("arcs")
        if transform is not None:
            if errors := under("transform", transform_errors(transform)):
                return errors
            pairs = [[Fraction(it.what) for it in transform.what[name].what] for name in ("scale", "translate")]
            self.axes = list(zip(*pairs))
        if arcs is None or arcs.kind != "list":
            return [(("arcs",), 2 if arcs is None else 3)]
        used, errors = used_arcs_of(value, len(arcs.what), self.options.layer), []
        for i, arc in enumerate(arcs.what):
            found = self.arc(arc) if i in used else []
            self.arcs.append(self.along(arc) if i in used and not found else None)
            errors += under("arcs", under(i, found))
        return errors + required(value, "objects", self.layers)

    # ---- what it is stitched to

    def body(self, kind, value):
        """The coordinates of a geometry."""
        def inside(it, depth):
            if depth:
                return Value("list", 0, [inside(one, depth - 1) for one in it.what])
            return self.place(it).value if kind in POINTS else Value("list", 0, [one.value for one in self.stitched(it)[0]])

        depth = {"Point": 0, "MultiPoint": 1, "LineString": 0, "MultiLineString": 1, "Polygon": 1, "MultiPolygon": 2}[kind]
        return value if kind == "Point" and not value.what else inside(value, depth)

    def geojson(self, value):
        """The geometry of a geometry object; a Point without coordinates, where it has none."""
        kind = value.what["type"].what
        if kind is None:
            return typed_value("Point", coordinates=Value("list", 0, []))
        if kind == COLLECTION:
            return typed_value(kind, geometries=Value("list", 0, [self.geojson(it) for it in value.what["geometries"].what]))
        return typed_value(kind, coordinates=self.body(kind, value.what["coordinates" if kind in POINTS else "arcs"]))

    def as_feature(self, value):
        found = {name: it for name in ("id", "properties") if (it := member(value, name)) is not None}
        return typed_value("Feature", geometry=self.geojson(value), **found)

    def collections(self):
        """The name and the FeatureCollection of each layer, in the order of their names."""
        for name, value in sorted(objects_of(self.value, self.options.layer).items(), key=lambda it: it[0].encode()):
            parts = value.what["geometries"].what if value.what["type"].what == COLLECTION else [value]
            yield name, typed_value("FeatureCollection", features=Value("list", 0, [self.as_feature(it) for it in parts]))


def objects_of(value, layer):
    """The objects of a topology that are read, by their names: all, or the one that is named."""
    objects = value.what.get("objects")
    found = {} if objects is None or objects.kind != "object" else objects.what
    return {name: it for name, it in found.items() if layer in (None, name)}


def used_arcs_of(value, count, layer):
    return set().union(*(used_arcs(it, count) for it in objects_of(value, layer).values()))


def typed_value(kind, **members):
    return Value("object", 0, {"type": Value("text", 0, kind), **members})


def text_of(value):
    """The text of a value, with its numerals as they are."""
    if value.kind == "number":
        return value.what
    if value.kind == "list":
        return f"[{','.join(map(text_of, value.what))}]"
    if value.kind == "object":
        return "{" + ",".join(f"{rounding.written(name)}:{text_of(it)}" for name, it in value.what.items()) + "}"
    return rounding.written(value.what)


def is_topology(value):
    kind = value.what.get("type") if value.kind == "object" else None
    return kind is not None and kind.kind == "text" and kind.what == "Topology"
