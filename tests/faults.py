"""Compares all errors that `topotool faults` tells with a list of its own, for texts that were hurt at random.

    python3 tests/faults.py [--seed N] [--texts N] [--seconds N]

The list is made from docs/FAULTS.md alone, of the value that Python's own reader of JSON gives: which errors, in which
order, on which line and in which column, with which id. Some texts are GeoJSON, the others topologies; each is hurt in
one to five places, so most have several errors. The first line has to be the error that `build` or `merge` tells, and what
`--explain` adds the beginning of its section in docs/FAULTS.md.
Ends with a line of counts, and with status 1 where a list differs, almost no text was tried, or few had many errors.
"""

import copy
import json
import random
import re
import sys
import tempfile

sys.dont_write_bytecode = True

from many_runs import LEAST_TEXTS, TOP, judged, told, topotool, words_of

NAMES = {1: "NotJson", 2: "Missing", 3: "WrongKind", 4: "UnknownType", 5: "NotWhole", 6: "OutOfRange", 7: "OffGrid", 8: "TooShort", 9: "NotClosed",
         10: "Revisit", 11: "NoArc", 12: "Broken", 13: "PropertyNumber", 14: "PropertyDepth", 15: "NoTransform", 16: "NotTwo"}
GREATEST_STEPS, GREATEST_NUMBER = 2 ** 40, 2 ** 53 - 1
GREATEST_SCALE, GREATEST_TRANSLATION = 10 ** 6, 10 ** 12
GEOMETRIES = ("Point", "MultiPoint", "LineString", "MultiLineString", "Polygon", "MultiPolygon")
DEEPEST_TEXT, DEEPEST_PROPERTIES = 127, 64


# ---- texts with places: a value of JSON knows where it begins

class NotJson(Exception):
    """No JSON from a place on, as docs/FAULTS.md has it: no UTF-8, or nested more than 127 deep, or a number past all floats, too."""

    def __init__(self, at):
        super().__init__(at)
        self.at = at


class Value:
    """A value: `kind` is null, bool, int, float, text, list or object, and `at` is where it begins."""

    def __init__(self, kind, at, what=None):
        self.kind, self.at, self.what = kind, at, what

    def get(self, name):
        return self.what.get(name)


class Reader:
    """Reads one value, with the decoder of the standard library for texts and numbers."""

    deepest = DEEPEST_TEXT

    def __init__(self, text):
        self.text, self.at = text, 0

    def blank(self):
        while self.at < len(self.text) and self.text[self.at] in " \t\r\n":
            self.at += 1

    def take(self, word):
        if not self.text.startswith(word, self.at):
            raise NotJson(self.at)
        self.at += len(word)

    def whole(self):
        value = self.value(0)
        self.blank()
        if self.at < len(self.text):
            raise NotJson(self.at)
        return value

    def value(self, depth):
        self.blank()
        if self.at >= len(self.text):
            raise NotJson(self.at)
        at, first = self.at, self.text[self.at]
        if first == "{":
            return self.object(at, depth + 1)
        if first == "[":
            return self.list(at, depth + 1)
        if first == '"':
            return Value("text", at, self.string())
        if first in "-0123456789":
            return self.number(at)
        for word, kind, what in (("null", "null", None), ("true", "bool", True), ("false", "bool", False)):
            if self.text.startswith(word, at):
                self.end(at, at + len(word))
                return Value(kind, at, what)
        raise NotJson(at)

    def end(self, at, end):
        """A word or a number ends here, and is none where more follows at once."""
        if self.text[end:end + 1] not in ("", *" \t\r\n{}[]:,"):
            raise NotJson(at)
        self.at = end

    def string(self):
        at = self.at
        try:
            what, self.at = json.decoder.scanstring(self.text, at + 1, True)
            what.encode()
        except ValueError:
            raise NotJson(at) from None
        return what

    def number(self, at):
        match = json.scanner.NUMBER_RE.match(self.text, at)
        if match is None:
            raise NotJson(at)
        self.end(at, match.end())
        whole, fraction, power = match.groups()
        if fraction or power:
            if abs(float(match.group())) == float("inf"):
                raise NotJson(at)
            return Value("float", at)
        number = int(whole)
        if whole.startswith("-0") or not -2 ** 63 <= number < 2 ** 64:
            if abs(float(whole)) == float("inf"):
                raise NotJson(at)
            return Value("float", at)
        return Value("int", at, number)

    def parts(self, depth, end, part):
        if depth > self.deepest:
            raise NotJson(self.at)
        self.at += 1
        self.blank()
        if self.text.startswith(end, self.at):
            self.at += 1
            return
        while True:
            part()
            self.blank()
            if self.text.startswith(end, self.at):
                self.at += 1
                return
            self.take(",")

    def list(self, at, depth):
        items = []
        self.parts(depth, "]", lambda: items.append(self.value(depth)))
        return Value("list", at, items)

    def object(self, at, depth):
        members = {}

        def member():
            self.blank()
            if not self.text.startswith('"', self.at):
                raise NotJson(self.at)
            name = self.string()
            self.blank()
            self.take(":")
            members[name] = self.value(depth)

        self.parts(depth, "}", member)
        return Value("object", at, members)


# ---- errors: (path, number), and where the value of that path is

def element(value, asked):
    """A number that has to be whole, and what else is asked of it."""
    if value.kind not in ("int", "float"):
        return [((), 3)]
    if value.kind == "float" or value.what >= 2 ** 63:
        return [((), 5)]
    return asked(value.what)


def under(step, errors):
    return [((step, *path), number) for path, number in errors]


def pair(value, first, second):
    if value.kind != "list":
        return [((), 3)]
    if len(value.what) != 2:
        return [((), 16)]
    return under(0, first(value.what[0])) + under(1, second(value.what[1]))


def each(value, part):
    if value.kind != "list":
        return [((), 3)]
    return [it for i, one in enumerate(value.what) for it in under(i, part(one))]


def required(value, name, part):
    return under(name, part(value.get(name)) if name in value.what else [((), 2)])


def read_type(value, words, may_be_null=False):
    """The type and no error, or None and the error."""
    found = value.get("type")
    if found is None:
        return None, [(("type",), 2)]
    if may_be_null and found.kind == "null":
        return "null", []
    if found.kind != "text":
        return None, [(("type",), 3)]
    if found.what not in words:
        return None, [(("type",), 4)]
    return found.what, []


def has_fraction(value):
    inner = {"list": value.what, "object": list(value.what.values()) if value.kind == "object" else None}.get(value.kind, [])
    return value.kind == "float" or any(has_fraction(it) for it in inner)


def depth_of(value):
    inner = {"list": value.what, "object": list(value.what.values()) if value.kind == "object" else None}.get(value.kind)
    return 0 if inner is None else 1 + max((depth_of(it) for it in inner), default=0)


def info(value):
    errors, id_, properties = [], value.get("id"), value.get("properties")
    if id_ is not None and id_.kind not in ("null", "text"):
        errors += under("id", element(id_, lambda n: []))
    if properties is not None and properties.kind != "null":
        if properties.kind != "object":
            errors.append((("properties",), 3))
        else:
            errors += [(("properties",), 13)] if has_fraction(properties) else []
            errors += [(("properties",), 14)] if depth_of(properties) > DEEPEST_PROPERTIES else []
    return errors


def collapsed(positions):
    return [it for i, it in enumerate(positions) if i == 0 or it != positions[i - 1]]


def has_segment_twice(positions):
    segments = [frozenset(it) for it in zip(positions, positions[1:])]
    return len(set(segments)) < len(segments)


def line_error(positions):
    line = collapsed(positions)
    if len(line) < 2 or line[0] == line[-1] and len(line) < 4:
        return [((), 8)]
    return [((), 10)] if has_segment_twice(line) else []


def ring_error(positions):
    ring = collapsed(positions)
    if not ring:
        return [((), 8)]
    if ring[0] != ring[-1]:
        return [((), 9)]
    if len(ring) < 4:
        return [((), 8)]
    return [((), 10)] if has_segment_twice(ring) else []


def by_type(kind, position, line, ring):
    """What a geometry of this type is read by."""
    return {"Point": position, "MultiPoint": lambda v: each(v, position), "LineString": line, "MultiLineString": lambda v: each(v, line),
            "Polygon": lambda v: each(v, ring), "MultiPolygon": lambda v: each(v, lambda w: each(w, ring))}[kind]


class GeoJson:
    """The errors of a text of GeoJSON on a grid (scale x, scale y, translation x, translation y)."""

    def __init__(self, grid):
        self.grid = grid

    def number(self, axis, value):
        scale, translation = self.grid[axis], self.grid[axis + 2]

        def asked(number):
            steps, rest = divmod(number - translation, scale)
            if rest:
                return [((), 7)]
            return [] if abs(steps) <= GREATEST_STEPS and abs(number) <= GREATEST_NUMBER else [((), 6)]
        return element(value, asked)

    def position(self, value):
        return pair(value, lambda x: self.number(0, x), lambda y: self.number(1, y))

    def outline(self, value, asked):
        errors = each(value, self.position)
        return errors or asked([tuple(number.what for number in it.what) for it in value.what])

    def typed(self, kind, value):
        part = by_type(kind, self.position, lambda v: self.outline(v, line_error), lambda v: self.outline(v, ring_error))
        return required(value, "coordinates", part)

    def geometry(self, value):
        if value.kind == "null":
            return []
        if value.kind != "object":
            return [((), 3)]
        kind, errors = read_type(value, GEOMETRIES)
        return errors or self.typed(kind, value)

    def feature(self, value):
        errors = under("geometry", self.geometry(value.get("geometry"))) if "geometry" in value.what else []
        return errors + info(value)

    def element(self, value):
        if value.kind != "object":
            return [((), 3)]
        _, errors = read_type(value, ("Feature",))
        return errors or self.feature(value)

    def root(self, value):
        if value.kind != "object":
            return [((), 3)]
        kind, errors = read_type(value, ("FeatureCollection", "Feature", *GEOMETRIES))
        if errors:
            return errors
        if kind == "FeatureCollection":
            return required(value, "features", lambda v: each(v, self.element))
        return self.feature(value) if kind == "Feature" else self.typed(kind, value)


class Topology:
    """The errors of a text of a topology."""

    def limits(self, transform):
        """Whether a grid number is within limits, element by element."""
        def steps(number):
            return abs(number) <= GREATEST_STEPS

        if self.transform(transform):
            return [steps, steps]
        pairs = [[it.what for it in transform.get(name).what] for name in ("scale", "translate")]
        return [lambda n, s=s, t=t: steps(n) and abs(n * s + t) <= GREATEST_NUMBER for s, t in zip(*pairs)]

    def transform(self, value):
        if value.kind != "object":
            return [((), 3)]

        def within(least, greatest):
            return lambda v: pair(v, *[lambda it: element(it, lambda n: [] if least <= n <= greatest else [((), 6)])] * 2)
        return required(value, "scale", within(1, GREATEST_SCALE)) + required(value, "translate", within(-GREATEST_TRANSLATION, GREATEST_TRANSLATION))

    def step(self, sums, value):
        """The errors of a position as a difference; the sums are moved."""
        def number(axis):
            def asked(n):
                return [] if sums[axis] is None or self.within[axis](sums[axis] + n) else [((), 6)]
            return lambda it: element(it, asked)

        errors = pair(value, number(0), number(1))
        items = value.what if value.kind == "list" and len(value.what) == 2 else [None, None]
        for axis, it in enumerate(items):
            whole = it is not None and it.kind == "int" and it.what < 2 ** 63
            sums[axis] = sums[axis] + it.what if whole and sums[axis] is not None else None
        return errors

    def arc(self, value):
        sums = [0, 0]
        errors = each(value, lambda it: self.step(sums, it))
        return errors or ([((), 8)] if len(value.what) < 2 else [])

    def index(self, value):
        if self.arc_count is None:
            return []
        return element(value, lambda i: [] if -self.arc_count <= i < self.arc_count else [((), 11)])

    def outline(self, value, asked):
        errors = each(value, self.index)
        if errors or self.arcs is None:
            return errors
        positions = []
        for index in value.what:
            arc = self.arcs[index.what] if index.what >= 0 else self.arcs[~index.what][::-1]
            if positions and positions[-1] != arc[0]:
                return [((), 12)]
            positions += arc[1:] if positions else arc
        return asked(positions)

    def typed(self, kind, value):
        part = by_type(kind, lambda v: self.step([0, 0], v), lambda v: self.outline(v, line_error), lambda v: self.outline(v, ring_error)) if kind != "null" else None
        errors = required(value, "coordinates" if kind in ("Point", "MultiPoint") else "arcs", part) if part else []
        return errors + info(value)

    def geometry(self, value):
        if value.kind != "object":
            return [((), 3)]
        kind, errors = read_type(value, GEOMETRIES, may_be_null=True)
        return errors or self.typed(kind, value)

    def layer(self, value):
        if value.kind != "object":
            return [((), 3)]
        kind, errors = read_type(value, ("GeometryCollection", *GEOMETRIES), may_be_null=True)
        if errors:
            return errors
        return required(value, "geometries", lambda v: each(v, self.geometry)) if kind == "GeometryCollection" else self.typed(kind, value)

    def layers(self, value):
        if value.kind != "object":
            return [((), 3)]
        return [it for name in sorted(value.what, key=str.encode) for it in under(name, self.layer(value.get(name)))]

    def know_arcs(self, value, errors):
        """How many arcs there are, where they are a list; their positions, where none has an error."""
        self.arc_count = len(value.what) if value is not None and value.kind == "list" else None
        self.arcs = None
        if self.arc_count is not None and not errors:
            self.arcs = []
            for arc in value.what:
                x = y = 0
                self.arcs.append([(x := x + it.what[0].what, y := y + it.what[1].what) for it in arc.what])

    def root(self, value):
        if value.kind != "object":
            return [((), 3)]
        _, errors = read_type(value, ("Topology",))
        if errors:
            return errors
        if "transform" not in value.what:
            return [(("transform",), 15)]
        transform = value.get("transform")
        self.within = self.limits(transform)
        arcs = required(value, "arcs", lambda v: each(v, self.arc))
        self.know_arcs(value.get("arcs"), arcs)
        return arcs + required(value, "objects", self.layers) + under("transform", self.transform(transform))


# ---- what is told of an error

def place_of(text, value, path):
    """The line and the column of the value at the path, or of the object where its last member is missing."""
    for step in path:
        inner = value.what.get(step) if value.kind == "object" else value.what[step]
        if inner is None:
            break
        value = inner
    return line_and_column(text, value.at)


def line_and_column(text, at):
    before = text[:at]
    return before.count("\n") + 1, at - (before.rfind("\n") + 1) + 1


def not_json(text, at):
    """The one error of a text that is no JSON: of one that is cut off at its last character, unless that ends the line."""
    is_cut = at == len(text) and text[-1:] not in ("", "\n")
    line, column = line_and_column(text, at - is_cut)
    return [{"column": column, "line": line, "name": "NotJson", "number": 1, "path": "$"}]


def feature_path(path, is_topology):
    """The path of the feature that an error lies in, or the whole text's for a feature alone; None where there is none."""
    if is_topology:
        if path[:1] != ("objects",) or len(path) < 2:
            return None
        return path[:4] if len(path) > 3 and path[2] == "geometries" else path[:2]
    return path[:2] if path[:1] == ("features",) and len(path) > 1 else ()


def id_of(value, path, is_topology):
    """The id of the feature that an error lies in, where it has one."""
    at = feature_path(path, is_topology)
    if at is None:
        return None
    for step in at:
        value = value.what.get(step) if value.kind == "object" else value.what[step]
    if value.kind != "object" or not is_feature(value, path, is_topology):
        return None
    id_ = value.get("id")
    return id_.what if id_ is not None and (id_.kind == "text" or id_.kind == "int" and id_.what < 2 ** 63) else None


def is_feature(value, path, is_topology):
    """A collection is none, and no geometry at the root is: their members `id` mean nothing."""
    kind = value.get("type")
    word = kind.what if kind is not None and kind.kind == "text" else None
    if is_topology:
        return word != "GeometryCollection" or len(path) > 3 and path[2] == "geometries"
    return path[:1] == ("features",) or word == "Feature"


def errors_of(bytes_, grid):
    """All errors of a text, as `faults --json` tells them."""
    try:
        text = bytes_.decode()
        value = Reader(text).whole()
    except UnicodeDecodeError as wrong:
        front = bytes_[:wrong.start].decode()
        return not_json(front + "?", len(front))
    except NotJson as wrong:
        return not_json(text, wrong.at)
    judge = Topology() if grid is None else GeoJson(grid)
    found = judge.root(value)
    answers = []
    for path, number in found:
        line, column = place_of(text, value, path)
        one = {"column": column, "line": line, "name": NAMES[number], "number": number, "path": "$" + "".join(f"/{escaped(it)}" for it in path)}
        id_ = id_of(value, path, grid is None)
        if id_ is not None:
            one["id"] = id_
        if number == 13:
            properties = value
            for step in path:
                properties = properties.what.get(step) if properties.kind == "object" else properties.what[step]
            one["member"] = min((it for it, inner in properties.what.items() if has_fraction(inner)), key=str.encode)
        answers.append(one)
    return answers


def escaped(step):
    return step.replace("~", "~0").replace("/", "~1") if isinstance(step, str) else str(step)


def sections():
    """How docs/FAULTS.md begins on each error, by its number, without its links."""
    with open(f"{TOP}/docs/FAULTS.md", encoding="utf-8") as file:
        text = re.sub(r"\[([^]]*)\]\([^)]*\)", r"\1", file.read())
    return {int(number): said for number, said in re.findall(r"^### (\d+) \w+\n\n(.*)$", text, re.MULTILINE)}


SECTIONS = sections()


def is_explained(number, remedy):
    """Whether the text is what docs/FAULTS.md says first of an error, to a point or a colon."""
    return re.match(re.escape(remedy.removesuffix(".")) + "[.:]( |$)", SECTIONS[number]) is not None


# ---- texts that are hurt

LINES = [[[0, 0], [4, 0], [4, 4]], [[0, 0], [1, 0], [1, 1], [0, 1], [0, 0]]]
FEATURES = [
    {"type": "Point", "coordinates": [2, 3]},
    {"type": "MultiPoint", "coordinates": [[0, 0], [5, -5]]},
    {"type": "LineString", "coordinates": LINES[0]},
    {"type": "MultiLineString", "coordinates": LINES},
    {"type": "Polygon", "coordinates": [LINES[1]]},
    {"type": "MultiPolygon", "coordinates": [[LINES[1]], [[[6, 6], [9, 6], [9, 9], [6, 6]]]]},
    None]
GEOJSON = {"type": "FeatureCollection", "features": [
    {"type": "Feature", "id": ["a", 7, None][i % 3], "geometry": it, "properties": [{"n": 1, "m": {"k": [2, "x"]}}, None, {}][i % 3]} for i, it in enumerate(FEATURES)]}
TOPOLOGY = {"type": "Topology", "transform": {"scale": [1, 2], "translate": [0, -3]}, "arcs": [
    [[0, 0], [4, 0], [0, 4]], [[4, 4], [-4, 0], [0, -4]], [[9, 9], [1, 0], [0, 1], [-1, -1]]], "objects": {
        "a": {"type": "GeometryCollection", "geometries": [
            {"type": "Polygon", "id": 1, "arcs": [[0, 1]], "properties": {"n": 1}}, {"type": "MultiPolygon", "id": "two", "arcs": [[[2]], [[0, 1]]]},
            {"type": "LineString", "arcs": [0, 1]}, {"type": "MultiLineString", "arcs": [[~0], [1, 0]], "properties": {"a": [1], "b": {"c": 2}}},
            {"type": "Point", "coordinates": [3, 3], "id": 5}, {"type": "MultiPoint", "coordinates": [[1, 1], [2, 2]]}, {"type": None, "id": "none"}]},
        "b~/": {"type": "LineString", "arcs": [2], "id": "alone"}, "c": {"type": None}}}
JUNK = [None, True, "x", 1.5, -1, 0, 2 ** 63, 2 ** 64, 10 ** 400, -(2 ** 63), 2 ** 40 + 1, [], {}, [1], [0, 0], [[0, 0]], [1, 2, 3], {"type": "Point"}, "Point", "Polygon"]
GRIDS = ["1,1,0,0", "2,1,0,0", "1,3,-1,2", "1000000,1,1000000000000,0"]


def places(value):
    """Each place of a value: what holds it, and its name or index there."""
    for key in value if isinstance(value, dict) else range(len(value)):
        yield value, key
        if isinstance(value[key], (dict, list)):
            yield from places(value[key])


def hurt_once(chance, value):
    holder, key = chance.choice([*places(value)])
    kind = chance.randrange(6)
    if kind == 0:
        del holder[key]
    elif kind == 1 and isinstance(holder[key], (list, str)):
        holder[key] = holder[key][:-1]
    elif kind == 2 and isinstance(holder[key], list):
        holder[key] = holder[key] * 2
    elif kind == 3 and isinstance(holder[key], int):
        holder[key] += chance.choice([-3, -1, 1, 2, 10 ** 6, -(2 ** 41)])
    elif kind == 4:
        other, there = chance.choice([*places(value)])
        holder[key] = copy.deepcopy(other[there])
    else:
        holder[key] = copy.deepcopy(chance.choice(JUNK))


def deep(chance):
    """A value that nests about as deep as properties, or whole texts, may."""
    value = 1
    for _ in range(chance.choice([60, 62, 63, 64, 65, 110, 120, 124, 127])):
        value = [value] if chance.randrange(2) else {"d": value}
    return value


def written(chance, value):
    """The value as JSON of some layout, sometimes with a member twice, or no JSON any more."""
    text = json.dumps(value, indent=chance.choice([None, None, 1, 2]), ensure_ascii=chance.randrange(2) == 0)
    kind = chance.randrange(30)
    if kind == 0:
        text = text.replace("{", '{"type":7,"id":[],"arcs":1,"coordinates":2,', 1)
    elif kind == 1:
        text = text[:chance.randrange(len(text))]
    elif kind == 2:
        at = chance.randrange(len(text))
        text = text[:at] + chance.choice('{}[],:"x0e.-') + text[at:]
    elif kind == 3:
        text = text.replace('"n"', '"\\u00e9\\n\u00fc"')
    return text.encode()


def hurt(chance):
    """A text that is hurt in some places, and the grid that it is read on, None for a topology."""
    grid = chance.choice([None, *GRIDS])
    value = copy.deepcopy(TOPOLOGY if grid is None else GEOJSON)
    if grid is not None and chance.randrange(4) == 0:
        value = chance.choice(value["features"])
        value = value["geometry"] or value if chance.randrange(2) else value
    for _ in range(chance.choice([0, 1, 1, 2, 2, 3, 4, 5])):
        if not value:
            break
        hurt_once(chance, value)
    if chance.randrange(12) == 0 and value:
        holder, key = chance.choice([*places(value)])
        holder[key] = deep(chance)
    return written(chance, value), grid


def judge(task):
    """Runs `faults` over the files of one grid; gives how many errors each has, and what is wrong with the runs."""
    grid, files = task
    grid_words = [] if grid is None else [f"--grid={grid}"]
    ran = topotool("faults", "--json", "--explain", *grid_words, *files)
    found = json.loads(ran.stdout)
    counts, wrong = [], [f"{one} explains otherwise" for one in found if not is_explained(one["number"], one.pop("remedy"))]
    for file in files:
        with open(file, "rb") as text:
            bytes_ = text.read()
        wanted = errors_of(bytes_, None if grid is None else tuple(map(int, grid.split(","))))
        said = [{name: it for name, it in one.items() if name != "file"} for one in found if one["file"] == file]
        counts.append(len(wanted))
        if said != wanted:
            wrong.append(f"{file} on {grid}: said {said}, wanted {wanted}, of {bytes_!r}")
        build = topotool("build", *grid_words, f"a={file}") if grid is not None else topotool("merge", file)
        first = f"topotool: {file}: {wanted[0]['number']} {wanted[0]['name']} {wanted[0]['path']}\n" if wanted else ""
        if build.stderr.decode() != first:
            wrong.append(f"{file} on {grid}: {build.stderr!r} and not {first!r}")
    if ran.returncode != (4 if any(counts) else 0):
        wrong.append(f"{grid}: status {ran.returncode} of {files}")
    return counts, wrong


def main():
    words = words_of(3000)
    chance, wrong, done, many = random.Random(words.seed), 0, 0, 0
    with tempfile.TemporaryDirectory() as folder:
        tasks = {}
        for number in range(words.texts):
            text, grid = hurt(chance)
            name = f"{folder}/{number}.json"
            with open(name, "wb") as file:
                file.write(text)
            tasks.setdefault(grid, []).append(name)
        runs = [(grid, files[i:i + 25]) for grid, files in tasks.items() for i in range(0, len(files), 25)]
        for counts, complaints in judged(judge, runs, words.seconds):
            done, many, wrong = done + len(counts), many + sum(it > 1 for it in counts), wrong + len(complaints)
            for it in complaints:
                print(it)
    print(f"seed {words.seed}: {told(done, words.texts, 'texts', words.seconds)}, {many:,} with more than one error, {wrong} wrong")
    is_enough = done >= min(LEAST_TEXTS, words.texts) and many * 4 >= done
    return 1 if wrong or not is_enough else 0


if __name__ == "__main__":
    sys.exit(main())
