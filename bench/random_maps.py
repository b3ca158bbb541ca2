"""Makes small random maps as GeoJSON: points, lines, rings, and borders that they share.

A map is a grid and some files, each for a layer. Its lines and rings use no segment twice, but they
visit vertices again, cross each other, run along each other, and some are loops that meet nothing
else. Features stand there more than once, with rings begun elsewhere; ids and properties are of all
kinds that are accepted. The same seed gives the same map.
"""

import json
import random

GREATEST = 1 << 40  # of an element of a position
GREATEST_ABSOLUTE = (1 << 53) - 1
SIDE = 40  # all positions of a map are in a square of this side
CORNERS = 4  # steps of the grid from one corner of a cell to the next

NAMES = ["a", "b", "", "ä", 'q"\\', "a b", "A", "aa"]
TEXTS = ["", "x", "10", "9", "ä", "\u0001", '"', "\\", "/", "\U0001f30d", "\uffff", "\x7f", "name"]
NUMBERS = [0, 1, -3, 12, 10**6, (1 << 63) - 1, -(1 << 63)]


class Axis:
    """A scale, a translation, and where the map's square begins on the grid."""

    def __init__(self, rng):
        self.scale = rng.choice([1, 1, 2, 10, 997])
        self.translation = rng.choice([0, 0, 7, -500, 10**12, -(10**12)])
        greatest = min(GREATEST, (GREATEST_ABSOLUTE - abs(self.translation)) // self.scale)
        self.begin = rng.choice([0, 0, -SIDE // 2, -greatest, greatest - SIDE])

    def absolute(self, number):
        return (self.begin + number) * self.scale + self.translation


class Maker:
    """Makes the features of one map; it knows all lists of positions that it has made."""

    def __init__(self, rng):
        self.rng = rng
        self.x, self.y = Axis(rng), Axis(rng)
        self.pool = [self.anywhere() for _ in range(rng.randint(4, 9))]
        self.lines, self.rings = [], []

    def anywhere(self):
        return self.rng.randint(0, SIDE), self.rng.randint(0, SIDE)

    def grid(self):
        numbers = [self.x.scale, self.y.scale, self.x.translation, self.y.translation]
        return ",".join(map(str, numbers))

    def trail(self, steps, begin=None):
        """A way over the pool that uses no segment twice."""
        way = [begin or self.rng.choice(self.pool)]
        used = set()
        for _ in range(steps):
            free = [p for p in self.pool if p != way[-1] and frozenset((p, way[-1])) not in used]
            if not free:
                break
            way.append(self.rng.choice(free))
            used.add(frozenset(way[-2:]))
        return way

    def closed_trail(self):
        """Such a way that comes back to its first position; None where none was found."""
        way = self.trail(self.rng.randint(3, 9))
        ends = [place for place in range(3, len(way)) if way[place] == way[0]]
        if ends:
            return way[: self.rng.choice(ends) + 1]
        closing = frozenset((way[0], way[-1]))
        used = {frozenset(pair) for pair in zip(way, way[1:])}
        return [*way, way[0]] if len(way) > 2 and closing not in used else None

    def alone(self):
        """A closed list around positions of its own."""
        corner = self.rng.randint(0, SIDE - 3), self.rng.randint(0, SIDE - 3)
        ways = [(0, 0), (3, 0), (3, 1), (3, 3), (1, 3), (0, 3)][: self.rng.randint(3, 6)]
        ring = [(corner[0] + x, corner[1] + y) for x, y in ways]
        return [*ring, ring[0]]

    def knot(self):
        """A closed list that comes to its least position twice or three times."""
        least, *others = sorted({self.anywhere() for _ in range(9)})
        self.rng.shuffle(others)
        loops = zip(others[::2], others[1::2])
        way = [p for loop in list(loops)[: self.rng.randint(2, 3)] for p in (least, *loop)]
        return [*way, least]

    def turned(self, closed):
        """The same ring, begun elsewhere."""
        start = self.rng.randrange(len(closed) - 1)
        return closed[start:-1] + closed[: start + 1]

    def seen(self):
        """A list that the map already has, as a line."""
        return list(self.rng.choice(self.lines + self.rings))

    def line(self):
        kind = self.rng.random()
        if kind < 0.25 and self.lines + self.rings:
            # a stretch of an earlier one, in either direction, so that they run along each other
            way = self.seen()
            start = self.rng.randrange(len(way) - 1)
            end = self.rng.randrange(start + 2, len(way) + 1)
            stretch = way[start:end]
            if len(stretch) == 3 and stretch[0] == stretch[2]:
                stretch = stretch[:2]
            way = stretch[:: self.rng.choice([1, -1])]
        elif kind < 0.4:
            way = self.closed_trail() or self.alone()
        else:
            way = self.trail(self.rng.randint(1, 7))
        if len(way) == 3 and way[0] == way[2]:
            way = way[:2]
        self.lines.append(way)
        return way

    def ring(self):
        kind = self.rng.random()
        if kind < 0.35 and self.rings:
            ring = self.turned(self.rng.choice(self.rings))[:: self.rng.choice([1, -1])]
        elif kind < 0.55:
            ring = self.alone()[:: self.rng.choice([1, -1])]
        elif kind < 0.65:
            ring = self.knot()
        else:
            ring = self.closed_trail() or self.alone()
        self.rings.append(ring)
        return ring

    def some(self, make, most=3):
        return [make() for _ in range(self.rng.randint(0, most))]

    def shape(self):
        """A type and lists of positions on the square's own numbers."""
        rng = self.rng
        kind = rng.randrange(7)
        if kind == 0:
            return None
        if kind == 1:
            return "Point", rng.choice([self.anywhere(), rng.choice(self.pool)])
        if kind == 2:
            points = self.some(self.anywhere)
            return "MultiPoint", points + points[: rng.randint(0, 1)]
        if kind == 3:
            return "LineString", self.line()
        if kind == 4:
            return "MultiLineString", self.some(self.line)
        if kind == 5:
            return "Polygon", self.some(self.ring, 2)
        return "MultiPolygon", self.some(lambda: self.some(self.ring, 2))

    def districts(self):
        """Shapes that part a square of cells: each cell belongs to one of some districts."""
        rng = self.rng
        width, height = rng.randint(1, 4), rng.randint(1, 4)
        labels = [[rng.randrange(3) for _ in range(height)] for _ in range(width)]
        borders = Borders(rng)
        shapes = []
        for label in range(3):
            cells = [(x, y) for x in range(width) for y in range(height) if labels[x][y] == label]
            rings = borders.rings(cells)
            self.rings += rings
            if rings and rng.random() < 0.5:
                shapes.append(("Polygon", rings))
            elif rings:
                shapes.append(("MultiPolygon", [[ring] for ring in rings]))
        return shapes

    def position(self, position):
        return [self.x.absolute(position[0]), self.y.absolute(position[1])]

    def line_text(self, way):
        """A line's positions; now and then one stands twice."""
        return [self.position(p) for p in way for _ in range(self.rng.choice([1] * 9 + [2]))]

    def ring_text(self, ring):
        return self.line_text(self.turned(ring))

    def coordinates(self, kind, content):
        if kind == "Point":
            return self.position(content)
        if kind == "MultiPoint":
            return [self.position(p) for p in content]
        if kind == "LineString":
            return self.line_text(content)
        if kind == "MultiLineString":
            return [self.line_text(way) for way in content]
        if kind == "Polygon":
            return [self.ring_text(ring) for ring in content]
        return [[self.ring_text(ring) for ring in polygon] for polygon in content]

    def geometry(self, shape):
        return {"type": shape[0], "coordinates": self.coordinates(*shape)}

    def value(self, depth):
        """A JSON value for properties."""
        rng = self.rng
        kind = rng.randrange(8 if depth > 0 else 6)
        if kind < 3:
            return [None, True, False][kind]
        if kind == 3:
            return rng.choice([*NUMBERS, (1 << 64) - 1])
        if kind < 6:
            return rng.choice(TEXTS)
        if kind == 6:
            return [self.value(depth - 1) for _ in range(rng.randint(0, 3))]
        return self.properties(depth - 1)

    def properties(self, depth):
        names = self.rng.sample(TEXTS, self.rng.randint(0, 3))
        return {name: self.value(depth) for name in names}

    def contents(self, shape):
        """What tells a feature apart: its shape, and the members `id` and `properties`."""
        rng = self.rng
        members = {}
        if rng.random() < 0.5:
            members["id"] = rng.choice([None, rng.choice(NUMBERS), rng.choice(TEXTS)])
        if rng.random() < 0.6:
            members["properties"] = rng.choice([None, {}, self.properties(3)])
        return shape, members

    def feature(self, contents):
        shape, members = contents
        feature = {"type": "Feature", **members}
        if shape is not None:
            feature["geometry"] = self.geometry(shape)
        elif self.rng.random() < 0.5:
            feature["geometry"] = None
        if self.rng.random() < 0.1:
            feature[self.rng.choice(["bbox", "crs", "arcs"])] = self.value(2)
        return self.shuffled(feature)

    def shuffled(self, members):
        return dict(self.rng.sample(list(members.items()), len(members)))

    def root(self, features):
        """A text's root: a collection, or where there is one feature maybe that, or its shape."""
        rng = self.rng
        if len(features) == 1 and rng.random() < 0.6:
            shape = features[0][0]
            if shape is not None and rng.random() < 0.5:
                return self.shuffled(self.geometry(shape))
            return self.feature(features[0])
        members = [self.feature(each) for each in features]
        return self.shuffled({"type": "FeatureCollection", "features": members})


class Borders:
    """The sides of cells: each has the same positions in both cells that it parts."""

    def __init__(self, rng):
        self.rng = rng
        self.sides = {}

    def side(self, start, end):
        """The positions from a corner up to the next one, which is left out."""
        if (end, start) in self.sides:
            return [self.corner(start), *self.sides[end, start][::-1]]
        if (start, end) not in self.sides:
            mid = tuple((a + b) * CORNERS // 2 for a, b in zip(start, end))
            away = self.rng.choice([None, 0, 1])
            flat = start[1] == end[1]
            moved = None if away is None else (mid[0] + (not flat) * away, mid[1] + flat * away)
            self.sides[start, end] = [] if moved is None else [moved]
        return [self.corner(start), *self.sides[start, end]]

    def corner(self, corner):
        return tuple(number * CORNERS for number in corner)

    def rings(self, cells):
        """The borders of some cells, walked with the cells on the left."""
        following = {}
        for x, y in cells:
            corners = [(x, y), (x + 1, y), (x + 1, y + 1), (x, y + 1)]
            beside = [(x, y - 1), (x + 1, y), (x, y + 1), (x - 1, y)]
            for place in range(4):
                if beside[place] not in cells:
                    following.setdefault(corners[place], []).append(corners[(place + 1) % 4])
        rings = []
        while following:
            rings.append(self.walk(following))
        return rings

    def walk(self, following):
        """Takes one ring out of the sides that are left. At a corner that is met twice it may end."""
        start = self.rng.choice(sorted(following))
        ring, at = [], start
        while True:
            ends = following[at]
            end = ends.pop(self.rng.randrange(len(ends)))
            if not ends:
                del following[at]
            ring += self.side(at, end)
            at = end
            if at == start and (at not in following or self.rng.random() < 0.5):
                return [*ring, ring[0]]


def random_map(seed):
    """A map: its grid as a word of the command, and a list of layer names with texts."""
    rng = random.Random(seed)
    maker = Maker(rng)
    shapes = [maker.shape() for _ in range(rng.randint(0, 6))]
    if rng.random() < 0.5:
        shapes += maker.districts()
    features = [maker.contents(shape) for shape in shapes]
    features += rng.sample(features, min(len(features), rng.randint(0, 2)))
    rng.shuffle(features)
    count = rng.randint(1, 3)
    names = rng.sample(NAMES, 2)
    files = []
    for number in range(count):
        root = maker.root(features[number::count])
        text = json.dumps(root, ensure_ascii=rng.random() < 0.5, indent=rng.choice([None, None, 1]))
        files.append((rng.choice(names), text))
    return maker.grid(), files
