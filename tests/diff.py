#!/usr/bin/env python3
"""Compares what `topotool diff` prints with what a program of its own finds, on pairs of random topologies.

    python3 tests/diff.py [--seed N] [--texts N] [--seconds N]

Each pair is the topology of a random map, and that of the same map with some features changed: left out, doubled, with
another id, other properties, another geometry or points of one, or with rings and lines that run the other way or begin
elsewhere; now and then a layer is left out or new. The second text is given as another tool would write it. What differs
is found here from the features alone, which are stitched by the standard, and told as `topotool diff --help` says: as
lines and as a JSON object, with and without --key and --layer. With a limit of time it stops there. Ends with a line of
counts, and with status 1 where a run did anything else, or almost no pair was tried.
"""

import json
import random
import sys
import tempfile

sys.dont_write_bytecode = True

from many_runs import LEAST_TEXTS, TOP, judged, told, topotool, words_of
from rewritten_texts import decoded, rewritten

sys.path.insert(0, f"{TOP}/bench")

from random_maps import TEXTS, random_map

LINES, RINGS = ("LineString", "MultiLineString"), ("Polygon", "MultiPolygon")


def compact(value):
    return json.dumps(value, ensure_ascii=False, separators=(",", ":"))


# ---- features of a topology


def stitched(arcs, numbers):
    """The positions of a list of arcs: of each but the first all but its first."""
    positions = []
    for number in numbers:
        arc = arcs[number] if number >= 0 else arcs[~number][::-1]
        positions += arc[1:] if positions else arc
    return tuple(positions)


def turned(ring):
    """A closed ring's vertices from its least rotation on."""
    vertices = ring[:-1]
    return min(vertices[place:] + vertices[:place] for place in range(len(vertices)))


def shape_of(arcs, geometry):
    """The kind of a geometry, and its lists of positions in their places; rings from their least rotation on."""
    kind = geometry["type"]
    if kind is None:
        return None, ()
    if kind == "Point":
        return kind, (tuple(geometry["coordinates"]),)
    if kind == "MultiPoint":
        return kind, tuple(map(tuple, geometry["coordinates"]))
    if kind == "LineString":
        return kind, (stitched(arcs, geometry["arcs"]),)
    if kind == "MultiLineString":
        return kind, tuple(stitched(arcs, it) for it in geometry["arcs"])
    if kind == "Polygon":
        return kind, tuple(turned(stitched(arcs, it)) for it in geometry["arcs"])
    return kind, tuple(tuple(turned(stitched(arcs, it)) for it in rings) for rings in geometry["arcs"])


class Feature:
    """A feature, which is its id, its properties and its shape."""

    def __init__(self, arcs, geometry):
        self.id = geometry.get("id")
        self.properties = {name: compact(value) for name, value in geometry.get("properties", {}).items()}
        self.text = compact(geometry.get("properties", {}))
        self.shape = shape_of(arcs, geometry)
        self.all = (compact(self.id), self.text, self.shape)

    def key(self, property_):
        """By what it pairs, as JSON; None where there is nothing."""
        if property_ is None:
            return None if self.id is None else compact(self.id)
        found = self.properties.get(property_)
        return None if found == "null" else found

    def lists(self):
        """The lists of positions of a shape, whatever holds them."""
        kind, lists = self.shape
        return [ring for rings in lists for ring in rings] if kind == "MultiPolygon" else list(lists)

    def vertices(self):
        kind = self.shape[0]
        if kind in ("Point", "MultiPoint"):
            return set(self.lists())
        return {position for list_ in self.lists() for position in list_}


def layers_of(text):
    """The features of each layer, in the order of a canonical text."""
    topology = json.loads(text)
    arcs = [decoded(arc) for arc in topology["arcs"]]
    objects = topology["objects"].items()
    return {name: [Feature(arcs, it) for it in layer["geometries"]] for name, layer in objects}


# ---- what differs


def places_alone(features, property_):
    """The features by their keys, of those whose key stands once."""
    keys = [feature.key(property_) for feature in features]
    return {key: feature for key, feature in zip(keys, features) if key is not None and keys.count(key) == 1}


def difference(olds, news, property_):
    """The features that are removed, those that are added, and the pairs that differ."""
    there, here = {it.all for it in olds}, {it.all for it in news}
    old_alone, new_alone = places_alone(olds, property_), places_alone(news, property_)
    pairs = [(old, new_alone[key]) for key, old in old_alone.items() if key in new_alone and new_alone[key].all != old.all]
    pairs = [(old, new) for old, new in pairs if old.all not in here]
    of_old, of_new = {old.all for old, _ in pairs}, {new.all for _, new in pairs}
    removed = [it for it in olds if it.all not in here and it.all not in of_old]
    added = [it for it in news if it.all not in there and it.all not in of_new]
    return removed, added, pairs


def is_other_way(kind, old, new):
    """Whether a list runs the other way; one of a ring begins at its least rotation."""
    if kind in LINES:
        return old == new[::-1]
    return old == turned(new[::-1] + new[-1:])


def is_direction_only(old, new):
    kind = old.shape[0]
    if kind != new.shape[0] or kind not in LINES + RINGS or len(old.shape[1]) != len(new.shape[1]):
        return False
    if kind == "MultiPolygon" and [len(it) for it in old.shape[1]] != [len(it) for it in new.shape[1]]:
        return False
    return all(a == b or is_other_way(kind, a, b) for a, b in zip(old.lists(), new.lists()))


def geometry_change(old, new):
    """What is told of two shapes: None, words, or how many vertices are gone and new, and the kinds where they differ."""
    if old.shape == new.shape:
        return None
    if is_direction_only(old, new):
        return "line direction only" if old.shape[0] in LINES else "ring direction only"
    gone, come = len(old.vertices() - new.vertices()), len(new.vertices() - old.vertices())
    kinds = tuple(it.shape[0] or "null" for it in (old, new))
    if kinds[0] == kinds[1]:
        return (gone, come, None) if gone or come else "vertex order only"
    return gone, come, kinds


def member_changes(old, new):
    """The properties that differ, by their names, with their values; None is a value that is missing."""
    names = sorted({*old.properties, *new.properties}, key=str.encode)
    changed = [(name, old.properties.get(name), new.properties.get(name)) for name in names]
    return [it for it in changed if it[1] != it[2]]


# ---- how it is told


def change_line(old, new):
    parts = [] if old.id == new.id else [f"id: {compact(old.id)} -> {compact(new.id)}"]
    for name, before, after in member_changes(old, new):
        parts.append(f"{compact(name)}: {before or 'missing'} -> {after or 'missing'}")
    change = geometry_change(old, new)
    if isinstance(change, tuple):
        gone, come, kinds = change
        told_kinds = f"{kinds[0]} -> {kinds[1]}, " if kinds else ""
        change = f"{told_kinds}{gone} {'vertex' if gone == 1 else 'vertices'} gone, {come} new"
    return "; ".join(parts + ([f"geometry: {change}"] if change else []))


def counted(count, what):
    return f", {count} {'layer' if count == 1 else 'layers'} {what}" if count else ""


def lines_of(found, property_):
    told_lines, counts, gone, come = [], [0, 0, 0], 0, 0
    for name, is_old, is_new, (removed, added, pairs) in found:
        name = compact(name)
        if not (is_old and is_new):
            told_lines.append(f"{'-' if is_old else '+'} layer {name}")
        gone, come = gone + (not is_new), come + (not is_old)
        told_lines += [f"- {name} {it.key(property_) or 'null'} {it.text}" for it in removed]
        told_lines += [f"+ {name} {it.key(property_) or 'null'} {it.text}" for it in added]
        told_lines += [f"~ {name} {old.key(property_)} {change_line(old, new)}" for old, new in pairs]
        counts = [a + len(b) for a, b in zip(counts, (added, removed, pairs))]
    last = f"{counts[0]} added, {counts[1]} removed, {counts[2]} changed{counted(come, 'added')}{counted(gone, 'removed')}"
    return "".join(f"{it}\n" for it in [*told_lines, last])


def single_object(change, feature, name, property_):
    key = {} if property_ is None else {"key": json.loads(feature.key(property_) or "null")}
    return {"change": change, "id": feature.id, **key, "layer": name, "properties": json.loads(feature.text)}


def geometry_object(change):
    if not isinstance(change, tuple):
        return change
    gone, come, kinds = change
    told_kinds = {"kind": {"new": kinds[1], "old": kinds[0]}} if kinds else {}
    return {"gone": gone, **told_kinds, "new": come}


def change_object(old, new, name, property_):
    change = geometry_change(old, new)
    geometry = {"geometry": geometry_object(change)} if change else {}
    key = {} if property_ is None else {"key": json.loads(old.key(property_))}
    values = {}
    for member, before, after in member_changes(old, new):
        both = {"new": after, "old": before}
        values[member] = {which: json.loads(value) for which, value in both.items() if value is not None}
    ids = old.id if old.id == new.id else {"new": new.id, "old": old.id}
    return {"change": "changed", **geometry, "id": ids, **key, "layer": name, "properties": values}


def object_of(found, property_):
    objects = []
    for name, _, _, (removed, added, pairs) in found:
        objects += [single_object("removed", it, name, property_) for it in removed]
        objects += [single_object("added", it, name, property_) for it in added]
        objects += [change_object(old, new, name, property_) for old, new in pairs]
    counts = {it: sum(feature["change"] == it for feature in objects) for it in ("added", "changed", "removed")}
    layers = {"added": [it[0] for it in found if not it[1]], "removed": [it[0] for it in found if not it[2]]}
    return compact({"added": counts["added"], "changed": counts["changed"], "differences": objects, "layers": layers, "removed": counts["removed"]})


# ---- random pairs


def positions_in(coordinates):
    if coordinates and not isinstance(coordinates[0], list):
        return [coordinates]
    return [position for each in coordinates for position in positions_in(each)]


class Changer:
    """Changes the features of GeoJSON."""

    def __init__(self, chance, features):
        self.chance = chance
        self.features = features

    def backwards(self, geometry):
        """The lists of a geometry, each maybe the other way."""
        kind, content = geometry["type"], geometry["coordinates"]
        depth = {"LineString": 0, "MultiLineString": 1, "Polygon": 1, "MultiPolygon": 2}.get(kind)

        def turn(lists, depth):
            if depth:
                return [turn(it, depth - 1) for it in lists]
            return lists[::-1] if self.chance.random() < 0.6 else lists

        return geometry if depth is None else {**geometry, "coordinates": turn(content, depth)}

    def others(self):
        return [it["geometry"] for it in self.features if it.get("geometry")]

    def points(self):
        """Some positions of some geometry as points, if it has any."""
        geometry = self.chance.choice([{"coordinates": []}, *self.others()])
        positions = positions_in(geometry["coordinates"])
        some = self.chance.sample(positions, self.chance.randint(0, len(positions)))
        return {"type": "MultiPoint", "coordinates": some}

    def changed(self, feature):
        chance, geometry = self.chance, feature.get("geometry")
        kind = chance.randrange(10)
        if kind == 0:
            return []
        if kind == 1:
            return [feature, {**feature, "properties": {"name": chance.choice(TEXTS)}}]
        if kind == 2:
            return [{**feature, "id": chance.choice([None, 1, 2, 12, "x", "9"])}]
        if kind in (3, 4):
            properties = dict(feature.get("properties") or {})
            properties[chance.choice(TEXTS)] = chance.choice([None, 1, 2, "x", "y\n", [True], {"a": 1}])
            if chance.random() < 0.4:
                del properties[chance.choice(list(properties))]
            return [{**feature, "properties": properties}]
        if kind in (5, 6) and geometry:
            return [{**feature, "geometry": self.backwards(geometry)}]
        if kind in (7, 8) and geometry and geometry["type"] in ("MultiPoint", "MultiLineString", "Polygon", "MultiPolygon"):
            return [{**feature, "geometry": {**geometry, "coordinates": geometry["coordinates"][::-1]}}]
        if chance.random() < 0.3:
            return [{**feature, "geometry": self.points()}]
        return [{**feature, "geometry": chance.choice([None, *self.others()])}]

    def all_changed(self):
        often = self.chance.choice([0, 0.1, 0.5, 0.9])
        changed = [self.changed(it) if self.chance.random() < often else [it] for it in self.features]
        return [it for each in changed for it in each]


def features_of(text):
    root = json.loads(text)
    if root["type"] == "FeatureCollection":
        return root["features"]
    return [root if root["type"] == "Feature" else {"type": "Feature", "geometry": root}]


def with_ids(chance, features):
    """Features, each once as it is, and some times with an id and a property by which it may pair."""
    pairing = []
    for feature in features:
        for _ in range(chance.randint(1, 3)):
            number = len(pairing) + 20
            name = chance.choice([number, number, str(number), 7, None])
            properties = {**(feature.get("properties") or {}), "name": name}
            pairing.append({**feature, "id": chance.choice([number, str(number)]), "properties": properties})
    return features + pairing


def built(folder, grid, layers):
    words = ["build", "--grid", grid]
    for number, (name, features) in enumerate(layers):
        path = f"{folder}/{number}.json"
        with open(path, "w", encoding="utf-8") as file:
            json.dump({"type": "FeatureCollection", "features": features}, file)
        words.append(f"{name}={path}")
    return topotool(*words).stdout


def pair(chance, folder, seed):
    """The canonical texts of two maps."""
    grid, files = random_map(seed)
    olds = [(name, with_ids(chance, features_of(text))) for name, text in files]
    news = [(name, Changer(chance, features).all_changed()) for name, features in olds]
    if chance.random() < 0.2:
        news.append((chance.choice(["new", "b", '"']), chance.choice([[], olds[0][1][:2]])))
    if chance.random() < 0.2:
        news = news[1:] or news
    return built(folder, grid, olds), built(folder, grid, news)


def complaints(chance, folder, texts):
    """What the program does otherwise."""
    olds, news = map(layers_of, texts)
    names = sorted({*olds, *news}, key=str.encode)
    layer = chance.choice(names)
    for property_, asked in ((None, names), (None, [layer]), ("name", names), (chance.choice(TEXTS), [layer])):
        found = [(it, it in olds, it in news, difference(olds.get(it, []), news.get(it, []), property_)) for it in asked]
        words = [] if asked is names else [f"--layer={layer}"]
        words += [] if property_ is None else [f"--key={property_}"]
        status = int(any(not (is_old and is_new) or any(it) for _, is_old, is_new, it in found))
        for more, expected in ((["--json"], object_of(found, property_)), ([], lines_of(found, property_))):
            run = topotool("diff", *words, *more, f"{folder}/old", f"{folder}/new")
            if (run.returncode, run.stdout, run.stderr) != (status, expected.encode(), b""):
                yield f"{words + more}: status {run.returncode}, {run.stdout[:300]} {run.stderr}; expected {status}, {expected[:300]}"


def judge(seed):
    """What is wrong with the differences of one pair."""
    chance = random.Random(seed)
    with tempfile.TemporaryDirectory() as folder:
        texts = pair(chance, folder, seed)
        if not all(texts):
            return [f"pair {seed}: not built"]
        for name, text in zip(("old", "new"), (texts[0], rewritten(chance, texts[1])[0])):
            with open(f"{folder}/{name}", "wb") as file:
                file.write(text)
        return [f"pair {seed}: {it}" for it in complaints(chance, folder, texts)]


def main():
    words = words_of(3000)
    wrong = done = 0
    for found in judged(judge, range(words.seed, words.seed + words.texts), words.seconds):
        done, wrong = done + 1, wrong + len(found)
        for it in found:
            print(it)
    print(f"seed {words.seed}: {told(done, words.texts, 'pairs', words.seconds)}, {wrong} wrong")
    return 1 if wrong or done < min(LEAST_TEXTS, words.texts) else 0


if __name__ == "__main__":
    sys.exit(main())
