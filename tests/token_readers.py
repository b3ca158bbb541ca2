#!/usr/bin/env python3
"""Compares the two ways in which a text is read: along its tokens, and by its JSON value.

    python3 tests/token_readers.py [--seed N] [--texts N] [--seconds N]

No contract can say that a text is read along its tokens, which is the quick way, so this does: each text that topotool
accepts in tests/rows and in examples/ has to be read so, by `without_memory tokens`, but for those of LEFT below. And so has
each of FORMS, the members of which stand in every order; those that the type of a GeoJSON root doesn't read stand behind it.

Then random texts, GeoJSON and topologies in the forms of other tools, whole and hurt: what topotool prints of each has to be
what `without_memory values` prints, which reads the same text by its value alone: the same status, output and error line. With
a limit of time it stops there. Ends with a line of counts, and with status 1 where something differed, or almost no text was
tried.
"""

import itertools
import json
import os
import random
import subprocess
import sys
import tempfile

sys.dont_write_bytecode = True

import hurt_texts
import rewritten_texts
import rows
from many_runs import LEAST_TEXTS, TOP, judged, told, topotool, words_of

sys.path.insert(0, f"{TOP}/bench")

from random_maps import random_map

READERS = os.environ.get("WITHOUT_MEMORY", f"{TOP}/crates/without_memory/out/without_memory")
SURE_TEXTS = 200  # of so many some are accepted

# Accepted texts that are left to the value, by the titles of their rows: a member whose first value is faulty and whose
# last one counts is seen too late.
LEFT = {
    "a repeated member: the last one stays",
    "members twice",
}

POINT = {"type": "Point", "coordinates": [1, 2]}
TRANSFORM = {"scale": [1, 1], "translate": [0, 0]}
DEEP = json.loads("[" * 62 + "]" * 62)
IDS = [0, -1, 2**63 - 1, -(2**63), 10**18, "", 'a"\\\u00e4\U0001f30d\u0001', None]
PROPERTIES = [None, {}, {"n": 2**64 - 1}, {"n": -(2**63)}, {"a\\\n": [None, True, False, {"b": {}}, [[]]]}, {"p": DEEP}]
OTHERS = [0.5, 1e300, -0.0, [1.5, {"a": [{}]}], {"type": "Point", "coordinates": [0.5]}, "\u2028", None]
COORDINATES = {
    "Point": [1, 2], "MultiPoint": [[1, 2], [3, 4]], "LineString": [[0, 0], [1, 0], [1, 1]],
    "MultiLineString": [[[0, 0], [1, 0]], [[5, 5], [6, 6]]], "Polygon": [[[0, 0], [1, 0], [1, 1], [0, 0]]],
    "MultiPolygon": [[[[0, 0], [1, 0], [1, 1], [0, 0]]], [[[5, 5], [6, 5], [6, 6], [5, 5]]]],
}
ARCS = [[[0, 0], [1, 0], [0, 1]], [[1, 1], [-1, 0], [0, -1]], [[5, 5], [1, 1]]]
LISTS = {
    "LineString": [0], "MultiLineString": [[0], [-1], [0, 1]], "Polygon": [[0, 1]], "MultiPolygon": [[[0, 1]], [[-2, -1]]],
}
FAR = 2**40  # the greatest element of a position
ABSOLUTE = 2**53 - 1  # the greatest absolute number
EMPTY = ["MultiPoint", "MultiLineString", "Polygon", "MultiPolygon"]
NO_RINGS = [[[]], [[], []], [[], [[0, 1]]], [[], [[0, 1]], []], [[[0, 1]], []]]  # lists of MultiPolygons with empty polygons


def orders(value, most=24):
    """An object's members in each order, or in so many at random."""
    members = list(value.items())
    found = itertools.permutations(members)
    return [dict(it) for it in itertools.islice(found, most)] + [dict(reversed(members))]


def collection(*features):
    return {"type": "FeatureCollection", "features": list(features)}


def feature(**members):
    return {"type": "Feature", "geometry": POINT, "properties": {}, **members}


def behind_type(root, names, value):
    """A root with its type first, and behind it its members and foreign ones, which all have this value, in some orders."""
    rest = {name: it for name, it in root.items() if name != "type"}
    return [{"type": root["type"], **it} for it in orders({**dict.fromkeys(names, value), **rest}, 6)]


def geojson_forms():
    """GeoJSON values that are accepted on the grid of all whole numbers."""
    geometries = [{"type": kind, "coordinates": it} for kind, it in COORDINATES.items()]
    geometries += [{"type": kind, "coordinates": []} for kind in EMPTY]
    yield from geometries
    yield from ({"type": "LineString", "coordinates": [[-FAR, it], [FAR, FAR]]} for it in (-FAR, FAR))
    yield from ({"type": "Feature", "geometry": it} for it in [*geometries, None])
    yield from (collection(*[feature(geometry=it) for it in geometries]), collection())
    yield from (feature(id=it) for it in IDS)
    yield from (feature(properties=it) for it in PROPERTIES)
    yield from (collection(feature(other=it, bbox=it), {"type": "Feature"}) | {"bbox": it, "crs": it} for it in OTHERS)
    yield from orders(feature(id=1, bbox=[0.5, 1]))
    yield from orders(collection(feature()) | {"name": "x", "bbox": [0.5]})
    yield from (collection(feature(geometry=it)) for kind in geometries[:6] for it in orders({**kind, "bbox": [1e5]}))
    yield from foreign_forms()


def foreign_forms():
    """GeoJSON values with members at the root that other roots read."""
    for it in OTHERS:
        yield from behind_type(collection(feature()), ("id", "properties", "geometry", "coordinates"), it)
        yield from behind_type(feature(id=1), ("features", "coordinates"), it)
        yield from behind_type(POINT, ("id", "properties", "geometry", "features"), it)


def topology(objects, arcs=ARCS, **members):
    return {"type": "Topology", "transform": TRANSFORM, "objects": objects, "arcs": arcs, **members}


def layer(*geometries):
    return {"type": "GeometryCollection", "geometries": list(geometries)}


def at_limits(scale, translate):
    """A topology whose positions have the least and the greatest numbers that fit a grid."""
    least, most = max(-FAR, -((ABSOLUTE + translate) // scale)), min(FAR, (ABSOLUTE - translate) // scale)
    arcs = [[[least, most], [most - least, least - most]]]
    objects = {"a": {"type": "MultiPoint", "coordinates": [[most, least], [least, most]]}, "b": {"type": "LineString", "arcs": [0]}}
    return topology(objects, arcs, transform={"scale": [scale, scale], "translate": [translate, translate]})


def foreign(geometries):
    """Lines with coordinates of points, and points with lists of arcs, in each order; and with any other value behind the type."""
    for it in geometries:
        name, values = ("coordinates", COORDINATES) if "arcs" in it else ("arcs", LISTS)
        likes = [values[kind] for kind in ("Point", "MultiPoint") if kind in values] or [*values.values()]
        yield from (form for like in [*likes, []] for form in orders({**it, name: like}))
        yield from ({**it, name: other} for other in OTHERS)


def topology_forms():
    """Values of topologies that are accepted."""
    geometries = [{"type": kind, "arcs": it} for kind, it in LISTS.items()]
    geometries += [{"type": kind, "coordinates": COORDINATES[kind]} for kind in ("Point", "MultiPoint")]
    geometries += [{"type": kind, "arcs" if kind in LISTS else "coordinates": []} for kind in EMPTY] + [{"type": None}]
    yield from (topology({"a": it}) for it in geometries)
    yield from (topology({"a": layer(it)}) for it in geometries)
    yield topology({"a": {"type": "LineString", "arcs": [0]}}, [[[-FAR, FAR], [2 * FAR, -2 * FAR], [-FAR, FAR]]])
    yield from (at_limits(*it) for it in ((1, 0), (10**6, 10**12), (10**6, -(10**12)), (9000, -1), (8192, 0), (8191, 4095)))
    yield from (topology({"a": it}) for arcs in NO_RINGS for it in orders({"type": "MultiPolygon", "arcs": arcs}))
    yield from (topology({"a": it}) for it in foreign(geometries[:6]))
    yield from (topology({"a": layer(it)}) for it in foreign(geometries[:6]))
    yield topology({"a": layer({"type": "MultiPoint", "coordinates": [[FAR, -FAR], [-FAR, FAR]]})}, [])
    yield from (topology({}), topology({}, []), topology({"a": layer()}), topology({"b": layer(), "a": layer(), "": layer()}))
    yield from (topology({"a": layer({**POINT, "id": it})}) for it in IDS)
    yield from (topology({"a": layer({**POINT, "properties": it})}) for it in PROPERTIES)
    yield from (topology({"a": {**layer({**POINT, "x": it}), "y": it}}, bbox=it, z=it) for it in OTHERS)
    yield from (topology({'q"\\\u00e4\u0001': layer(*geometries)}),)
    yield from orders(topology({"a": layer(*geometries)}, bbox=[0.5, 0, 1, 1]), 120)
    yield from (topology({"a": layer(it)}) for kind in geometries[:6] for it in orders({**kind, "id": "x", "properties": {"b": 1}}))
    yield from (topology({"a": it}) for it in orders({**layer(POINT), "name": "x"}))


def spellings(value):
    """Texts of a value: with no blanks, with many, and with each letter beyond ASCII as it is."""
    yield json.dumps(value, separators=(",", ":"))
    yield "\r\n\t " + json.dumps(value, indent=2).replace("\n", "\r\n") + "\n"
    yield json.dumps(value, ensure_ascii=False)


def readers(*words):
    return subprocess.run([READERS, *words], capture_output=True)


def accepted_rows():
    """The texts that topotool accepts in tests/rows, each with its grid, or `topology`."""
    inputs = rows.read(rows.INPUTS)
    themes = sorted(it.removesuffix(".toml") for it in os.listdir(rows.FOLDER) if it.endswith(".toml"))
    found = [row for theme in themes if theme != rows.INPUTS for row in rows.rows_of(theme, inputs)]
    for row in (run for it in found for run in rows.runs_of(it)):
        is_accepted = row.get("status", 0) in (0, 1) and "answers" not in row and "complains" not in row
        if is_accepted:
            yield from texts_of(row)


def texts_of(row):
    """The texts that a row reads, as far as its words name them."""
    words, files = row["words"], row["files"]
    if "build" in words and "--grid" in words:
        grid = words[words.index("--grid") + 1]
        names = [word.partition("=")[2] for word in words if "=" in word and not word.startswith("--")]
    else:
        grid, names = "topology", [word for word in words if word in files]
    yield from ((grid, files[name], row["title"]) for name in names if name in files)
    with tempfile.TemporaryDirectory() as folder:
        for name, text in files.items():
            rows.lay(folder, name, text)
        for name, made in row.get("made", {}).items():
            ran = rows.called(folder, made)
            rows.lay(folder, name, ran.stdout)
            if ran.returncode == 0 and made[0] in ("build", "merge", "remove"):
                yield "topology", ran.stdout, row["title"]


def accepted_examples():
    """The GeoJSON of examples/, and what is built of it."""
    for name, grid in (("squares", "1,1,0,0"), ("west", "10,10,0,0"), ("east", "10,10,0,0"), ("map/harbour", "1,1,0,0")):
        path = f"{TOP}/examples/{name}.json"
        built = topotool("build", "--grid", grid, f"a={path}")
        if built.returncode == 0:
            with open(path, "rb") as file:
                yield grid, file.read(), path
            yield "topology", built.stdout, path


def accepted_forms():
    for value in geojson_forms():
        yield from (("1,1,0,0", text.encode(), "a form") for text in spellings(value))
    for value in topology_forms():
        yield from (("topology", text.encode(), "a form") for text in spellings(value))


def is_accepted(grid, path):
    words = ["merge", path] if grid == "topology" else ["build", "--grid", grid, f"a={path}"]
    return topotool(*words).returncode == 0


def unread(texts):
    """Of accepted texts those that are not read along their tokens; and how many there are."""
    seen, wrong = set(), []
    with tempfile.TemporaryDirectory() as folder:
        path = f"{folder}/text"
        for grid, text, title in texts:
            if (grid, text) in seen:
                continue
            rows.lay(folder, "text", text)
            is_read = readers("tokens", grid, path).stdout == b"read\n"
            if not is_read and title not in LEFT and is_accepted(grid, path):
                wrong.append(f"not read along its tokens: {grid}, {title}: {text[:2000]!r}")
            seen.add((grid, text))
    return len(seen), wrong


def random_text(folder, seed):
    """A random text with its grid, or `topology`: GeoJSON or a topology in some form, hurt or not."""
    chance = random.Random(seed)
    grid, files = random_map(seed)
    if chance.random() < 0.4:
        text = chance.choice(files)[1].encode()
    else:
        text, _ = rewritten_texts.rewritten(chance, rewritten_texts.built(folder, seed))
        grid = "topology"
    if chance.random() < 0.6:
        text = hurt_texts.hurt(chance, [text])
    return grid, text


def judge(seed):
    """Whether a random text is accepted, and what is wrong where the two ways differ."""
    with tempfile.TemporaryDirectory() as folder:
        grid, text = random_text(folder, seed)
        path = f"{folder}/text"
        rows.lay(folder, "text", text)
        words = ["merge", path] if grid == "topology" else ["build", "--grid", grid, f"a={path}"]
        told_by, value = topotool(*words), readers("values", grid, path)
    same = (told_by.returncode, told_by.stdout, told_by.stderr) == (value.returncode, value.stdout, value.stderr)
    return told_by.returncode == 0, [] if same else [f"text {seed} ({grid}): {told_by} {value} {text!r}"]


def main():
    words = words_of(20000)
    if not os.path.isfile(READERS):
        sys.exit(f"{READERS} is not there: rt run in crates/without_memory builds it")
    count, wrong = unread(itertools.chain(accepted_rows(), accepted_examples(), accepted_forms()))
    done = accepted = 0
    for is_whole, found in judged(judge, range(words.seed, words.seed + words.texts), words.seconds):
        done, accepted, wrong = done + 1, accepted + is_whole, wrong + found
    print("".join(f"{it}\n" for it in wrong), end="")
    print(
        f"seed {words.seed}: {count:,} accepted texts read along their tokens; {told(done, words.texts, 'texts', words.seconds)} "
        f"read both ways, {accepted:,} accepted, {len(wrong)} wrong"
    )
    is_enough = count and done >= min(LEAST_TEXTS, words.texts) and (accepted or done < SURE_TEXTS)
    return 1 if wrong or not is_enough else 0


if __name__ == "__main__":
    sys.exit(main())
