"""Merges what two sides made of one feature: properties name by name, lines and rings stretch by stretch.

`merge_versions` gives both versions, each with the changes of the other side that don't clash with its own; so where nothing
clashes, they are equal. A feature is a GeoJSON one, as `topotool feature` prints it. What only one side changed is taken, and so
is what both changed alike. Of a line or ring, both sides may have changed different stretches, with a vertex between them that
stayed.
"""

import json
from collections import Counter
from difflib import SequenceMatcher

MISSING = object()
DEPTHS = {"LineString": 1, "MultiLineString": 2, "Polygon": 2, "MultiPolygon": 3}


class Clash(Exception):
    """Both sides changed one thing, and not alike."""


def changes(base, other):
    """The stretches of a list that are other ones in another list: from, to, and what is there instead."""
    matched = SequenceMatcher(None, base, other, autojunk=False).get_opcodes()
    return [(start, end, tuple(other[a:b])) for kind, start, end, a, b in matched if kind != "equal"]


def merge_lists(base, ours, theirs):
    """A list with the changes of both sides."""
    merged, at, last = [], 0, None
    for start, end, instead in sorted({*changes(base, ours), *changes(base, theirs)}):
        if last is not None and start <= last:
            raise Clash
        merged += [*base[at:start], *instead]
        at = last = end
    return merged + base[at:]


def merge_rings(base, ours, theirs):
    """The same of rings, which each side may begin at another vertex: all begin at one that stayed."""
    versions = [it[:-1] for it in (base, ours, theirs)]
    counts = [Counter(it) for it in versions]
    fixed = next((it for it in versions[0] if all(count[it] == 1 for count in counts)), None)
    if fixed is None:
        raise Clash
    ring = merge_lists(*([*it[it.index(fixed):], *it[:it.index(fixed) + 1]] for it in versions))
    if ring[0] != ring[-1]:
        raise Clash
    return ring


def merge_nested(base, ours, theirs, depth, merge):
    """Merges lists of lists of vertices, so deep; both sides have to have kept how many there are."""
    if ours == theirs or theirs == base:
        return ours
    if ours == base:
        return theirs
    if depth == 1:
        return [*map(list, merge(*([*map(tuple, it)] for it in (base, ours, theirs))))]
    if not len(base) == len(ours) == len(theirs):
        raise Clash
    return [merge_nested(*it, depth - 1, merge) for it in zip(base, ours, theirs)]


def merge_geometries(base, ours, theirs):
    if ours == theirs or theirs == base:
        return ours
    if ours == base:
        return theirs
    kinds = {it and it["type"] for it in (base, ours, theirs)}
    kind = kinds.pop()
    if kinds or kind not in DEPTHS:
        raise Clash
    merge = merge_rings if kind.endswith("Polygon") else merge_lists
    return {"type": kind, "coordinates": merge_nested(*(it["coordinates"] for it in (base, ours, theirs)), DEPTHS[kind], merge)}


def spelled(value):
    """A value as its text, by which true and 1 differ."""
    return value if value is MISSING else json.dumps(value, sort_keys=True)


def merge_properties(base, ours, theirs):
    """The properties of both versions; a name that clashes stays in each as it is."""
    merged = {}, {}
    for name in {**base, **ours, **theirs}:
        was, mine, yours = (it.get(name, MISSING) for it in (base, ours, theirs))
        if spelled(mine) == spelled(was):
            mine = yours
        elif spelled(yours) == spelled(was):
            yours = mine
        for side, value in zip(merged, (mine, yours)):
            if value is not MISSING:
                side[name] = value
    return merged


def merge_versions(base, ours, theirs):
    """Both versions of a feature, each with what the other side changed and doesn't clash."""
    properties = merge_properties(*(it.get("properties") or {} for it in (base, ours, theirs)))
    geometries = ours["geometry"], theirs["geometry"]
    try:
        geometries = (merge_geometries(base["geometry"], *geometries),) * 2
    except Clash:
        pass
    return [{**it, "properties": its, "geometry": geometry} for it, its, geometry in zip((ours, theirs), properties, geometries)]
