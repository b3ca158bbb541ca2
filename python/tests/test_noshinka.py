"""Tests of the package: `python3 -m unittest discover -s python/tests`, with NOSHINKA_LIBRARY set or the wheel installed."""
import collections
import dataclasses
import decimal
import gzip
import itertools
import json
import os
import pathlib
import pickle
import subprocess
import sys
import tempfile
import threading
import time
import unittest
import warnings

import noshinka

from programs import ARE_THERE, ran

LEFT = b'{"type":"Polygon","coordinates":[[[0,0],[1,0],[1,1],[0,1],[0,0]]]}'
RIGHT = b'{"type":"Polygon","coordinates":[[[1,0],[2,0],[2,1],[1,1],[1,0]]]}'
SHARED_EDGE = (
    b'{"arcs":[[[1,0],[-1,0],[0,1],[1,0]],[[1,0],[0,1]],[[1,0],[1,0],[0,1],[-1,0]]],"bbox":[0,0,2,1],"objects":{"a":'
    b'{"geometries":[{"arcs":[[1,-1]],"type":"Polygon"},{"arcs":[[2,-2]],"type":"Polygon"}],"type":"GeometryCollection"}},'
    b'"transform":{"scale":[1,1],"translate":[0,0]},"type":"Topology"}'
)
SAME_IDS = SHARED_EDGE.replace(b'[[1,-1]]', b'[[1,-1]],"id":7').replace(b'[[2,-2]]', b'[[2,-2]],"id":7')
SQUARE = (
    b'{"arcs":[[[0,0],[10,0],[0,10],[-10,0],[0,-10]]],"objects":{"a":{"geometries":[{"arcs":[[0]],"id":1,"type":"Polygon"}],'
    b'"type":"GeometryCollection"}},"transform":{"scale":[1,1],"translate":[0,0]},"type":"Topology"}'
)
NO_FEATURES = b'{"arcs":[],"objects":{"a":{"geometries":[],"type":"GeometryCollection"}},"transform":{"scale":[1,1],"translate":[0,0]},"type":"Topology"}'


WHOLE = (1, 1, 0, 0)


def whole(layers, grid=WHOLE):
    """The topology of texts that are on a grid."""
    return noshinka.build(layers, grid)


def point(x, y, **members):
    return {"type": "Feature", "geometry": {"type": "Point", "coordinates": [x, y]}, "properties": None, **members}


class Shape:
    """As shapely's: coordinates are tuples of floats."""

    __geo_interface__ = {"type": "Polygon", "coordinates": (((0.0, 0.0), (1.0, 0.0), (1.0, 1.0), (0.0, 1.0), (0.0, 0.0)),)}


class Frame:
    """As geopandas': a collection of features."""

    __geo_interface__ = {
        "type": "FeatureCollection",
        "features": [
            {"id": "0", "type": "Feature", "properties": {"n": 1}, "geometry": Shape.__geo_interface__},
            {"id": "1", "type": "Feature", "properties": {"n": 2}, "geometry": json.loads(RIGHT)},
        ],
    }


class Number:
    """As numpy's."""

    def tolist(self):
        return 7


class Texts(unittest.TestCase):
    def test_layers_of_every_kind(self):
        for layers in (
            {"a": [LEFT, RIGHT]},
            {"a": (RIGHT, LEFT)},
            [("a", LEFT), ("a", RIGHT)],
            {"a": [LEFT.decode(), bytearray(RIGHT)]},
            {"a": [memoryview(LEFT), json.loads(RIGHT)]},
            {"a": [Shape(), RIGHT]},
            {"a": {"type": "FeatureCollection", "features": [{"type": "Feature", "geometry": json.loads(it)} for it in (LEFT, RIGHT)]}},
            iter([("a", LEFT), ("a", RIGHT)]),
        ):
            self.assertEqual(whole(layers), SHARED_EDGE)

    def test_objects_with_ids(self):
        text = whole({"districts": Frame()})
        self.assertEqual(noshinka.neighbors(text, "districts", ids=True).json(), [["1"], ["0"]])
        features = noshinka.feature(text, "districts").json()["features"]
        self.assertEqual([it["properties"] for it in features], [{"n": 1}, {"n": 2}])

    def test_coordinates_alone_are_made_whole(self):
        with self.assertRaises(noshinka.Fault) as told:
            whole({"a": point(1.0, 2.0, properties={"height": 2.0})})
        self.assertEqual((told.exception.number, told.exception.path), (13, "$/properties"))
        with self.assertRaises(noshinka.Fault) as told:
            whole({"a": point(1.5, 2.0)})
        self.assertEqual((told.exception.number, told.exception.path), (5, "$/geometry/coordinates/0"))

    def test_numbers_of_numpy(self):
        text = whole({"a": point(Number(), 2, properties={"n": Number()})})
        self.assertEqual(text.json()["objects"]["a"]["geometries"][0]["properties"], {"n": 7})
        self.assertEqual(text.json()["bbox"], [7, 2, 7, 2])
        self.assertEqual(noshinka.round(point(Number(), 2), 1, unit=1).json()["features"][0]["geometry"]["coordinates"], [7, 2])

    def test_given_objects_stay(self):
        given = point(1.0, 2.0)
        whole({"a": given})
        self.assertEqual(repr(given["geometry"]["coordinates"]), "[1.0, 2.0]")

    def test_no_text(self):
        for wrong in (7, None, [LEFT], object()):
            with self.assertRaises(TypeError):
                noshinka.check(wrong)
        for wrong in (point(float("nan"), 0), {"type": "FeatureCollection", "features": [float("nan")]}):
            with self.assertRaises(noshinka.Usage):
                whole({"a": wrong})

    def test_layers_that_are_called_type(self):
        self.assertEqual(list(whole({"type": LEFT.decode()}).json()["objects"]), ["type"])
        with self.assertRaises(noshinka.Fault) as told:
            noshinka.build({"type": "Square"})
        self.assertEqual(str(told.exception), "layer: 4 UnknownType $/type")

    def test_mappings_are_dicts(self):
        given = collections.ChainMap({"type": "Point"}, {"coordinates": (1, 2)})
        self.assertEqual(whole({"a": given}).json()["bbox"], [1, 2, 1, 2])


class Rounding(unittest.TestCase):
    PLACE = point(7.4386325, 46.9510827)

    def test_steps(self):
        degrees = noshinka.build({"a": self.PLACE})
        self.assertEqual(degrees.json()["bbox"], [7438633, 46951083, 7438633, 46951083])
        for step in ("1e-6", 0.000001, decimal.Decimal("0.000001")):
            self.assertEqual(noshinka.build({"a": self.PLACE}, step=step), degrees)
        for step, wanted in ((0.5, [15, 94]), (decimal.Decimal("0.1"), [74, 470]), (2, [4, 23])):
            text = noshinka.round(self.PLACE, step, unit=step)
            self.assertEqual(text.json()["features"][0]["geometry"]["coordinates"], wanted)
            self.assertEqual(noshinka.build({"a": self.PLACE}, step=step, unit=step), whole({"a": text}))

    def test_ties_go_away_from_zero(self):
        line = {"type": "LineString", "coordinates": [[0.5, -0.5], [1.5, 2.5]]}
        wanted = b'{"features":[{"geometry":{"coordinates":[[1,-1],[2,3]],"type":"LineString"},"properties":{},"type":"Feature"}],"type":"FeatureCollection"}'
        self.assertEqual(noshinka.round(line, 1, unit=1), wanted)

    def test_heights_and_fractions_in_properties(self):
        given = '{"type":"Feature","bbox":[0,0,1,1],"properties":{"area":8810.0400},"geometry":{"type":"Point","coordinates":[1.0,2.0,540]}}'
        wanted = '{"features":[{"geometry":{"coordinates":[1,2],"type":"Point"},"properties":{"area":"8810.04"},"type":"Feature"}],"type":"FeatureCollection"}'
        self.assertEqual(noshinka.round(given, "1", unit="1").text(), wanted)

    def test_options(self):
        properties = {"code": "x", "area": 1.25, "people": 7.0}
        given = {"type": "FeatureCollection", "features": [point(1, 2, properties=properties), point(1, 2, properties=properties)]}

        def first(**options):
            found = noshinka.round(given, **options).json()["features"][0]
            return found.get("id"), found["properties"]

        self.assertEqual(first(), (None, {"area": "1.25", "code": "x", "people": 7}))
        self.assertEqual(first(id="code"), ("x", {"area": "1.25", "code": "x", "people": 7}))
        self.assertEqual(first(number=True)[0], 1)
        self.assertEqual(first(reals="text")[1], {"area": "1.25", "code": "x", "people": "7"})
        self.assertEqual(first(scales={"area": 10, "people": 100})[1], {"area": 13, "code": "x", "people": 700})
        with self.assertRaises(noshinka.Fault) as told:
            first(reals="refuse")
        self.assertEqual(told.exception.number, 13)

    def test_what_is_fixed(self):
        collapsed = {"type": "LineString", "coordinates": [[0, 0], [0.4, 0.4]]}
        self.assertEqual([it["geometry"] for it in noshinka.round(collapsed, 1).json()["features"]], [None])
        self.assertEqual(noshinka.round(collapsed, 1, collapsed="drop").json()["features"], [])
        folded = {"type": "LineString", "coordinates": [[0, 0], [5, 0], [9, 0], [5, 0]]}
        given = [point(1, 2), {"type": "Polygon", "coordinates": [[[0, 0], [1, 0], [1, 1]]]}, folded, collapsed, {"type": "GeometryCollection", "geometries": [point(1, 2)["geometry"]]}]
        given[0]["geometry"]["coordinates"].append(3)
        for it, option, number in zip(given, ("heights", "unclosed", "folded", "collapsed", "collections"), (16, 9, 10, 8, 4)):
            noshinka.round(it, 1)
            with self.subTest(option), self.assertRaises(noshinka.Fault) as told:
                noshinka.round(it, 1, **{option: "refuse"})
            self.assertEqual(told.exception.number, number)

    def test_rings(self):
        ring = json.loads(LEFT)["coordinates"][0]
        for rewind, wanted in (("keep", ring), ("rfc7946", ring), ("d3", ring[::-1])):
            answer = noshinka.round(LEFT, 1, unit=1, rewind=rewind)
            self.assertEqual(answer.json()["features"][0]["geometry"]["coordinates"], [wanted])

    def test_snap(self):
        near = {"type": "Polygon", "coordinates": [[[1.000001, 0], [2, 0], [2, 1], [1.000001, 1], [1.000001, 0]]]}
        apart, joined = (noshinka.build({"a": [LEFT, near]}, snap=it) for it in (0, 1))
        self.assertEqual([noshinka.neighbors(it, "a").json() for it in (apart, joined)], [[[], []], [[1], [0]]])
        self.assertEqual((apart.report.nearly_shared, apart.report.first_nearly_shared), (2, ((1000000, 0), (1000001, 0))))
        self.assertEqual((joined.report.nearly_shared, joined.report.joined, joined.report.shared), (0, 2, 2))

    def test_topologies_of_other_tools(self):
        given = {
            "type": "Topology", "arcs": [[[0, 0], [1000, 500], [500, 0], [-1500, -500]]], "transform": {"scale": [0.0036, 0.0018], "translate": [-180, -90]},
            "objects": {"land": {"type": "Polygon", "arcs": [[0]], "id": "01001"}, "sea": {"type": "Polygon", "arcs": [[0]], "id": 2}},
        }  # fmt: skip
        self.assertEqual(list(noshinka.build(given).json()["objects"]), ["land", "sea"])
        self.assertEqual(list(noshinka.build(given, layer="land").json()["objects"]), ["land"])
        self.assertEqual(list(noshinka.build({"coast": given}, layer="land").json()["objects"]), ["coast"])
        self.assertEqual([it.layer for it in noshinka.build(given).report.maps], ["land", "sea"])

    def test_a_report(self):
        ring = [[0, 0], [1, 0], [1, 1], [0, 1.0000004]]
        given = {"type": "FeatureCollection", "features": [
            {"type": "Feature", "id": 7, "properties": {"a": 0.5}, "geometry": {"type": "Polygon", "coordinates": [ring]}},
            point(0, 1, properties={"a": 1}), point(0, 1, properties={"a": 1.0}),
        ]}  # fmt: skip
        with self.assertWarnsRegex(UserWarning, "^layer a: 1 features equal others and are there once, the first is 2; number=True keeps them$"):
            answer = noshinka.build({"a": given})
        report = answer.report
        (found,) = report.maps
        self.assertEqual((report.step, report.shared, found.file, found.layer, found.features, found.positions), ("0.000001", 1, None, "a", 3, 6))
        self.assertEqual((found.moved, found.furthest_steps, found.furthest), (1, decimal.Decimal("0.4"), decimal.Decimal("0.0000004")))
        self.assertEqual((found.reals, found.closed, found.equal, found.fixed), (1, 1, (2,), (noshinka.Fixed(0, 1, 0, 0, 0, 0),)))
        with warnings.catch_warnings():
            warnings.simplefilter("error", UserWarning)
            self.assertIsNone(noshinka.build({"a": given}, report=False).report)
            self.assertEqual(noshinka.build({"a": given}, report=False), answer)
            self.assertEqual(len(noshinka.build({"a": given}, number=True).json()["objects"]["a"]["geometries"]), 3)
            self.assertEqual(noshinka.round(given).report.maps[0].equal, (2,))

    def test_sequences(self):
        lines = b'{"type":"Point","coordinates":[1,2]}\n\n{"type":"Point","coordinates":[3,4]}\n'
        features = noshinka.round(lines, 1, unit=1, seq=True).json()["features"]
        self.assertEqual([it["geometry"]["coordinates"] for it in features], [[1, 2], [3, 4]])
        with self.assertRaises(noshinka.Fault) as told:
            noshinka.round(lines)
        self.assertEqual(told.exception.name, "NotJson")
        with self.assertRaises(noshinka.Fault) as told:
            noshinka.round(b'{"type":"Point","coordinates":[1,2]}\n{"type":"Point"}', seq=True)
        self.assertEqual((told.exception.path, told.exception.line), ("$/1/coordinates", None))

    def test_a_room_that_is_too_small(self):
        text = {"type": "MultiPoint", "coordinates": [[n % 9 + 1, 5] for n in range(5000)]}
        coordinates = noshinka.round(text, "1e-9", unit="1e-9").json()["features"][0]["geometry"]["coordinates"]
        self.assertEqual(coordinates[:2], [[10**9, 5 * 10**9], [2 * 10**9, 5 * 10**9]])


class Back(unittest.TestCase):
    NUMBERS = {"rate": "0.5", "code": "7", "area": 25, "name": "x"}

    def properties(self, **options):
        text = whole({"a": [point(1, 2, id=1, properties=self.NUMBERS), point(3, 4, id=2, properties={"rate": 1, "area": -3})]})
        return [it["properties"] for it in noshinka.back(text, **options).json()["objects"]["a"]["geometries"]]

    def test_rings_and_the_text(self):
        wanted = (
            b'{"type":"Topology","transform":{"scale":[0.000001,0.000001],"translate":[0,0]},"bbox":[0,0,0.00001,0.00001],"objects":{"a":{"type":'
            b'"GeometryCollection","geometries":[{"id":1,"type":"Polygon","arcs":[[%d]]}]}},"arcs":[[[0,0],[0,10],[10,0],[0,-10],[-10,0]]]}'
        )
        self.assertEqual(noshinka.back(SQUARE), wanted % 0)
        for rewind, arc in (("d3", 0), ("rfc7946", -1), ("keep", -1)):
            self.assertEqual(noshinka.back(json.loads(SQUARE), rewind=rewind), wanted % arc)

    def test_units(self):
        text = whole({"a": point(15, 0)}, (10, 10, 5, -20))
        for unit in ("0.25", 0.25, decimal.Decimal("0.25"), "25e-2"):
            answer = noshinka.back(text, unit=unit).json()
            self.assertEqual((answer["transform"], answer["bbox"]), ({"scale": [2.5, 2.5], "translate": [1.25, -5]}, [3.75, 0, 3.75, 0]))

    def test_there_and_back(self):
        self.assertEqual(noshinka.build(noshinka.back(SHARED_EDGE, rewind="keep")), SHARED_EDGE)
        metres = noshinka.build({"a": [point(2600000.25, 1200000, properties={"area": 0.5}), Shape()]}, step=0.25, scales={"area": 100})
        again = noshinka.back(metres, rewind="keep", scales={"area": 100})
        self.assertEqual(noshinka.build(again, step=0.25, scales={"area": 100}), metres)

    def test_another_transform(self):
        like = b'{"transform":{"translate":[0.000001,0],"scale":[0.000003,-5e-6]},"type":"Topology","arcs":5}'
        answer = noshinka.back(SQUARE, like=like)
        self.assertIn(b'"transform":{"scale":[0.000003,-5e-6],"translate":[0.000001,0]}', answer)
        self.assertEqual(answer.json()["arcs"], [[[0, 0], [0, -2], [3, 0], [0, 2], [-3, 0]]])
        with tempfile.TemporaryDirectory() as folder:
            path = pathlib.Path(folder, "like.json")
            path.write_bytes(b"\xef\xbb\xbf" + like)
            self.assertEqual(noshinka.back(SQUARE, like=path), answer)
        self.assertEqual(noshinka.back(SQUARE, like=json.loads(like)).json(), answer.json())
        self.assertEqual(noshinka.back(SQUARE, like=noshinka.back(SQUARE)), noshinka.back(SQUARE))

    def test_numbers_along_an_axis(self):
        self.assertEqual(noshinka.back(SQUARE, quantize=11), noshinka.back(SQUARE))
        self.assertEqual(noshinka.back(SQUARE, quantize=4).json()["arcs"], [[[0, 0], [0, 3], [3, 0], [0, -3], [-3, 0]]])
        self.assertEqual(noshinka.back(SQUARE, quantize=2**40).json()["arcs"][0][0], [0, 0])

    def test_numbers_of_texts(self):
        one, two = self.NUMBERS, {"rate": 1, "area": -3}
        for numbers, wanted in (
            (False, one), ([], one), (True, {**one, "rate": 0.5}), ("code", {**one, "code": 7}), (["code", "rate", "name"], {**one, "rate": 0.5, "code": 7}),
            (iter(("rate", "none")), {**one, "rate": 0.5}),
        ):  # fmt: skip
            self.assertEqual(self.properties(numbers=numbers), [wanted, two])
        self.assertEqual(self.properties(numbers=True, scales={"area": 10, "rate": 1}), [{**one, "rate": 0.5, "area": 2.5}, {"rate": 1, "area": -0.3}])

    def test_texts_as_togrid_reads_them(self):
        self.assertEqual(noshinka.back(b"\xef\xbb\xbf" + SQUARE), noshinka.back(SQUARE))
        for text, like, said in (
            (b"[", None, "text 0: 1 NotJson $"),
            (gzip.compress(SQUARE), None, "text 0: 1 NotJson $: compressed, gunzip it first"),
            ("map.json", None, "text 0: 1 NotJson $: is it the name of a file? pathlib.Path of it is read"),
            (noshinka.back(SQUARE), None, "text 0: 5 NotWhole $/transform/scale/0"),
            (SQUARE, b"[", "text 1: 1 NotJson $"),
            (SQUARE, LEFT, "text 1: 4 UnknownType $/type"),
            (SQUARE, b'{"type":"Topology"}', "text 1: 15 NoTransform $/transform"),
        ):
            with self.subTest(said), self.assertRaises(noshinka.Fault) as told:
                noshinka.back(text, like=like)
            self.assertEqual((str(told.exception), told.exception.place), (said, int(like is not None)))

    def test_a_room_that_is_too_small(self):
        names = [f"a{n}" for n in range(100)]
        text = whole({"a": [point(n, 0, properties={it: 1 for it in names}) for n in range(50)]})
        answer = noshinka.back(text, scales={it: 10**12 for it in names})
        self.assertGreater(len(answer), 2 * len(text) + 1024)
        self.assertEqual(answer.json()["objects"]["a"]["geometries"][49]["properties"], {it: 1e-12 for it in names})

    @unittest.skipUnless(ARE_THERE, "there are no programs")
    def test_the_bytes_of_togrid(self):
        ring = [[0, 0], [9, 1], [10, 10], [3, 9], [0, 0]]
        hole = [[2, 2], [5, 5], [3, 6], [2, 2]]
        given = [point(n, 7 * n, id=n, properties={"rate": n / 8, "area": n, "it's": f"{n}"}) for n in range(9)]
        text = noshinka.build({"a": [{"type": "Polygon", "coordinates": [ring, hole]}, *given], "b": LEFT})
        like = b'{"type":"Topology","transform":{"scale":[0.0036,-18e-4],"translate":[-180,90]}}'
        seen = set()
        with tempfile.TemporaryDirectory() as folder:
            files = [pathlib.Path(folder, it) for it in ("map.json", "like.json")]
            for path, it in zip(files, (text, like)):
                path.write_bytes(it)
            for chosen in itertools.product(
                (({}, []), ({"unit": 1}, ["--unit", "1"]), ({"unit": "0.25"}, ["--unit", "0.25"])),
                (({}, []), ({"like": like}, ["--like", str(files[1])]), ({"quantize": 2}, ["--quantize", "2"]), ({"quantize": 1000}, ["--quantize", "1000"])),
                (({}, []), ({"numbers": True}, ["--numbers"]), ({"numbers": ["rate", "it's"]}, ["--numbers=rate,it's"])),
                (({}, []), ({"scales": {"area": 1000, "none": 1}}, ["--reals", "scale:area=1000", "--reals", "scale:none=1"])),
                (({}, []), ({"rewind": "rfc7946"}, ["--rewind", "rfc7946"]), ({"rewind": "keep"}, ["--rewind", "keep"])),
            ):
                options = {name: value for named, _ in chosen for name, value in named.items()}
                words = [it for _, said in chosen for it in said]
                with self.subTest(words):
                    answer = noshinka.back(text, **options)
                    self.assertEqual(answer, ran("togrid", "--back", *words, str(files[0])))
                    seen.add(answer)
        self.assertGreaterEqual(len(seen), 200)


class Checks(unittest.TestCase):
    APART = {"a": [
        {"type": "Feature", "id": 1, "geometry": {"type": "Polygon", "coordinates": [[[0, 0], [10, 0], [10, 10], [0, 10], [0, 0]]]}},
        {"type": "Feature", "id": 2, "geometry": {"type": "Polygon", "coordinates": [[[11, 0], [20, 0], [20, 10], [11, 10], [11, 0]]]}},
    ]}  # fmt: skip

    def test_nothing_else_asked(self):
        self.assertIs(noshinka.check(SHARED_EDGE, ids=False, near=None, listed=0), True)
        self.assertIs(noshinka.check(SHARED_EDGE + b"\n"), False)

    def test_ids(self):
        found = noshinka.check(SHARED_EDGE, ids=True)
        self.assertEqual(found, noshinka.Checked(True, (noshinka.LayerIds("a", (0, 1), ()),), None, ()))
        self.assertFalse(found)
        self.assertEqual(noshinka.check(SAME_IDS, ids=True).ids, (noshinka.LayerIds("a", (), (0, 1)),))
        self.assertFalse(noshinka.check(SAME_IDS, ids=True))
        text = whole({"b": [point(n, 0, id=n // 2) for n in range(5)], "a": [point(0, 0, id=2), point(0, 0), point(1, 0, id="2")]})
        found = noshinka.check(text, ids=True)
        self.assertEqual(found.ids, (noshinka.LayerIds("a", (0,), ()), noshinka.LayerIds("b", (), (0, 1, 2, 3))))
        self.assertEqual((found.canonical, found.near_count, found.near_pairs), (True, None, ()))
        self.assertEqual(noshinka.check(NO_FEATURES, ids=True).ids, (noshinka.LayerIds("a", (), ()),))

    def test_near_vertices(self):
        text = whole(self.APART)
        pairs = (((10, 0), (11, 0)), ((10, 10), (11, 10)))
        found = noshinka.check(text, near=1)
        self.assertEqual(found, noshinka.Checked(True, None, 2, pairs))
        self.assertFalse(found)
        for listed, wanted in ((0, ()), (1, pairs[:1]), (2**32 - 1, pairs)):
            self.assertEqual(noshinka.check(text, near=1, listed=listed), noshinka.Checked(True, None, 2, wanted))
        many = whole({"a": [point(n, 0, id=n) for n in range(200)]})
        found = noshinka.check(many, near=2)
        self.assertEqual((found.near_count, found.near_pairs[:3], len(found.near_pairs)), (199 + 198, (((0, 0), (1, 0)), ((0, 0), (2, 0)), ((1, 0), (2, 0))), 10))
        self.assertEqual(len(noshinka.check(many, near=100, listed=5000).near_pairs), 5000)
        tens = whole({"a": point(-500, 3), "b": point(-490, 8)}, (10, 5, -500, 3))
        self.assertEqual(noshinka.check(tens, near=1).near_pairs, (((-500, 3), (-490, 8)),))

    def test_both(self):
        text = whole(self.APART)
        self.assertFalse(noshinka.check(text, ids=True, near=1))
        good = noshinka.remove(text, whole({"a": self.APART["a"][0]}))
        found = noshinka.check(good, ids=True, near=100)
        self.assertEqual(found, noshinka.Checked(True, (noshinka.LayerIds("a", (), ()),), 0, ()))
        self.assertTrue(found)
        found = noshinka.check(good + b"\n", ids=True, near=100)
        self.assertEqual((bool(found), found.canonical, found.near_count), (False, False, 0))
        with self.assertRaises(dataclasses.FrozenInstanceError):
            found.canonical = True

    def test_refusals(self):
        with self.assertRaises(noshinka.Fault) as told:
            noshinka.check(b"[", ids=True)
        self.assertEqual((told.exception.number, str(told.exception)), (1, "text 0: 1 NotJson $"))
        for near in (1.5, "1"):
            with self.assertRaises(TypeError):
                noshinka.check(SHARED_EDGE, near=near)


class Files(unittest.TestCase):
    def setUp(self):
        self.folder = tempfile.TemporaryDirectory()
        self.addCleanup(self.folder.cleanup)

    def file(self, name, text):
        path = pathlib.Path(self.folder.name, name)
        path.write_bytes(text)
        return path

    def test_names_of_layers(self):
        left, right = self.file("left.part.json", LEFT), self.file("right.json", RIGHT)
        for layers, wanted in (
            (left, ["left"]), ([left, right], ["left", "right"]), ({"a": left}, ["a"]), ({"a": [left, right]}, ["a"]), (LEFT, ["layer"]),
            ([LEFT, RIGHT], ["layer"]), ([("a", left), ("b", RIGHT)], ["a", "b"]), (json.loads(LEFT), ["layer"]),
        ):  # fmt: skip
            self.assertEqual(list(noshinka.build(layers).json()["objects"]), wanted)
            self.assertEqual(list(whole(layers).json()["objects"]), wanted)
        with self.assertRaises(noshinka.Usage) as told:
            noshinka.build([("a", left), right])
        self.assertEqual(told.exception.argument, "layers")

    def test_sequences_by_name(self):
        lines = self.file("two.ndjson", b'{"type":"Point","coordinates":[1,2]}\n{"type":"Point","coordinates":[3,4]}\n')
        self.assertEqual(len(noshinka.build(lines).json()["objects"]["two"]["geometries"]), 2)
        with self.assertRaises(noshinka.Usage) as told:
            noshinka.build([lines, LEFT])
        self.assertEqual(told.exception.argument, "seq")

    def test_topologies(self):
        one, two = (self.file(name, whole({"a": text})) for name, text in (("one", LEFT), ("two", RIGHT)))
        self.assertEqual(noshinka.merge([one, two]), SHARED_EDGE)
        self.assertTrue(noshinka.check(one))
        self.assertEqual(noshinka.info(one), noshinka.info(whole({"a": LEFT})))

    def test_faults_name_the_file(self):
        wrong = self.file("wrong.json", b'{"type":"Feature","id":7,"properties":null,\n"geometry":{"type":"Point","coordinates":["x",1]}}')
        for call in (lambda: noshinka.build({"a": LEFT, "b": wrong}), lambda: whole({"a": LEFT, "b": wrong})):
            with self.assertRaises(noshinka.Fault) as told:
                call()
            fault = told.exception
            self.assertEqual((fault.place, fault.file, fault.layer, fault.line, fault.column, fault.id), (1, str(wrong), "b", 2, 43, 7))
            self.assertEqual(str(fault), f"{wrong}: 3 WrongKind $/geometry/coordinates/0")

    def test_no_file(self):
        with self.assertRaises(FileNotFoundError):
            noshinka.build(pathlib.Path(self.folder.name, "none"))


class Faults(unittest.TestCase):
    TEXT = '{"type":"Feature","id":7,"properties":{"a":1.5},\n"geometry":{"type":"LineString","coordinates":[[0],[1,2.5]]}}'

    def test_all_faults_of_geojson(self):
        found = noshinka.faults(self.TEXT, grid=(1, 1, 0, 0)).json()
        told = [(it["line"], it["column"], it["number"], it["path"], it["id"]) for it in found]
        self.assertEqual(told, [(2, 48, 16, "$/geometry/coordinates/0", 7), (2, 55, 5, "$/geometry/coordinates/1/1", 7), (1, 39, 13, "$/properties", 7)])
        self.assertEqual(found[2]["member"], "a")

    def test_the_first_is_the_one_that_is_raised(self):
        with self.assertRaises(noshinka.Fault) as told:
            whole({"a": self.TEXT})
        first = noshinka.faults(self.TEXT, grid=(1, 1, 0, 0)).json()[0]
        self.assertEqual((first["number"], first["name"], first["path"]), (told.exception.number, told.exception.name, told.exception.path))

    def test_a_topology(self):
        self.assertEqual(noshinka.faults(SHARED_EDGE), b"[]")
        text = '{"type":"Topology","objects":{},"arcs":[],\n"transform":{"scale":[0,1],"translate":[0]}}'
        told = [(it["line"], it["name"], it["path"]) for it in noshinka.faults(text).json()]
        self.assertEqual(told, [(2, "OutOfRange", "$/transform/scale/0"), (2, "NotTwo", "$/transform/translate")])

    def test_a_long_list(self):
        line = {"type": "LineString", "coordinates": [[n + 0.5, 0] for n in range(500)]}
        self.assertEqual(len(noshinka.faults(line, grid=(1, 1, 0, 0)).json()), 500)

    def test_a_bad_grid(self):
        for grid in ((0, 1, 0, 0), (1, 1, 0), (1, 1, 0, 2**63)):
            with self.assertRaises(noshinka.Usage):
                noshinka.faults("{}", grid=grid)


class Calls(unittest.TestCase):
    def test_merge_in_any_order(self):
        one, two = (whole({"a": it}) for it in (LEFT, RIGHT))
        for texts in ([one, two], (two, one), [one, two, one], [bytearray(two), memoryview(one)], iter([one.json(), two.text()])):
            self.assertEqual(noshinka.merge(texts), SHARED_EDGE)

    def test_remove(self):
        right = whole({"a": RIGHT})
        self.assertEqual(noshinka.remove(SHARED_EDGE, right), whole({"a": LEFT}))
        self.assertEqual(noshinka.remove(SHARED_EDGE, SHARED_EDGE), NO_FEATURES)

    def test_check(self):
        self.assertIs(noshinka.check(SHARED_EDGE), True)
        self.assertIs(noshinka.check(SHARED_EDGE + b"\n"), False)
        with self.assertRaises(noshinka.Fault) as told:
            noshinka.check(b"{}")
        self.assertEqual((told.exception.number, told.exception.name), (2, "Missing"))

    def test_feature(self):
        wanted = [{"type": "Feature", "geometry": json.loads(it), "properties": {}} for it in (LEFT, RIGHT)]
        self.assertEqual(noshinka.feature(SHARED_EDGE, "a").json(), {"type": "FeatureCollection", "features": wanted})

    def test_mesh(self):
        self.assertEqual(noshinka.mesh(SHARED_EDGE, edges="interior").json(), {"type": "MultiLineString", "coordinates": [[[1, 0], [1, 1]]]})
        self.assertEqual(noshinka.mesh(SHARED_EDGE, "a", "interior"), noshinka.mesh(SHARED_EDGE, edges="interior"))
        ring = [[0, 0], [0, 1], [1, 1], [2, 1], [2, 0], [1, 0], [0, 0]]
        self.assertEqual(noshinka.mesh(SHARED_EDGE, "a", "exterior").json()["coordinates"], [ring])
        self.assertEqual(len(noshinka.mesh(SHARED_EDGE).json()["coordinates"]), 3)

    def test_neighbors(self):
        self.assertEqual(noshinka.neighbors(SHARED_EDGE, "a").json(), [[1], [0]])
        with self.assertRaises(noshinka.Usage):
            noshinka.neighbors(SHARED_EDGE, "a", ids=True)

    def test_diff(self):
        old = whole({"a": [point(0, 0, id=1), point(5, 5, id=2)]})
        new = whole({"a": [point(0, 1, id=1), point(7, 7, id=3)]})
        self.assertEqual(noshinka.diff(old, new, lines=True).text(), '- "a" 2 {}\n+ "a" 3 {}\n~ "a" 1 geometry: 1 vertex gone, 1 new\n1 added, 1 removed, 1 changed\n')
        self.assertEqual([it["change"] for it in noshinka.diff(old, new, "a").json()["differences"]], ["removed", "added", "changed"])
        self.assertEqual(noshinka.diff(old, new, key="name").json()["removed"], 2)
        self.assertEqual(noshinka.diff(old, old, lines=True), b"0 added, 0 removed, 0 changed\n")
        with self.assertRaises(noshinka.Fault) as told:
            noshinka.diff(old, new, "q")
        self.assertEqual((told.exception.number, str(told.exception)), (19, "19 NoLayer q"))
        with self.assertRaises(noshinka.Fault) as told:
            noshinka.diff(old, whole({}, (10, 10, 0, 0)))
        self.assertEqual((told.exception.number, told.exception.place), (17, 1))

    def test_edit(self):
        left, right = (whole({"a": it}) for it in (LEFT, RIGHT))
        self.assertEqual(noshinka.edit(left, [("add", right)]), SHARED_EDGE)
        self.assertEqual(noshinka.edit(left, [("add", right), ("take", left)]), right)
        self.assertEqual(noshinka.edit(left, iter([("take", left), ("take", left)])), NO_FEATURES)
        self.assertEqual(noshinka.edit(SHARED_EDGE + b" ", []), SHARED_EDGE)
        with self.assertRaises(noshinka.Fault) as told:
            noshinka.edit(left, [("add", right), ("take", b"[")])
        self.assertEqual((told.exception.number, told.exception.place, str(told.exception)), (1, 2, "text 2: 1 NotJson $"))

    def test_by_a_property(self):
        columns = [{"type": "Feature", "id": n, "properties": {"state": n // 2}, "geometry": {"type": "Polygon", "coordinates": [[[n, 0], [n + 1, 0], [n + 1, 1], [n, 1], [n, 0]]]}} for n in range(4)]
        text = whole({"a": {"type": "FeatureCollection", "features": columns}})
        self.assertEqual(noshinka.mesh(text, by="state").json()["coordinates"], [[[2, 0], [2, 1]]])
        self.assertEqual(noshinka.mesh(text, "a", by="state"), noshinka.mesh(text, by="state"))
        self.assertEqual(noshinka.neighbors(text, "a", by="state").json(), [[], [2], [1], []])
        self.assertEqual(noshinka.neighbors(text, "a", ids=True, by="state").json(), [[], [2], [1], []])
        self.assertEqual(noshinka.neighbors(text, "a", keyed=True).json(), {"0": [1], "1": [0, 2], "2": [1, 3], "3": [2]})

    def test_info(self):
        self.assertEqual(noshinka.info(SHARED_EDGE).json()["layers"][0]["features"], 2)
        self.assertEqual(noshinka.info(SHARED_EDGE, lines=True).text().split("\n")[0], "grid: 1,1,0,0")

    def test_a_room_that_is_too_small_is_made_larger(self):
        many = [(str(n), b'{"type":"Point","coordinates":[1,2]}') for n in range(1000)]
        text = whole(many)
        self.assertGreater(len(text), sum(len(name) + len(given) for name, given in many) + 1024)
        self.assertEqual(len(text.json()["objects"]), 1000)
        self.assertEqual(noshinka.merge([text]), text)
        self.assertGreater(len(noshinka.info(text)), 4096)


class Errors(unittest.TestCase):
    def test_fault(self):
        with self.assertRaises(noshinka.Fault) as told:
            whole([("a", LEFT), ("b", '{"type":"Point","coordinates":[0.5,1]}')])
        fault = told.exception
        self.assertEqual((fault.number, fault.name, fault.place, fault.path), (5, "NotWhole", 1, "$/coordinates/0"))
        self.assertEqual((fault.layer, fault.file, fault.line, fault.column, fault.id), ("b", None, 1, 32, None))
        self.assertEqual(str(fault), "b: 5 NotWhole $/coordinates/0")
        again = pickle.loads(pickle.dumps(fault))
        self.assertEqual((str(again), vars(again)), (str(fault), vars(fault)))
        self.assertIsInstance(fault, ValueError)

    def test_what_may_help(self):
        for text, said in (
            (point(181, 0), "layer: 6 OutOfRange $/geometry/coordinates/0: numbers beyond 180 and 90 need --step"),
            (b'{"type":"Feature",\n"id":"K\xf6ln"}', "layer: 1 NotJson $: no UTF-8 at line 2, column 8; try ogr2ogr -oo ENCODING="),
            (gzip.compress(LEFT), "layer: 1 NotJson $: compressed, gunzip it first"),
            ("districts.geojson", "layer: 1 NotJson $: is it the name of a file? pathlib.Path of it is read"),
        ):
            with self.assertRaises(noshinka.Fault) as told:
                noshinka.build(text)
            self.assertEqual(str(told.exception), said)
        with self.assertRaises(noshinka.Fault) as told:
            noshinka.build(point(2**54, 0), step=1)
        self.assertEqual(str(told.exception), "layer: 6 OutOfRange $/geometry/coordinates/0")

    def test_where_a_number_is(self):
        text = '{"type":"Feature","id":"x","properties":{"a":1,\n"b":[0.5]},"geometry":null}'
        with self.assertRaises(noshinka.Fault) as told:
            whole(text)
        fault = told.exception
        self.assertEqual((fault.number, fault.line, fault.column, fault.id, fault.member), (13, 1, 41, "x", "b"))

    def test_without_the_library(self):
        environment = {**os.environ, "NOSHINKA_LIBRARY": "/none/libnoshinka.so.1", "PYTHONPATH": os.path.dirname(os.path.dirname(noshinka.__file__))}
        if os.path.exists(f"{os.path.dirname(noshinka.__file__)}/libnoshinka.so.1"):
            self.skipTest("the library is beside the package")
        ran = subprocess.run([sys.executable, "-c", "import noshinka"], env=environment, capture_output=True, text=True)
        self.assertEqual(ran.returncode, 1)
        self.assertRegex(ran.stderr.splitlines()[-1], "^ImportError: .*/none/libnoshinka.so.1.* NOSHINKA_LIBRARY$")

    def test_names_in_paths(self):
        with self.assertRaises(noshinka.Fault) as told:
            noshinka.check({**whole({}).json(), "objects": {"a/b~c": {"type": "Point", "coordinates": [0.5, 1]}}})
        self.assertEqual((told.exception.number, told.exception.path), (5, "$/objects/a~1b~0c/coordinates/0"))

    def test_a_path_longer_than_the_room(self):
        name = "n" * 5000
        with self.assertRaises(noshinka.Fault) as told:
            noshinka.check(json.dumps({"type": "Topology", "transform": {"scale": [1, 1], "translate": [0, 0]}, "arcs": [], "objects": {name: 1}}))
        self.assertEqual((told.exception.number, told.exception.path), (3, f"$/objects/{name}"))

    def test_other_grid(self):
        texts = [whole({"a": point(0, 10)}, grid) for grid in ((1, 1, 0, 0), (10, 10, 0, 0))]
        for call in (lambda: noshinka.merge(texts), lambda: noshinka.remove(*texts)):
            with self.assertRaises(noshinka.Fault) as told:
                call()
            self.assertEqual((told.exception.number, told.exception.place, told.exception.path), (17, 1, ""))

    def test_second_text_of_remove(self):
        with self.assertRaises(noshinka.Fault) as told:
            noshinka.remove(SHARED_EDGE, b"[")
        self.assertEqual((told.exception.number, told.exception.place), (1, 1))

    def test_no_text(self):
        with self.assertRaises(noshinka.Fault) as told:
            noshinka.merge([])
        self.assertEqual(told.exception.number, 18)
        self.assertEqual(whole({}).json()["objects"], {})

    def test_no_layer(self):
        for call in (noshinka.feature, noshinka.mesh, noshinka.neighbors):
            with self.assertRaises(noshinka.Fault) as told:
                call(SHARED_EDGE, "q")
            self.assertEqual((told.exception.number, str(told.exception)), (19, "19 NoLayer q"))

    def test_usage(self):
        for grid in ((0, 1, 0, 0), (1, 1, 0), (1, 1, 2**63, 0), (1000001, 1, 0, 0)):
            with self.assertRaises(noshinka.Usage):
                whole({"a": LEFT}, grid)
        self.assertEqual(whole({"a": LEFT}, (1.0, 1, 0, 0)), whole({"a": LEFT}))
        for argument, said, call in (
            ("grid", "bad grid 0,1,0,0", lambda: whole({"a": LEFT}, (0, 1, 0, 0))),
            ("grid", "grid goes without snap: nothing is rounded", lambda: noshinka.build(LEFT, WHOLE, snap=1)),
            ("grid", "grid goes without step: nothing is rounded", lambda: noshinka.build(LEFT, WHOLE, 1)),
            ("step", "bad step 1m", lambda: noshinka.build(LEFT, step="1m")),
            ("unit", "bad unit 0", lambda: noshinka.build(LEFT, step=1, unit=0)),
            ("step", "bad step 1: --unit says what the numbers of the output count", lambda: noshinka.build(LEFT, step=1, unit=2)),
            ("snap", "bad snap 11", lambda: noshinka.build(LEFT, snap=11)),
            ("scales", "bad reals scale:area=50", lambda: noshinka.build(LEFT, scales={"area": 50})),
            ("rewind", "rewind is one of keep, rfc7946, d3, and not 'left'", lambda: noshinka.round(LEFT, rewind="left")),
            ("edges", "edges is one of all, interior, exterior, and not 'some'", lambda: noshinka.mesh(SHARED_EDGE, edges="some")),
            ("by", "by goes without edges", lambda: noshinka.mesh(SHARED_EDGE, edges="interior", by="a")),
            ("changes", "changes is one of add, take, and not 'drop'", lambda: noshinka.edit(SHARED_EDGE, [("drop", SHARED_EDGE)])),
            ("ids", "--ids: a feature without an id in layer a", lambda: noshinka.neighbors(SHARED_EDGE, "a", ids=True)),
            ("ids", "--ids: a feature without an id in layer a", lambda: noshinka.neighbors(SHARED_EDGE, "a", keyed=True)),
            ("keyed", "--keyed: two features with one id in layer a", lambda: noshinka.neighbors(SAME_IDS, "a", keyed=True)),
            ("ids", "--ids: a feature without an id in layer a", lambda: noshinka.neighbors(noshinka.merge([SAME_IDS, SHARED_EDGE]), "a", keyed=True)),
            ("near", "bad steps 0", lambda: noshinka.check(SHARED_EDGE, near=0)),
            ("near", "bad steps 101", lambda: noshinka.check(SHARED_EDGE, ids=True, near=101)),
            ("listed", "bad listed -1", lambda: noshinka.check(SHARED_EDGE, near=1, listed=-1)),
            ("unit", "bad unit 0", lambda: noshinka.back(SQUARE, unit=0)),
            ("unit", "bad unit ", lambda: noshinka.back(SQUARE, unit="")),
            ("unit", "bad unit 1e-31", lambda: noshinka.back(SQUARE, unit="1e-31")),
            ("unit", "bad unit 1e-19", lambda: noshinka.back(SQUARE, unit="1e-19", quantize=9)),
            ("quantize", "bad quantize 1", lambda: noshinka.back(SQUARE, quantize=1)),
            ("quantize", f"bad quantize {2**40 + 1}", lambda: noshinka.back(SQUARE, quantize=2**40 + 1)),
            ("quantize", "quantize goes without like", lambda: noshinka.back(SQUARE, quantize=2, like=SQUARE)),
            ("scales", "bad reals scale:area=50", lambda: noshinka.back(SQUARE, scales={"area": 50})),
            ("rewind", "rewind is one of keep, rfc7946, d3, and not 'left'", lambda: noshinka.back(SQUARE, rewind="left")),
        ):
            with self.subTest(said), self.assertRaises(noshinka.Usage) as told:
                call()
            self.assertEqual((told.exception.argument, str(told.exception)), (argument, said))
            again = pickle.loads(pickle.dumps(told.exception))
            self.assertEqual((again.argument, str(again)), (argument, said))
        for step in (0, -1, "", "1m", 1e13, True, "degrees"):
            with self.assertRaises(noshinka.Usage):
                noshinka.build({"a": LEFT}, step=step)
        with self.assertRaises(TypeError):
            noshinka.round(LEFT, shape=1)


class Threads(unittest.TestCase):
    def test_answers_are_the_same(self):
        seen = []

        def run():
            for _ in range(200):
                seen.append(whole({"a": [LEFT, RIGHT]}) == SHARED_EDGE)

        threads = [threading.Thread(target=run) for _ in range(4)]
        for it in threads:
            it.start()
        for it in threads:
            it.join()
        self.assertEqual(seen, [True] * 800)

    def test_others_run_during_a_call(self):
        features = [point(n % 300, n // 300, id=n) for n in range(60000)]
        text = json.dumps({"type": "FeatureCollection", "features": features})
        ran_at, stop = [], threading.Event()

        def run():
            while not stop.is_set():
                ran_at.append(time.perf_counter())
                time.sleep(0.001)

        other = threading.Thread(target=run)
        other.start()
        try:
            begun = time.perf_counter()
            whole({"a": text})
            ended = time.perf_counter()
        finally:
            stop.set()
            other.join()
        quarter = (ended - begun) / 4
        self.assertTrue([it for it in ran_at if begun + quarter < it < ended - quarter])


if __name__ == "__main__":
    unittest.main()
