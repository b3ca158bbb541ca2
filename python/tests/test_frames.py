"""Tests with frames of geopandas; without it they are skipped. Maps that are built of frames are compared with those that the
programs build of the files that geopandas writes."""
import datetime
import json
import random
import tempfile
import unittest
import warnings
from decimal import Decimal
from pathlib import Path

import noshinka

from programs import ARE_THERE, ran

try:
    import geopandas
    import numpy
    import pandas
    from shapely.geometry import GeometryCollection, LineString, MultiLineString, MultiPoint, MultiPolygon, Point, Polygon, box
except ImportError:
    geopandas = None

DEGREES, METRES, FEET = "EPSG:4326", "EPSG:2056", "EPSG:2263"
SIDE = 4
COUNTS = ("features", "positions", "moved", "heights", "reals", "closed", "collapsed", "folded", "collections", "lost")


def tiles(seed, left=7.4, low=46.9, side=0.01, noise=0.0):
    """Quarters that share their borders, whose corners have all digits of a float. With noise each draws its own."""
    chance = random.Random(seed)
    corners = [[(left + side * (x + chance.uniform(-0.3, 0.3)), low + side * (y + chance.uniform(-0.3, 0.3))) for x in range(SIDE + 1)] for y in range(SIDE + 1)]
    rings = [[corners[y][x], corners[y][x + 1], corners[y + 1][x + 1], corners[y + 1][x]] for y in range(SIDE) for x in range(SIDE)]
    return [Polygon([(x + chance.uniform(-noise, noise), y + chance.uniform(-noise, noise)) for x, y in ring]) for ring in rings]


def frame(shapes, crs=DEGREES, front="q", **columns):
    """A frame of shapes, which have texts as labels, or numbers if there is no front."""
    index = [f"{front}{it}" for it in range(len(shapes))] if front else None
    return geopandas.GeoDataFrame(columns, geometry=shapes, index=index, crs=crs)


def maps():
    """Maps: what each is, its layers, the options of the call, and those of togrid."""
    quarters = tiles(1)
    people = {"people": [it * 1000 for it in range(16)], "name": [f"Quarter {it}" for it in range(16)]}
    area = [it / 8 for it in range(14)] + [None, 7.0]
    west, east = frame(quarters[:9], front="w"), frame(quarters[7:], front="e")
    metres = frame(tiles(2, 2_600_000, 1_200_000, 1000), METRES, **people)
    yield "degrees", {"a": frame(quarters, **people)}, {}, []
    yield "numbers as labels", {"a": frame(quarters, front="", **people)}, {}, []
    yield "two frames in a layer", {"a": [west, east]}, {}, []
    yield "two layers", {"b": west, "a": east}, {}, []
    yield "lines and points", {"a": frame([LineString(it.exterior.coords) for it in quarters]), "b": frame([it.centroid for it in quarters])}, {}, []
    yield "no reference system", {"a": frame(quarters, None)}, {}, []
    yield "metres", {"a": metres}, {}, ["--step", "0.01"]
    yield "metres, in steps of one", {"a": metres}, {"step": 1}, ["--step", "1"]
    yield "metres, a decimal step", {"a": metres}, {"step": Decimal("0.25")}, ["--step", "0.25"]
    yield "metres, a step of numpy", {"a": metres}, {"step": numpy.float32(0.5)}, ["--step", "0.5"]
    yield "metres, another unit", {"a": metres}, {"step": "0.1", "unit": "0.01"}, ["--step", "0.1", "--unit", "0.01"]
    yield "feet", {"a": frame(tiles(3, 980_000, 200_000, 1000), FEET)}, {"step": "0.1"}, ["--step", "0.1"]
    yield "numbers with a fraction", {"a": frame(quarters, area=area)}, {}, []
    yield "numbers as texts", {"a": frame(quarters, area=area)}, {"reals": "text"}, ["--reals", "text"]
    yield "scaled numbers", {"a": frame(quarters, area=area)}, {"scales": {"area": 100}}, ["--reals", "scale:area=100"]
    yield "a column as ids", {"a": frame(quarters, code=[f"c{it % 7}" for it in range(16)])}, {"id": "code"}, ["--id", "code"]
    yield "noisy borders", {"a": frame(tiles(4, noise=1.2e-6))}, {"snap": 3}, ["--snap", "3"]
    yield "turned rings", {"a": frame([it.difference(it.centroid.buffer(0.001)) for it in quarters])}, {"rewind": "d3"}, ["--rewind", "d3"]
    yield "no shapes", {"a": frame([None, MultiPoint([(1, 2), (3, 4)]), Polygon(), None])}, {}, []
    yield "heights", {"a": frame([LineString([(0, 0, 540.5), (1, 1, 541)]), Point(1, 2, 3)])}, {}, []
    yield "collections", {"a": frame([GeometryCollection([quarters[0], quarters[1].centroid]), MultiPolygon(quarters[5:11:5])])}, {}, []
    yield "what collapses", {"a": frame([*quarters, box(7.5, 46.9, 7.5001, 46.9001)])}, {"step": "0.001", "collapsed": "drop"}, ["--step", "0.001", "--collapsed", "drop"]
    yield "a column of shapes", {"a": frame(quarters).geometry}, {}, []


def written(frame):
    """The text that geopandas writes of a frame, where labels that are numbers are written as numbers."""
    text = json.loads(frame.to_json())
    for feature, label in zip(text["features"], frame.index):
        feature["id"] = label
    return json.dumps(text)


def as_list(held):
    return held if isinstance(held, list) else [held]


@unittest.skipIf(geopandas is None, "there is no geopandas (Debian: python3-geopandas)")
class Maps(unittest.TestCase):
    def compare(self, layers, built, words):
        """Compares what was built of frames, and its report, with what togrid builds of their files."""
        with tempfile.TemporaryDirectory() as folder:
            files = []
            for name, held in layers.items():
                for it in as_list(held):
                    path = f"{folder}/{len(files)}.json"
                    Path(path).write_text(written(it), encoding="utf-8")
                    files.append(f"{name}={path}")
            self.assertEqual(built, ran("togrid", "--build", "-q", "--report", f"{folder}/report", *words, *files))
            report = json.loads(Path(f"{folder}/report").read_bytes(), parse_float=Decimal)
        came = built.report
        self.assertEqual((came.step, came.shared, came.nearly_shared), (report["step"], report["shared"], report["nearly_shared"]))
        self.assertEqual((came.joined, came.too_wide), (report.get("joined", 0), report.get("too_wide", 0)))
        pair = came.first_nearly_shared and [list(it) for it in came.first_nearly_shared]
        self.assertEqual(pair, report["first_nearly_shared"])
        for new, old in zip(came.maps, report["files"]):
            self.assertEqual({it: getattr(new, it) for it in COUNTS}, {it: old[it] for it in COUNTS})
            self.assertEqual((new.furthest_steps, new.furthest), (Decimal(old["furthest_steps"]), Decimal(old["furthest"])))
            self.assertEqual(([it._asdict() for it in new.fixed], len(new.equal)), (old["fixed"], old["equal"]))
        self.assertEqual(len(came.maps), len(report["files"]))

    @unittest.skipUnless(ARE_THERE, "there are no programs")
    def test_frames_give_the_bytes_of_files(self):
        seen = set()
        for title, layers, options, words in maps():
            with self.subTest(title):
                built = noshinka.build(layers, **options)
                self.compare(layers, built, words)
                self.assertEqual(noshinka.merge([built]), built)
                seen.add(built)
        self.assertGreaterEqual(len(seen), 20)

    @unittest.skipUnless(ARE_THERE, "there are no programs")
    def test_whole_numbers(self):
        squares = frame([box(x * 10, y * 10, x * 10 + 10, y * 10 + 10) for x in range(3) for y in range(3)], None, number=range(9))
        wests, easts = squares[:5], squares[3:]
        for layers in ({"a": squares}, {"a": [wests, easts]}, {"b": easts, "a": wests}):
            built = noshinka.build(layers, grid=(10, 10, 0, 0))
            texts = {name: [json.loads(written(it), parse_float=lambda it: int(float(it))) for it in as_list(held)] for name, held in layers.items()}
            self.assertEqual(built, noshinka.build(texts, grid=(10, 10, 0, 0)))
            with tempfile.TemporaryDirectory() as folder:
                files = [(name, it) for name, held in texts.items() for it in held]
                for number, (_, it) in enumerate(files):
                    Path(f"{folder}/{number}").write_text(json.dumps(it), encoding="utf-8")
                words = [f"{name}={folder}/{number}" for number, (name, _) in enumerate(files)]
                self.assertEqual(built, ran("topotool", "build", "--grid", "10,10,0,0", *words))
        parts = [noshinka.build({"a": it}, grid=(10, 10, 0, 0)) for it in (wests, easts)]
        self.assertEqual(noshinka.merge(parts), noshinka.build({"a": squares}, grid=(10, 10, 0, 0)))


@unittest.skipIf(geopandas is None, "there is no geopandas (Debian: python3-geopandas)")
class Frames(unittest.TestCase):
    def there_and_back(self, given, **options):
        return noshinka.to_geodataframe(noshinka.build({"a": given}, **options), "a", given.crs).loc[given.index]

    def test_there_and_back(self):
        columns = {"people": range(16), "area": [it / 8 for it in range(16)], "name": [f"Quarter {it}" for it in range(16)], "some": [None, 0.5] * 8}
        for given, digits, options in (
            (frame(tiles(1), **columns), 6, {}),
            (frame(tiles(1), front="", **columns), 6, {}),
            (frame(tiles(2, 2_600_000, 1_200_000, 1000), METRES, **columns), 2, {}),
            (frame(tiles(3, 980_000, 200_000, 1000), FEET, **columns), 1, {"step": 0.1}),
        ):
            came = self.there_and_back(given, **options)
            self.assertEqual((came.index.tolist(), came.crs), (given.index.tolist(), given.crs))
            for name in columns:
                self.assertEqual(came[name].dtype, given[name].dtype)
                pandas.testing.assert_series_equal(came[name], given[name])
            for old, new in zip(given.geometry, came.geometry):
                self.assertEqual({*new.exterior.coords}, {(round(x, digits), round(y, digits)) for x, y in old.exterior.coords})

    def test_shapes_of_each_kind(self):
        shapes = [
            Point(1, 2), MultiPoint([(1, 2), (3, 4)]), LineString([(0, 0), (0.5, 0.25)]), MultiLineString([[(0, 0), (1, 1)], [(2, 2), (3, 3)]]),
            box(0, 0, 9, 9).difference(box(1, 1, 2, 2)), MultiPolygon([box(0, 0, 1, 1), box(5, 5, 7, 7).difference(box(5.5, 5.5, 6, 6))]), None,
        ]  # fmt: skip
        came = self.there_and_back(frame(shapes))
        self.assertEqual([it if it is None else it.geom_type for it in came.geometry], [it if it is None else it.geom_type for it in shapes])
        self.assertTrue(all(new.equals(old) for new, old in zip(came.geometry, shapes) if old is not None))

    def test_other_units(self):
        text = noshinka.build({"a": Point(2_600_000.25, 1_200_000)}, step=0.25, unit=0.25)
        self.assertEqual(noshinka.to_geodataframe(text, "a", unit=0.25).geometry[0].coords[0], (2_600_000.25, 1_200_000))

    def test_numbers(self):
        text = noshinka.build({"a": frame([Point(0, 0), Point(1, 1)], rate=[0.5, 2], code=["1.5", "x"], whole=["1", "2"])})
        self.assertEqual(noshinka.to_geodataframe(text, "a")[["code", "rate", "whole"]].values.tolist(), [["1.5", 0.5, "1"], ["x", 2.0, "2"]])
        self.assertEqual(noshinka.to_geodataframe(text, "a", numbers=False)["rate"].tolist(), ["0.5", 2])
        for numbers in (["code"], "code"):
            named = noshinka.to_geodataframe(text, "a", numbers=numbers)
            self.assertEqual((named["code"].tolist(), named["rate"].tolist()), ([1.5, "x"], ["0.5", 2]))

    def test_large_numbers(self):
        text = noshinka.build({"a": frame([Point(0, 0), Point(1, 1)], n=pandas.array([2**60 + 1, None], "Int64"), m=pandas.array([7, None], "Int64"))})
        came = noshinka.to_geodataframe(text, "a")
        self.assertEqual((came["n"].tolist(), came["m"].dtype), ([2**60 + 1, None], float))

    def test_no_features(self):
        self.assertEqual(len(noshinka.to_geodataframe(noshinka.build({"a": frame([])}), "a", DEGREES)), 0)
        came = noshinka.to_geodataframe(noshinka.build({"a": [Point(0, 0), Point(1, 1)]}), "a", DEGREES)
        self.assertEqual((came.index.tolist(), list(came.columns), came.crs), ([0, 1], ["geometry"], DEGREES))

    def test_rows_whose_labels_are_not_unique_stay(self):
        given = geopandas.GeoDataFrame({"n": [1, 1, 1]}, geometry=[Point(1, 2)] * 3, index=[5, 5, 6], crs=DEGREES)
        with warnings.catch_warnings():
            warnings.simplefilter("error", UserWarning)
            came = noshinka.to_geodataframe(noshinka.build({"a": given}), "a")
        self.assertEqual((came.index.tolist(), came["n"].tolist()), ([1, 2, 3], [1, 1, 1]))

    def test_values(self):
        given = frame(
            [Point(0, 0), Point()], day=[datetime.date(2020, 2, 29), None], time=pandas.to_datetime(["2020-02-29T12:30:00", None]),
            zone=pandas.to_datetime(["2020-02-29T12:30:00", None]).tz_localize("Europe/Zurich"), month=pandas.period_range("2020-02", periods=2, freq="M"),
            small=numpy.array([1, 2], "int8"), some=pandas.array([7, None], "Int64"), money=[Decimal("8810.04"), Decimal(5)], kind=pandas.Categorical(["x", "y"]),
        )  # fmt: skip
        first, second = noshinka.round(given).json()["features"]
        self.assertEqual(first["properties"], {
            "day": "2020-02-29", "time": "2020-02-29T12:30:00", "zone": "2020-02-29T12:30:00+01:00", "month": "2020-02", "small": 1, "some": 7,
            "money": "8810.04", "kind": "x",
        })  # fmt: skip
        self.assertEqual([second["properties"][it] for it in ("day", "time", "zone", "some", "money")], [None, None, None, None, 5])
        self.assertIsNone(second["geometry"])
        self.assertIsNone(noshinka.round(given.geometry).json()["features"][1]["geometry"])

    def test_values_of_dicts(self):
        properties = {"day": numpy.datetime64("2020-02-29"), "days": numpy.array(["2020-02-29T12:30"], "datetime64[s]"), "none": [pandas.NaT, pandas.NA]}
        text = noshinka.round({"type": "Feature", "geometry": None, "properties": properties})
        wanted = {"day": "2020-02-29", "days": ["2020-02-29T12:30:00"], "none": [None, None]}
        self.assertEqual(text.json()["features"][0]["properties"], wanted)

    def test_what_json_has_no_form_for(self):
        for given, said in (
            (frame([Point(0, 0)] * 2, n=[1, float("inf")]), "n of feature q1: Out of range float values are not JSON compliant"),
            (frame([Point(0, 0)], n=[{1, 2}]), "n of feature q0: {1, 2} is no value of JSON"),
            (frame([Point(0, 0)], n=[Decimal("0.1234567890123456789")]), "n of feature q0: Decimal('0.1234567890123456789') is no value of JSON"),
        ):
            with self.assertRaises(noshinka.Usage) as told:
                noshinka.build(given)
            self.assertEqual((told.exception.argument, str(told.exception).partition(":")[0]), ("layers", said.partition(":")[0]))

    def test_reference_systems(self):
        feet, metres, degrees = frame([Point(1e6, 2e5)], FEET), frame([Point(2.6e6, 1.2e6)], METRES), frame([Point(7, 47)])
        for layers, argument, said in (
            (feet, "step", "a frame is in US survey foot (NAD83 / New York Long Island (ftUS)): say step=, as step=0.01 for a hundredth"),
            ({"a": degrees, "b": metres}, "layers", "frames in WGS 84 and in CH1903+ / LV95: to_crs brings them together"),
        ):
            with self.assertRaises(noshinka.Usage) as told:
                noshinka.build(layers)
            self.assertEqual((told.exception.argument, str(told.exception)), (argument, said))
        with self.assertRaises(noshinka.Usage):
            noshinka.build([degrees, metres], step=1)
        with self.assertRaises(noshinka.Fault) as told:
            noshinka.build(frame([Point(2.6e6, 1.2e6)], None))
        self.assertEqual(told.exception.number, 6)

    def test_a_property_that_is_called_geometry(self):
        text = noshinka.build({"type": "Feature", "properties": {"geometry": "x"}, "geometry": {"type": "Point", "coordinates": [1, 2]}})
        with self.assertRaises(noshinka.Usage) as told:
            noshinka.to_geodataframe(text, "layer")
        self.assertEqual(told.exception.argument, "layer")


if __name__ == "__main__":
    unittest.main()
