"""TopoJSON topologies built, merged and queried in memory, by a library that is proved.

    >>> import noshinka
    >>> west = {"type": "Polygon", "coordinates": [[[7.4, 46.9], [7.5, 46.9], [7.5, 47], [7.4, 47], [7.4, 46.9]]]}
    >>> east = {"type": "Polygon", "coordinates": [[[7.5, 46.9], [7.6, 46.9], [7.6, 47], [7.5, 47], [7.5, 46.9]]]}
    >>> country = noshinka.merge([noshinka.build({"districts": west}), noshinka.build({"districts": east})])
    >>> noshinka.neighbors(country, "districts").json()
    [[1], [0]]

A text is `bytes`, `bytearray`, `memoryview` or `str`, a path, whose file is read, a `dict` as `json.loads` makes it, or any
object with `__geo_interface__`, as those of shapely and geopandas. The index of a frame becomes the ids. If a label comes
again, the rows' numbers from 1 do, so that equal rows stay. Dates become texts, and missing values null.

`build` and `round` round coordinates to whole numbers of steps, as the command togrid does: the answer counts millionths of the
map's unit. All other calls do what topotool does; they take topologies of whole numbers, as `build` answers.
`back` and `to_geodataframe` lead back to degrees or metres.

Each call returns `Answer`, which is `bytes` with a method `json()`, or raises `Fault`, `Usage` or `MemoryError`. Calls may
be made from any number of threads, and other threads run meanwhile. None may be made in the child of a fork of a process
that had threads: with `multiprocessing`, use the start methods `spawn` or `forkserver`.
"""
from __future__ import annotations

import json
import operator
import warnings
from contextlib import suppress
from decimal import Decimal, InvalidOperation
from fractions import Fraction
from typing import TYPE_CHECKING, Any, Dict, Iterable, Literal, Mapping, Optional, Sequence, Tuple, Union, cast, overload

from ._calls import (
    CALLS, DONE, GEOJSON, TOPOLOGY, BackOptions, DiffOptions, Grid, MeshOptions, NeighborsOptions, QualityOptions, Reading, RoundOptions,
    changes_lent, ended, lent, options, scales_lent, sources_lent, texts_lent,
)  # fmt: skip
from ._checked import Checked, LayerIds, checked_of
from ._errors import Fault, Usage
from ._frames import crs_step, frame_of
from ._report import Fixed, MapReport, Report, report_of
from ._texts import Answer, Layers, Text, given_of, name_of, named

if TYPE_CHECKING:
    from geopandas import GeoDataFrame  # type: ignore

__all__ = [
    "Answer", "Checked", "Fault", "Fixed", "LayerIds", "Layers", "MapReport", "Report", "Rounded", "Text", "Usage", "back", "build",
    "check", "diff", "edit", "faults", "feature", "info", "merge", "mesh", "neighbors", "remove", "round", "to_geodataframe",
]  # fmt: skip
__version__ = "0.1.0"

Step = Union[str, int, float, Decimal]

_EDGES = {"all": 0, "interior": 1, "exterior": 2}
_BY_PROPERTY = 3
_KINDS = {"add": 0, "take": 1}
_IDS, _KEYED_IDS = 1, 2
_NAMED = 2
_OWN, _LIKE, _COUNT = 0, 1, 2
_ROUND = {
    "reals": {"whole": 0, "text": 1, "refuse": 2},
    "heights": {"drop": 0, "refuse": 1},
    "unclosed": {"close": 0, "refuse": 1},
    "collapsed": {"null": 0, "drop": 1, "refuse": 2},
    "folded": {"split": 0, "refuse": 1},
    "collections": {"split": 0, "refuse": 1},
    "rewind": {"keep": 0, "rfc7946": 1, "d3": 2},
}
_MILLIONTH = "0.000001"
_GREATEST_SIZE = 10**12  # of the digits of a step
_POWERS = [10**it for it in range(13)]
_GREATEST_COUNT = 2**40
_GREATEST_NUMBER = 2**32 - 1
_LEAST_GRID, _GREATEST_GRID = -(2**63), 2**63 - 1


class Rounded(Answer):
    """An answer, with a report of what was moved, lost or changed, if that was asked."""

    report: Optional[Report] = None


def _choice(argument: str, value: str, choices: Mapping[str, int]) -> int:
    if value not in choices:
        raise Usage(f"{argument} is one of {', '.join(choices)}, and not {value!r}", argument)
    return choices[value]


def _within(argument: str, value: int, least: int, most: int, name: str = "") -> int:
    number = operator.index(value)
    if not least <= number <= most:
        raise Usage(f"bad {name or argument} {value}", argument)
    return number


def _grid_of(grid: Sequence[int]) -> Grid:
    """The numbers of a grid, as a call takes them."""
    numbers = [int(it) for it in grid]
    if len(numbers) != 4 or numbers != list(grid) or not all(_LEAST_GRID <= it <= _GREATEST_GRID for it in numbers):
        raise Usage(*_bad_grid(grid))
    return Grid(*numbers)


def _bad_grid(grid: Sequence[int]) -> Tuple[str, str]:
    return f"bad grid {','.join(map(str, grid))}", "grid"


def _is_size(numeral: str) -> bool:
    """Whether a numeral may be that of a step or a unit."""
    try:
        sign, digits, exponent = Decimal(numeral).as_tuple()
    except InvalidOperation:
        return False
    return not sign and isinstance(exponent, int) and 0 < Decimal((0, digits, max(exponent, 0))) <= _GREATEST_SIZE


def _bad_step(step: str, unit: str) -> Tuple[str, str]:
    """Which of a step and a unit is wrong, as togrid says it."""
    if not _is_size(step):
        return f"bad step {step}", "step"
    if not _is_size(unit):
        return f"bad unit {unit}", "unit"
    return f"bad step {step}: --unit says what the numbers of the output count", "step"


def _scales(scales: Optional[Mapping[str, int]]) -> Dict[str, Any]:
    """The members of options for the properties that are scaled."""
    for name, power in (scales or {}).items():
        if power not in _POWERS:
            raise Usage(f"bad reals scale:{name}={power}", "scales")
    return {"scales": scales_lent(scales or {}), "scale_count": len(scales or {})}


def _answer(*words: Any, **named: Any) -> Answer:
    return Answer(ended(*words, **named)[1])


def _rounded(format: int, layers: Layers, step: Optional[Step], asked: Mapping[str, Any]) -> Rounded:
    """What togrid makes of texts: a topology, or GeoJSON."""
    pairs = list(named(layers))
    names = {name is not None for name, _ in pairs}
    texts = [given_of(held, name_of(held) if name is None else name, False) for name, held in pairs]
    kinds = {asked["seq"] or it.is_sequence for it in texts}
    if len(names) > 1:
        raise Usage("layers have all a name, or none", "layers")
    if len(kinds) > 1:
        raise Usage("sequences and other texts need a call each", "seq")
    found = crs_step([held for _, held in pairs], step is not None)
    given = found if step is None else str(step)
    shown, unit = (_MILLIONTH if it is None else str(it) for it in (given, asked["unit"]))
    if not (_is_size(shown) and _is_size(unit)):
        raise Usage(*_bad_step(shown, unit))
    made = options(
        RoundOptions,
        **_scales(asked["scales"]),
        step=given,
        unit=unit,
        layer=asked["layer"],
        scope=int(asked["layer"] is not None),
        id=asked["id"],
        ids=int(asked["id"] is not None),
        snap=_within("snap", asked["snap"], 0, 10),
        number=int(asked["number"]),
        sequences=int(True in kinds),
        renames=int(True in names),
        format=format,
        report=int(asked["report"]),
        **{name: _choice(name, asked[name], choices) for name, choices in _ROUND.items()},
    )
    size = 2 * sum(len(it.text) for it in texts) + 4096
    reading = Reading(() if True in kinds else (GEOJSON, TOPOLOGY), is_togrid=True, has_step=given is not None)
    _, room = ended(
        CALLS.round, size, made, sources_lent(texts), len(texts), texts=texts, reading=reading, wrong=_bad_step(shown, unit)
    )
    if not asked["report"]:
        return Rounded(room)
    end = cast(bytearray, room.obj).index(b"\n")
    answer = Rounded(room[end + 1 :])
    answer.report = report_of(json.loads(bytes(room[:end])), texts, shown, int(Fraction(shown) / Fraction(unit)))
    for it in answer.report.maps if format == TOPOLOGY else ():
        if it.equal:
            warnings.warn(
                f"layer {it.layer}: {len(it.equal)} features equal others and are there once, the first is {it.equal[0]}; "
                "number=True keeps them",
                stacklevel=3,
            )
    return answer


def build(
    layers: Layers,
    grid: Optional[Sequence[int]] = None,
    step: Optional[Step] = None,
    *,
    unit: Optional[Step] = None,
    snap: int = 0,
    id: Optional[str] = None,
    number: bool = False,
    layer: Optional[str] = None,
    reals: str = "whole",
    scales: Optional[Mapping[str, int]] = None,
    heights: str = "drop",
    unclosed: str = "close",
    collapsed: str = "null",
    folded: str = "split",
    collections: str = "split",
    rewind: str = "keep",
    seq: bool = False,
    report: bool = True,
) -> Rounded:
    """Builds the topology of texts, rounded to whole numbers of steps: what `togrid --build` prints.

    `layers` is one text, a list of texts, or a mapping from names of layers to texts or lists of them; or pairs of a name and a
    text, where names may come again. Without a name, a layer is called as its file, else `layer`. Texts are GeoJSON, or topologies
    of any tool, whose objects are layers.

    `step` is a number in the map's unit, as `0.25` or `"1e-6"`. Without it, frames in metres have steps of 0.01, and all else
    is in degrees, in steps of 0.000001. Frames in another unit, as feet, are refused then. The other options are those of togrid,
    which docs/TOGRID.md explains; `scales={"area": 100}` is `--reals scale:area=100`. The `report` of the answer says what was
    moved, lost or changed, and a warning that equal features are there once. With `report=False` there is neither, which is faster.

    If `grid` is given, which is the scale of x and y and the translation of x and y, nothing is rounded, as by `topotool build`:
    coordinates are whole numbers on the grid, and of dicts and objects also floats such as `1.0`.

    The same features on the same grid give the same bytes, in whatever order they come. Raises `Fault` for the first text that is
    refused.

        >>> import noshinka
        >>> place = {"type": "Point", "coordinates": [7.4386325, 46.9510827]}
        >>> places = noshinka.build({"places": place})
        >>> places.json()["bbox"], places.report.maps[0].moved
        ([7438633, 46951083, 7438633, 46951083], 1)
    """
    asked = {name: value for name, value in locals().items() if name in build.__kwdefaults__}
    if grid is None:
        return _rounded(TOPOLOGY, layers, step, asked)
    others = [name for name, value in asked.items() if value != build.__kwdefaults__[name]]
    if step is not None or others:
        raise Usage(f"grid goes without {'step' if step is not None else others[0]}: nothing is rounded", "grid")
    numbers, reading = _grid_of(grid), Reading((GEOJSON,), _grid_of(grid))
    texts = [given_of(held, name_of(held) if name is None else name) for name, held in named(layers)]
    size = sum(len(it.text) for it in texts) + 1024
    words = numbers, sources_lent(texts), len(texts)
    return Rounded(ended(CALLS.build, size, *words, texts=texts, reading=reading, wrong=_bad_grid(grid))[1])


def round(layers: Layers, step: Optional[Step] = None, **options: Any) -> Rounded:
    """Rounds texts to whole numbers of steps, as togrid prints them: a FeatureCollection of all features, in their order.

    The options are those of `build`. If the `unit` is the step, the answer counts steps, and `build` takes it on the grid
    `(1, 1, 0, 0)`.

        >>> import noshinka
        >>> noshinka.round({"type": "Point", "coordinates": [2600000.25, 1200000]}, 0.5, unit=0.5).json()["features"][0]["geometry"]
        {'coordinates': [5200001, 2400000], 'type': 'Point'}
    """
    unknown = options.keys() - build.__kwdefaults__.keys()
    if unknown:
        raise TypeError(f"round() takes no {', '.join(sorted(unknown))}")
    return _rounded(GEOJSON, layers, step, {**build.__kwdefaults__, **options})


def to_geodataframe(
    text: Text, layer: str, crs: Any = None, *, unit: Step = _MILLIONTH, numbers: Union[bool, Iterable[str]] = True
) -> GeoDataFrame:
    """Returns a layer of a topology as a GeoDataFrame, in the map's unit; ids become the index.

    The coordinates are the floats that are nearest to the whole numbers of the topology, times `unit`. Texts of columns of numbers
    become floats, or decimal texts of the properties that `numbers` names. A topology says nothing of its reference system: name it
    by `crs`.
    """
    return frame_of(feature(text, layer).json()["features"], crs, Decimal(str(unit)), numbers)


def back(
    text: Text,
    *,
    unit: Optional[Step] = None,
    like: Optional[Text] = None,
    quantize: Optional[int] = None,
    numbers: Union[bool, Iterable[str]] = False,
    scales: Optional[Mapping[str, int]] = None,
    rewind: str = "d3",
) -> Answer:
    """Returns a topology in the map's unit again, for other tools: what `togrid --back` prints.

    The options are those of togrid, which docs/TOGRID.md explains. `unit` is the one that `build` was called with. The transform stays,
    or is that of the topology `like`, or has `quantize` numbers along each axis. `numbers` names the properties whose decimal texts
    become numbers; with True those of all columns of numbers do. By `scales` numbers are divided, and by `rewind` rings are turned,
    `"rfc7946"` or `"d3"`, or not, `"keep"`. Raises `Fault` with the place 1 if `like` is refused.

        >>> import noshinka
        >>> places = noshinka.build({"places": {"type": "Point", "coordinates": [7.4386325, 46.9510827]}})
        >>> noshinka.back(places).json()["bbox"]
        [7.438633, 46.951083, 7.438633, 46.951083]
    """
    if like is not None and quantize is not None:
        raise Usage("quantize goes without like", "quantize")
    shown = _MILLIONTH if unit is None else str(unit)
    wrong = f"bad unit {shown}", "unit"
    if not _is_size(shown):
        raise Usage(*wrong)
    given = [given_of(it) for it in (text, like) if it is not None]
    names = [] if isinstance(numbers, bool) else [numbers] if isinstance(numbers, str) else list(numbers)
    made = options(
        BackOptions,
        **_scales(scales),
        unit=shown,
        like=None if like is None else given[1].text,
        properties=texts_lent(it.encode() for it in names),
        property_count=len(names),
        count=0 if quantize is None else _within("quantize", quantize, 2, _GREATEST_COUNT),
        numbers=int(numbers) if isinstance(numbers, bool) else _NAMED,
        transform=_LIKE if like is not None else _OWN if quantize is None else _COUNT,
        rewind=_choice("rewind", rewind, _ROUND["rewind"]),
    )
    size = 2 * len(given[0].text) + 1024
    return _answer(CALLS.back, size, made, *lent(given[0].text), texts=given, reading=Reading(is_togrid=True), wrong=wrong)


def merge(texts: Iterable[Text]) -> Answer:
    """Merges topologies: the canonical text of the union of their features, layer by layer.

    The order of the texts makes no difference to the bytes, nor does a text that comes twice. Raises `Fault` for the
    first text that is refused, for one on another grid (17), and where there is no text (18).
    """
    given = [given_of(it) for it in texts]
    held = [it.text for it in given]
    return _answer(CALLS.merge, sum(map(len, held)) + 1024, texts_lent(held), len(held), texts=given)


def remove(text: Text, removed: Text) -> Answer:
    """Takes the features of the topology `removed` out of the topology `text`. Both need the same grid."""
    given = given_of(text), given_of(removed)
    return _answer(CALLS.remove, len(given[0].text) + 1024, *lent(given[0].text), *lent(given[1].text), texts=given)


def edit(text: Text, changes: Iterable[Tuple[str, Text]]) -> Answer:
    """Changes a topology: each change is `("add", other)` or `("take", other)`, where `other` is a topology on the same grid.

    The answer is what `merge` and `remove` answer one after the other, and the text is read and written once.

        >>> import noshinka
        >>> one, two = ({"type": "Point", "coordinates": [it, it]} for it in (1, 2))
        >>> one, two = noshinka.build({"places": one}), noshinka.build({"places": two})
        >>> noshinka.edit(one, [("add", two), ("take", one)]) == two
        True
    """
    pairs = [(_choice("changes", kind, _KINDS), given_of(other)) for kind, other in changes]
    given = [given_of(text), *(it for _, it in pairs)]
    size = sum(len(it.text) for it in given) + 1024
    lists = changes_lent((kind, it.text) for kind, it in pairs)
    return _answer(CALLS.edit, size, *lent(given[0].text), lists, len(pairs), texts=given)


@overload
def check(text: Text) -> bool: ...
@overload
def check(text: Text, *, ids: Literal[True], near: Optional[int] = None, listed: int = 10) -> Checked: ...
@overload
def check(text: Text, *, ids: bool = False, near: int, listed: int = 10) -> Checked: ...
@overload
def check(text: Text, *, ids: bool = False, near: Optional[int] = None, listed: int = 10) -> Union[bool, Checked]: ...


def check(text: Text, *, ids: bool = False, near: Optional[int] = None, listed: int = 10) -> Union[bool, Checked]:
    """Whether a topology's text is canonical: byte for byte what `merge` of it alone returns.

    With `ids` or `near` the answer is `Checked`, which is true if nothing is wrong. `ids` asks which features have no id, or one that
    occurs more than once in their layer; `near`, from 1 to 100, for pairs of vertices that are at most so many grid steps apart,
    where one feature has only the one and another only the other: borders that were drawn twice. The first of them are `listed`.

        >>> import noshinka
        >>> places = noshinka.build({"places": {"type": "MultiPoint", "coordinates": [[7.4, 46.9], [7.5, 46.9]]}})
        >>> noshinka.check(places)
        True
        >>> noshinka.check(places, ids=True).ids
        (LayerIds(layer='places', missing=(0,), repeated=()),)
    """
    given = given_of(text)
    if not ids and near is None:
        return ended(CALLS.check, 1024, *lent(given.text), texts=[given])[0] == DONE
    made = options(
        QualityOptions,
        ids=int(ids),
        near=0 if near is None else _within("near", near, 1, 100, "steps"),
        listed=_within("listed", listed, 0, _GREATEST_NUMBER),
    )
    return checked_of(_answer(CALLS.quality, 4096, made, *lent(given.text), texts=[given]).json())


def faults(text: Text, grid: Optional[Sequence[int]] = None) -> Answer:
    """Returns all faults of a text, as the text of a list of objects: `[]` if there are none.

    Of a topology's text; or, if `grid` is given, of a GeoJSON text on that grid. The members of a fault are `line` and
    `column`, both from 1, `number`, `name` and `path`; where the fault is in a feature with an id, `id`; and for a number in
    properties that is no integer (13), the `member`. The faults are in order: the first is the one that `build` or `merge`
    raises.

        >>> import noshinka
        >>> noshinka.faults('{"type":"Point","coordinates":[0.5,1.5]}', grid=(1, 1, 0, 0)).json()[1]["path"]
        '$/coordinates/1'
    """
    numbers = (1, 1, 0, 0) if grid is None else grid
    words = TOPOLOGY if grid is None else GEOJSON, _grid_of(numbers)
    return _answer(CALLS.faults, 4096, *lent(given_of(text).text), *words, wrong=_bad_grid(numbers))


def feature(text: Text, layer: str) -> Answer:
    """Returns the features of a layer as the text of a GeoJSON FeatureCollection."""
    given, name = given_of(text), layer.encode()
    size = 3 * len(given.text) + 1024
    return _answer(CALLS.feature, size, *lent(given.text), *lent(name), texts=[given], layer=layer)


def mesh(text: Text, layer: Optional[str] = None, edges: str = "all", by: Optional[str] = None) -> Answer:
    """Returns borders as the text of a GeoJSON MultiLineString, each stretch once.

    Those of a layer, or of all layers; `edges` is `"all"`, `"interior"` (between two features) or `"exterior"` (of one
    feature alone). `by` names a property: then it is the borders between features whose values of it differ.
    """
    if by is not None and edges != "all":
        raise Usage("by goes without edges", "by")
    given, kind = given_of(text), _choice("edges", edges, _EDGES)
    made = options(
        MeshOptions, layer=layer, scope=int(layer is not None), property=by, edges=kind if by is None else _BY_PROPERTY
    )
    return _answer(CALLS.mesh, 2 * len(given.text) + 1024, made, *lent(given.text), texts=[given], layer=layer)


def neighbors(text: Text, layer: str, ids: bool = False, by: Optional[str] = None, keyed: bool = False) -> Answer:
    """Returns which features of a layer share a border, as the text of a list of lists.

    There is a list for each feature, in the order of `feature`: the places of the others from 0, or with `ids` their ids. With
    `keyed` it is an object, from each id to the ids of the others. `by` names a property: then only neighbours whose value of it
    differs count. Raises `Usage` if ids are asked for and a feature has none, or if keys are and two ids are one.
    """
    given, name = given_of(text), layer.encode()
    lists = _KEYED_IDS if keyed else _IDS if ids else 0
    made = options(NeighborsOptions, property=by, kind=int(by is not None), lists=lists)
    words = len(given.text) + 1024, made, *lent(given.text), *lent(name)
    if not keyed:
        wrong = f"--ids: a feature without an id in layer {layer}", "ids"
        return _answer(CALLS.neighbors, *words, texts=[given], layer=layer, wrong=wrong)
    with suppress(Usage):
        return _answer(CALLS.neighbors, *words, texts=[given], layer=layer)
    neighbors(given.text, layer, ids=True)  # Raises if a feature has none, which comes first.
    raise Usage(f"--keyed: two features with one id in layer {layer}", "keyed")


def diff(
    text: Text, other: Text, layer: Optional[str] = None, key: Optional[str] = None, lines: bool = False
) -> Answer:
    """Returns which features were removed, added and changed from the topology `text` to the topology `other`.

    Of one layer, or of all. Features pair by their ids, or by the value of the property `key`. The answer is the text of a
    JSON object, or lines for people, as `topotool diff` prints them. Both topologies need the same grid.
    """
    given = given_of(text), given_of(other)
    made = options(
        DiffOptions, layer=layer, scope=int(layer is not None), key=key, pairing=int(key is not None), json=int(not lines)
    )
    size = sum(len(it.text) for it in given) + 1024
    return _answer(CALLS.diff, size, made, *lent(given[0].text), *lent(given[1].text), texts=given, layer=layer)


def info(text: Text, lines: bool = False) -> Answer:
    """Returns the grid, the bounding box and counts, as the text of a JSON object, or as lines for people."""
    given = given_of(text)
    return _answer(CALLS.info, 4096, *lent(given.text), int(not lines), texts=[given])
