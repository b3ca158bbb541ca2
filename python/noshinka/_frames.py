"""Frames of geopandas, of what calls answer."""
from __future__ import annotations

import re
from decimal import Decimal
from typing import TYPE_CHECKING, Any, Dict, Iterable, List, Optional, Sequence, Union

from ._errors import Usage

if TYPE_CHECKING:
    from geopandas import GeoDataFrame  # type: ignore

_DECIMAL = re.compile(r"-?(?:0|[1-9][0-9]*)(?:\.[0-9]+)?(?:[eE][+-]?[0-9]+)?")
_EXACT = 2**53  # up to which all whole numbers are floats
_STEPS: Dict[str, Optional[str]] = {"degree": None, "metre": "0.01"}
_DEPTHS = {"Point": 0, "MultiPoint": 0, "LineString": 0, "MultiLineString": 1, "Polygon": 1, "MultiPolygon": 2}


def crs_step(texts: Iterable[Any], is_given: bool) -> Optional[str]:
    """The step for what says its reference system: none for degrees, a hundredth for metres."""
    systems = [it.crs for it in texts if hasattr(getattr(it, "crs", None), "axis_info")]
    for it in systems:
        if it != systems[0]:
            raise Usage(f"frames in {systems[0].name} and in {it.name}: to_crs brings them together", "layers")
    if is_given or not systems:
        return None
    unit = next((it.unit_name for it in systems[0].axis_info), "an unknown unit")
    if unit not in _STEPS:
        raise Usage(f"a frame is in {unit} ({systems[0].name}): say step=, as step=0.01 for a hundredth", "step")
    return _STEPS[unit]


def _is_decimal(value: Any) -> bool:
    return isinstance(value, str) and _DECIMAL.fullmatch(value) is not None


def _are_numbers(values: Sequence[Any]) -> bool:
    """Whether a column is of numbers with a fraction: nulls, whole numbers and decimal texts, of which one has a point or an exponent."""
    texts = [it for it in values if it is not None and type(it) is not int]
    return all(map(_is_decimal, texts)) and any(not it.lstrip("-").isdigit() for it in texts)


def _columns(rows: Sequence[Dict[str, Any]], numbers: Union[bool, Iterable[str]]) -> Dict[str, List[Any]]:
    """The properties by their names. Decimal texts become numbers where that is asked."""
    columns = {name: [row.get(name) for row in rows] for name in sorted({name for row in rows for name in row})}
    for name in columns if numbers is True else [numbers] if isinstance(numbers, str) else numbers or []:
        values = columns.get(name, [])
        if numbers is not True or _are_numbers(values):
            columns[name] = [float(str(it)) if _is_decimal(it) else it for it in values]
    return columns


def frame_of(features: Sequence[Dict[str, Any]], crs: Any, unit: Decimal, numbers: Union[bool, Iterable[str]]) -> GeoDataFrame:
    """The frame of features whose coordinates count units."""
    import numpy
    from geopandas import GeoDataFrame
    from shapely.geometry import shape  # type: ignore

    times, over = unit.as_integer_ratio()

    def in_unit(coordinates: Any, depth: int) -> Any:
        """Coordinates as the floats that are nearest to so many units."""
        return [in_unit(it, depth - 1) for it in coordinates] if depth else numpy.multiply(coordinates, times) / over

    def shape_of(held: Dict[str, Any]) -> Any:
        return shape({**held, "coordinates": in_unit(held["coordinates"], _DEPTHS[held["type"]])})

    def column(values: List[Any]) -> Any:
        """A column; if floats stood for large whole numbers beside a null, it is one of objects."""
        is_large = None in values and any(type(it) is int and abs(it) > _EXACT for it in values)
        return numpy.array(values, object) if is_large else values

    columns = {name: column(values) for name, values in _columns([it["properties"] for it in features], numbers).items()}
    if "geometry" in columns:
        raise Usage("a property is called geometry, as the column of shapes is", "layer")
    shapes = [it["geometry"] and shape_of(it["geometry"]) for it in features]
    ids = [it.get("id") for it in features]
    index = ids if any(it is not None for it in ids) else range(len(features))
    return GeoDataFrame(columns, geometry=shapes, index=index, crs=crs)
