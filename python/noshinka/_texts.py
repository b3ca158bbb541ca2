"""What is passed to calls, as bytes; and what they answer."""
from __future__ import annotations

import json
import os
from decimal import Decimal
from typing import Any, Dict, Iterable, Iterator, Mapping, NamedTuple, Optional, Protocol, Tuple, Union

from ._errors import Usage


class HasGeoInterface(Protocol):
    """An object of shapely, geopandas or another library of maps."""

    @property
    def __geo_interface__(self) -> Mapping[str, Any]: ...


Text = Union[bytes, bytearray, memoryview, str, "os.PathLike[str]", Mapping[str, Any], HasGeoInterface]
Layers = Union[Text, Mapping[str, Any], Iterable[Any]]
_BYTES = (bytes, bytearray, memoryview)
_PARTS = ("features", "geometry", "geometries")
_SEQUENCES = (".ndjson", ".geojsonl", ".geojsons")


class Answer(bytes):
    """The bytes of an answer, which are UTF-8."""

    __slots__ = ()

    def json(self) -> Any:
        """The JSON value of the answer, made anew at each call."""
        return json.loads(self)

    def text(self) -> str:
        """The answer as a `str`."""
        return self.decode()


class Given(NamedTuple):
    """A text, with its file and its layer where it has one; and whether it looks like the name of a file."""

    text: bytes
    file: Optional[str] = None
    layer: Optional[str] = None
    is_sequence: bool = False
    is_name: bool = False


def _whole(value: Any) -> Any:
    """Coordinates, where floats that are whole numbers are integers."""
    value = value.tolist() if hasattr(value, "tolist") else value
    if isinstance(value, (list, tuple)):
        return [_whole(it) for it in value]
    if isinstance(value, float) and value.is_integer():
        return int(value)
    return value


def _geojson(value: Any) -> Any:
    """A GeoJSON object of which coordinates are whole numbers where they can be; all else is as it was."""
    if not isinstance(value, Mapping):
        return value
    made = dict(value)
    if "coordinates" in made:
        made["coordinates"] = _whole(made["coordinates"])
    for part in _PARTS:
        held = made.get(part)
        if isinstance(held, (list, tuple)):
            made[part] = [_geojson(_plain(it)) for it in held]
        elif held is not None:
            made[part] = _geojson(_plain(held))
    return made


def is_frame(value: Any) -> bool:
    """Whether it is a GeoDataFrame or a GeoSeries."""
    return hasattr(value, "geom_type") and hasattr(value, "index")


def _id_of(label: Any) -> Union[int, str]:
    """A label of an index, as an id."""
    return label if isinstance(label, (int, str)) and not isinstance(label, bool) else str(label)


def _collection(frame: Any) -> Dict[str, Any]:
    """A frame's features. Their ids are the labels of its index, or their numbers from 1 if one of these comes again."""
    points = frame.geometry.is_empty & (frame.geom_type == "Point")
    if points.any():  # They have no coordinates, and shapely 1 has no form for them.
        shapes = frame.geometry.mask(points)
        frame = frame.set_geometry(shapes) if hasattr(frame, "set_geometry") else shapes
    features = list(frame.iterfeatures(drop_id=True)) if hasattr(frame, "iterfeatures") else frame.__geo_interface__["features"]
    ids = map(_id_of, frame.index.tolist()) if frame.index.is_unique else range(1, len(features) + 1)
    for feature, it in zip(features, ids):
        feature["id"] = it
    return {"type": "FeatureCollection", "features": features}


def _plain(value: Any) -> Any:
    """The dict that an object stands for, where it stands for one."""
    return _collection(value) if is_frame(value) else getattr(value, "__geo_interface__", value)


def _item(value: Any) -> Any:
    """What is written of a value that JSON has no form for: ISO texts of dates, and numbers of numpy and of decimal."""
    if hasattr(value, "__geo_interface__") or isinstance(value, Mapping):
        return dict(_plain(value))
    if type(value).__name__ in ("NAType", "NaTType"):
        return None
    if hasattr(value, "isoformat"):
        return value.isoformat()
    if hasattr(value, "tolist"):
        is_date = getattr(getattr(value, "dtype", None), "kind", None) == "M"
        return (value.astype(str) if is_date else value).tolist()
    if isinstance(value, Decimal) and Decimal(repr(float(value))) == value:
        return float(value)
    if type(value).__module__.startswith("pandas."):
        return str(value)
    raise TypeError(f"{value!r} is no value of JSON")


def _json(value: Any) -> bytes:
    return json.dumps(value, separators=(",", ":"), allow_nan=False, default=_item).encode()


def _where(value: Mapping[str, Any], error: Exception) -> str:
    """The feature and the property that JSON has no form for, and why."""
    for number, feature in enumerate(value.get("features") or ()):
        members = feature if isinstance(feature, Mapping) else {}
        for name, it in [*(members.get("properties") or {}).items(), ("geometry", members.get("geometry"))]:
            try:
                _json(it)
            except (TypeError, ValueError) as why:
                return f"{name} of feature {members.get('id', number)}: {why}"
    return str(error)


def _written(value: Mapping[str, Any], is_whole: bool, argument: str) -> bytes:
    made = _geojson(value) if is_whole else dict(value)
    try:
        return _json(made)
    except (TypeError, ValueError) as error:
        raise Usage(_where(made, error), argument) from None


def _text_of(given: Any, is_whole: bool, argument: str) -> bytes:
    """The bytes of a text. Bytes are passed on, without a copy; a dict or an object of maps is written as JSON."""
    if isinstance(given, bytes):
        return given
    if isinstance(given, str):
        return given.encode()
    if isinstance(given, _BYTES):
        return bytes(given)
    if isinstance(given, os.PathLike):
        with open(given, "rb") as file:
            return file.read()
    plain = _plain(given)
    if not isinstance(plain, Mapping):
        raise TypeError(f"a text is bytes, str, a path, a dict or an object with __geo_interface__, and not {type(given).__name__}")
    return _written(plain, is_whole, argument)


def _is_json(text: str) -> bool:
    """Whether a text looks like JSON, and not like the name of a file."""
    return text.lstrip("\ufeff\x1e \t\r\n").startswith(("{", "["))


def given_of(given: Any, layer: Optional[str] = None, is_whole: bool = True) -> Given:
    """A text with what is known of it."""
    file = os.fsdecode(given) if isinstance(given, os.PathLike) else None
    is_name = isinstance(given, str) and not _is_json(given)
    text = _text_of(given, is_whole, "text" if layer is None else "layers")
    return Given(text, file, layer, file is not None and file.endswith(_SEQUENCES), is_name)


def name_of(given: Any) -> str:
    """How the layer of a text is called that has no name: as its file, up to the first point."""
    return os.path.basename(os.fsdecode(given)).partition(".")[0] if isinstance(given, os.PathLike) else "layer"


def _is_text(value: Any) -> bool:
    """Whether it is one text, and not a collection of some."""
    if isinstance(value, Mapping):
        kind = value.get("type")
        return isinstance(kind, str) and not _is_json(kind)
    return isinstance(value, (*_BYTES, str, os.PathLike)) or hasattr(value, "__geo_interface__")


def named(layers: Any) -> Iterator[Tuple[Optional[str], Any]]:
    """Each text of some layers, with its name where it has one."""
    if _is_text(layers):
        yield None, layers
        return
    for it in layers.items() if isinstance(layers, Mapping) else layers:
        is_pair = isinstance(it, (tuple, list)) and len(it) == 2 and isinstance(it[0], str)
        name, held = it if is_pair else (None, it)
        for text in held if isinstance(held, (tuple, list)) else [held]:
            yield name, text
