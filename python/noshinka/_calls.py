"""The calls of libnoshinka.so.1, by ctypes."""
from __future__ import annotations

import ctypes
import json
import os
from typing import Any, Callable, Dict, Iterable, Mapping, NamedTuple, Optional, Sequence, Tuple, Type

from ._errors import Fault, Usage
from ._texts import Given

VERSION_OF_CALLS = 1
LIBRARY = "libnoshinka.so.1"
MISSING = (
    f"noshinka calls the library {LIBRARY}, which can't be loaded: {{}}. The wheel of a release has it beside the package, and the .deb "
    "installs it. Of a clone, dist/libraries makes it; name the file by the variable NOSHINKA_LIBRARY"
)
DONE, NOT_CANONICAL, USAGE, REFUSED, MEMORY, ROOM = 0, 1, 2, 4, 5, 6
TOPOLOGY, GEOJSON = 0, 1
NOT_JSON, OUT_OF_RANGE, BAD_PLAN, NO_LAYER = 1, 6, 18, 19
MARK, GZIP = b"\xef\xbb\xbf", b"\x1f\x8b"
LOCATED = 1_000_000  # bytes of a text, up to which the line and the column of a fault are looked for


class _Bytes(ctypes.Structure):
    _fields_ = [("at", ctypes.c_char_p), ("length", ctypes.c_size_t)]


class _Source(ctypes.Structure):
    _fields_ = [("layer", _Bytes), ("text", _Bytes)]


class _Change(ctypes.Structure):
    _fields_ = [("text", _Bytes), ("kind", ctypes.c_uint32)]


class _Scale(ctypes.Structure):
    _fields_ = [("property", _Bytes), ("zeros", ctypes.c_uint32)]


class Grid(ctypes.Structure):
    _fields_ = [(it, ctypes.c_int64) for it in ("scale_x", "scale_y", "translate_x", "translate_y")]


class _Outcome(ctypes.Structure):
    _fields_ = [("status", ctypes.c_uint32), ("fault", ctypes.c_uint32), ("place", ctypes.c_size_t), ("length", ctypes.c_size_t)]


def _fields(texts: str, numbers: str, lists: Sequence[Tuple[str, str, Any]] = (), wide: str = "") -> Sequence[Tuple[str, Any]]:
    """The members of a struct of options: texts, lists with their counts, numbers of 64 bits, and numbers."""
    fields = [("size", ctypes.c_size_t), *((it, _Bytes) for it in texts.split())]
    for name, count, kind in lists:
        fields += [(name, ctypes.POINTER(kind)), (count, ctypes.c_size_t)]
    fields += [(it, ctypes.c_uint64) for it in wide.split()]
    return [*fields, *((it, ctypes.c_uint32) for it in numbers.split())]


class RoundOptions(ctypes.Structure):
    _fields_ = _fields(
        "step unit layer id",
        "snap scope ids reals number unclosed heights folded collections collapsed rewind sequences renames format report",
        [("scales", "scale_count", _Scale)],
    )


class BackOptions(ctypes.Structure):
    _fields_ = _fields(
        "unit like", "numbers transform rewind", [("properties", "property_count", _Bytes), ("scales", "scale_count", _Scale)], "count"
    )


class QualityOptions(ctypes.Structure):
    _fields_ = _fields("", "ids near listed")


class MeshOptions(ctypes.Structure):
    _fields_ = _fields("layer property", "scope edges")


class NeighborsOptions(ctypes.Structure):
    _fields_ = _fields("property", "kind lists")


class DiffOptions(ctypes.Structure):
    _fields_ = _fields("layer key", "scope pairing json")


def _library() -> ctypes.CDLL:
    """The library beside this file, as a wheel has it; else that of NOSHINKA_LIBRARY, or of the system."""
    beside = os.path.join(os.path.dirname(os.path.abspath(__file__)), LIBRARY)
    try:
        found = ctypes.CDLL(beside if os.path.exists(beside) else os.environ.get("NOSHINKA_LIBRARY", LIBRARY))
    except OSError as error:
        raise ImportError(MISSING.format(error)) from None
    found.noshinka_version.restype = ctypes.c_uint32
    found.noshinka_version.argtypes = []
    version = found.noshinka_version()
    if version != VERSION_OF_CALLS:
        raise ImportError(f"{LIBRARY} has version {version} of its calls, and {VERSION_OF_CALLS} is needed")
    return found


_TEXT = [ctypes.c_char_p, ctypes.c_size_t]
_NUMBER = [ctypes.c_uint32]
_ROOM = [ctypes.c_void_p, ctypes.c_size_t]


class _Calls:
    """The calls, each with the types of its arguments. A call of `CDLL` lets other threads run."""

    def __init__(self) -> None:
        library = _library()

        def call(name: str, *types: Any) -> Any:
            found = getattr(library, f"noshinka_{name}", None)
            if found is None:
                raise ImportError(f"{LIBRARY} is older than the package: it has no noshinka_{name}")
            found.restype, found.argtypes = _Outcome, [*types, *_ROOM]
            return found

        def of(options: Type[ctypes.Structure]) -> Any:
            return ctypes.POINTER(options)

        self.build = call("build", of(Grid), of(_Source), ctypes.c_size_t)
        self.round = call("round", of(RoundOptions), of(_Source), ctypes.c_size_t)
        self.merge = call("merge", of(_Bytes), ctypes.c_size_t)
        self.remove = call("remove", *_TEXT, *_TEXT)
        self.edit = call("edit", *_TEXT, of(_Change), ctypes.c_size_t)
        self.back = call("back", of(BackOptions), *_TEXT)
        self.check = call("check", *_TEXT)
        self.quality = call("quality", of(QualityOptions), *_TEXT)
        self.faults = call("faults", *_TEXT, *_NUMBER, of(Grid))
        self.feature = call("feature", *_TEXT, *_TEXT)
        self.mesh = call("mesh", of(MeshOptions), *_TEXT)
        self.neighbors = call("neighbors", of(NeighborsOptions), *_TEXT, *_TEXT)
        self.diff = call("diff", of(DiffOptions), *_TEXT, *_TEXT)
        self.info = call("info", *_TEXT, *_NUMBER)
        self.fault_name = call("fault_name", *_NUMBER)


CALLS = _Calls()


def lent(given: bytes) -> Tuple[bytes, int]:
    """A text's pointer and its length. `c_char_p` of `bytes` points to their own memory."""
    return given, len(given)


def _list(kind: Type[ctypes.Structure], elements: Iterable[ctypes.Structure]) -> Any:
    """An array, with an element also where there is none, so that it is never NULL."""
    held = list(elements) or [kind()]
    return (kind * len(held))(*held)


def _bytes(given: bytes) -> _Bytes:
    return _Bytes(given, len(given))


def texts_lent(given: Iterable[bytes]) -> Any:
    """A list of texts, none of which is copied."""
    return _list(_Bytes, map(_bytes, given))


def sources_lent(given: Iterable[Given]) -> Any:
    return _list(_Source, (_Source(_bytes((it.layer or "").encode()), _bytes(it.text)) for it in given))


def changes_lent(given: Iterable[Tuple[int, bytes]]) -> Any:
    return _list(_Change, (_Change(_bytes(text), kind) for kind, text in given))


def scales_lent(given: Mapping[str, int]) -> Any:
    return _list(_Scale, (_Scale(_bytes(name.encode()), len(str(it)) - 1) for name, it in given.items()))


def options(kind: Type[ctypes.Structure], /, **members: Any) -> Any:
    """A struct of options. Texts are `bytes`, `str` or None."""
    made = kind()
    for name, of in kind._fields_:  # type: ignore[misc]
        value = members.get(name)
        text = value.encode() if isinstance(value, str) else value
        value = _bytes(text or b"") if of is _Bytes else ctypes.sizeof(kind) if name == "size" else text
        if value is not None:
            setattr(made, name, value)
    return made


def _called(call: Callable[..., Any], size: int, *words: Any) -> Tuple[Any, memoryview]:
    """Calls with a room of this size, and once more if it is too small. Returns the outcome, and what is in the room."""
    while True:
        room = bytearray(size)
        outcome = call(*words, (ctypes.c_char * size).from_buffer(room), size)
        if outcome.status not in (REFUSED, ROOM) or outcome.length <= size:
            return outcome, memoryview(room)[: outcome.length]
        size = outcome.length


class Reading(NamedTuple):
    """How a call reads its texts: as what, on which grid; whether as togrid does, and with a step."""

    formats: Sequence[int] = (TOPOLOGY,)
    grid: Grid = Grid(1, 1, 0, 0)
    is_togrid: bool = False
    has_step: bool = True


def _known(given: Given, number: int, path: str, reading: Reading) -> Dict[str, Any]:
    """What the library lists of a fault, if the text isn't too long for that: its line and column, and the id of the feature."""
    if given.is_sequence or len(given.text) > LOCATED:
        return {}
    text = given.text[len(MARK) :] if reading.is_togrid and given.text.startswith(MARK) else given.text
    for format in reading.formats:
        _, listed = _called(CALLS.faults, 4096, *lent(text), format, reading.grid)
        here = [it for it in json.loads(bytes(listed) or b"[]") if it["path"] == path]
        if here:
            return dict(next((it for it in here if it["number"] == number), here[0]))
    return {}


def _remedy(number: int, given: Given, known: Dict[str, Any], reading: Reading) -> str:
    """What may help, in the words of togrid."""
    if number == OUT_OF_RANGE and not reading.has_step:
        return ": numbers beyond 180 and 90 need --step"
    if number != NOT_JSON:
        return ""
    if given.is_name:
        return ": is it the name of a file? pathlib.Path of it is read"
    if not reading.is_togrid:
        return ""
    if given.text.startswith(GZIP):
        return ": compressed, gunzip it first"
    try:
        given.text.decode()
        return ""
    except UnicodeDecodeError:
        return f": no UTF-8 at line {known['line']}, column {known['column']}; try ogr2ogr -oo ENCODING=" if known else ""


def _fault(number: int, place: int, path: str, texts: Sequence[Given], layer: Optional[str], reading: Reading) -> Fault:
    """A text that is refused: the library says why, and where it is."""
    given = texts[place] if place < len(texts) else Given(b"")
    name = bytes(_called(CALLS.fault_name, 64, number)[1]).decode()
    known = _known(given, number, path, reading) if path else {}
    about = [f"{number} {name}", *([layer or ""] if number == NO_LAYER else [path] if path else [])]
    file = [] if number in (BAD_PLAN, NO_LAYER) else [f"{given.file or given.layer or f'text {place}'}:"]
    said = " ".join([*file, *about]) + _remedy(number, given, known, reading)
    fault = Fault(said, number, name, place, path, given.file, layer if number == NO_LAYER else given.layer)
    fault.line, fault.column, fault.id, fault.member = (known.get(it) for it in ("line", "column", "id", "member"))
    return fault


def ended(
    call: Callable[..., Any],
    size: int,
    *words: Any,
    texts: Sequence[Given] = (),
    layer: Optional[str] = None,
    reading: Reading = Reading(),
    wrong: Tuple[str, str] = ("a number is outside its limits", ""),
) -> Tuple[int, memoryview]:
    """Calls with a room of this size. Returns the status and the answer, or raises why there is none; `wrong` says what usage is."""
    outcome, answer = _called(call, size, *words)
    if outcome.status in (DONE, NOT_CANONICAL):
        return outcome.status, answer
    if outcome.status == REFUSED:
        raise _fault(outcome.fault, outcome.place, bytes(answer).decode(), texts, layer, reading)
    if outcome.status == MEMORY:
        raise MemoryError("20 OutOfMemory")
    raise Usage(*wrong)
