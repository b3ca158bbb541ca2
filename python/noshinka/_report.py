"""What became of texts that were rounded."""
from __future__ import annotations

from dataclasses import dataclass
from decimal import Decimal
from typing import Any, Dict, List, Mapping, NamedTuple, Optional, Sequence, Tuple

from ._texts import Given

Position = Tuple[int, int]


class Fixed(NamedTuple):
    """How much was fixed of a feature, which has this number in its text, from 0."""

    feature: int
    closed: int
    collapsed: int
    folded: int
    collections: int
    lost: int


@dataclass(frozen=True)
class MapReport:
    """What became of a text, or of an object of a topology: docs/TOGRID.md explains the counts.

    `furthest_steps` and `furthest` say how far a position was moved at most, in steps and in the unit of the map. `equal` has the
    numbers, from 0, of the features that equal an earlier one of their layer, and `fixed` those of which anything was fixed.
    """

    file: Optional[str]
    layer: str
    features: int
    positions: int
    moved: int
    furthest_steps: Decimal
    furthest: Decimal
    heights: int
    reals: int
    closed: int
    collapsed: int
    folded: int
    collections: int
    lost: int
    equal: Tuple[int, ...]
    fixed: Tuple[Fixed, ...]


@dataclass(frozen=True)
class Report:
    """What became of all texts. Positions are numbers of the answer.

    `shared` is how many positions more than one feature has, `nearly_shared` how many pairs of vertices are nearly shared, and
    `first_nearly_shared` the first. With `snap`, `joined` is how many positions were moved to others, and `too_wide` how many
    clusters were not.
    """

    step: str
    maps: Tuple[MapReport, ...]
    shared: int
    nearly_shared: int
    first_nearly_shared: Optional[Tuple[Position, Position]]
    joined: int
    too_wide: int
    first_too_wide: Optional[Position]


def _map_of(map: Mapping[str, Any], counts: Mapping[str, Any], equal: Sequence[int], texts: Sequence[Given], step: Decimal) -> MapReport:
    given = texts[map["text"]]
    steps = Decimal(counts["furthest"]).scaleb(-4)
    layer = given.layer if map["layer"] is None else map["layer"]
    named: Dict[str, Any] = {it: counts[it] for it in MapReport.__dataclass_fields__ if it in counts}
    named |= {"furthest_steps": steps, "furthest": steps * step, "fixed": tuple(Fixed(*it) for it in counts["fixed"])}
    return MapReport(file=given.file, layer=layer or "", equal=tuple(equal), **named)


def report_of(value: Mapping[str, Any], texts: Sequence[Given], step: str, units: int) -> Report:
    """The report that the library answers, of texts with this step, which is so many units of the answer."""

    def position(given: List[int]) -> Position:
        return given[0] * units, given[1] * units

    lists = zip(value["maps"], value["outcomes"], value["equal"])
    near, wide = value["first_nearly_shared"], value["first_too_wide"]
    return Report(
        step=step,
        maps=tuple(_map_of(*it, texts, Decimal(step)) for it in lists),
        shared=value["shared"],
        nearly_shared=value["nearly_shared"],
        first_nearly_shared=None if near is None else (position(near[0]), position(near[1])),
        joined=value["joined"],
        too_wide=value["too_wide"],
        first_too_wide=None if wide is None else position(wide),
    )
