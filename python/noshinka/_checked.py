"""What is found where a topology is checked."""
from __future__ import annotations

from dataclasses import dataclass
from typing import Any, Mapping, Optional, Tuple

from ._report import Position


@dataclass(frozen=True)
class LayerIds:
    """The numbers, from 0, of a layer's features without an id, and of those whose id occurs more than once in the layer.

    Of the latter those of one id are side by side.
    """

    layer: str
    missing: Tuple[int, ...]
    repeated: Tuple[int, ...]


@dataclass(frozen=True)
class Checked:
    """What was found. It is true if that is nothing bad: the text is canonical, no id is missing or repeated, and no pair is near.

    `ids` are those of each layer, and `near_count` is how many pairs of vertices are near each other; each is None if it wasn't
    asked for. `near_pairs` are the first pairs, whose positions are numbers of the topology.
    """

    canonical: bool
    ids: Optional[Tuple[LayerIds, ...]]
    near_count: Optional[int]
    near_pairs: Tuple[Tuple[Position, Position], ...]

    def __bool__(self) -> bool:
        is_any_bad = any(it.missing or it.repeated for it in self.ids or ())
        return self.canonical and not is_any_bad and not self.near_count


def checked_of(value: Mapping[str, Any]) -> Checked:
    """What the library answers."""
    ids, near = value["ids"], value["near"]
    return Checked(
        canonical=value["canonical"],
        ids=None if ids is None else tuple(LayerIds(it["layer"], tuple(it["missing"]), tuple(it["repeated"])) for it in ids),
        near_count=None if near is None else near["count"],
        near_pairs=() if near is None else tuple(((one[0], one[1]), (two[0], two[1])) for one, two in near["pairs"]),
    )
