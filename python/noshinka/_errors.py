"""Why a call gives no answer."""
from __future__ import annotations

from typing import Optional, Union


class Usage(ValueError):
    """The call is wrong, and `argument` is the name of the argument that is: a step outside its limits, say."""

    def __init__(self, said: str, argument: str = "") -> None:
        super().__init__(said)
        self.argument = argument


class Fault(ValueError):
    """A text is refused. It reads as the line of the command does.

    `number` and `name` say why, as docs/FAULTS.md lists them. `place` is the place of the text in what was passed, from 0;
    `file` its file and `layer` its layer, where it has one. `path` leads to what is wrong in it, as
    `$/features/3/geometry/coordinates/0`, and is empty for 17 to 19. Where they are known, `line` and `column` are where that
    is, both from 1, `id` is that of the feature, and `member` the property whose number is refused (13).
    """

    def __init__(
        self, said: str, number: int = 0, name: str = "", place: int = 0, path: str = "", file: Optional[str] = None,
        layer: Optional[str] = None,
    ) -> None:  # fmt: skip
        super().__init__(said)
        self.number, self.name, self.place, self.path, self.file, self.layer = number, name, place, path, file, layer
        self.line: Optional[int] = None
        self.column: Optional[int] = None
        self.id: Union[int, str, None] = None
        self.member: Optional[str] = None
