"""What is found in a scene: a line, and what there is to say of it."""

from __future__ import annotations

from dataclasses import dataclass

from ..scene import shown


@dataclass(frozen=True)
class Finding:
    """The place of a line, counted from 0, None where it is about the whole scene; and sentences."""

    place: int | None
    words: list[str]

    def lines(self, text: bytes) -> list[str]:
        """The finding in a scene of that text, as it is printed."""
        return [*([] if self.place is None else [shown(text, self.place)]), *self.words]

    def data(self) -> dict:
        """The finding for JSON; lines are counted from 1."""
        return {"line": None if self.place is None else self.place + 1, "words": self.words}
