"""40: a hash that is not that of what its cell holds."""

from __future__ import annotations

from typing import Iterator

from ..answer import Answer
from ..protocol import ckb_hash
from ..scene import Cell, Scene
from .finding import Finding


def _wrong(cell: Cell) -> Iterator[tuple[str, bytes]]:
    """The fields that are not the hash of their part, with the hash that belongs there."""
    for name, given, part in (
        ("TYPEHASH", cell.type_hash, cell.type_script),
        ("DATAHASH", cell.data_hash, cell.data),
    ):
        if part and given != ckb_hash(part):
            yield name, ckb_hash(part)


def differing(scene: Scene, _answer: Answer) -> Iterator[Finding]:
    """The first hash that differs, in the order of the lines, type before data."""
    for place, cell in scene.cells():
        for name, right in _wrong(cell):
            yield Finding(place, [f"its {name} should be {right.hex()}"])
            return
