"""0: the totals and the fee, what a recovery waited for, and a warning of a successor from which no recovery could run."""

from __future__ import annotations

from typing import Iterator

from ..answer import Answer
from ..protocol import RECOVERY, SPEND
from ..scene import Scene
from . import capacities, waiting
from .finding import Finding


def _operation(scene: Scene) -> int:
    """The operation: in the first group witness, after four offsets, the lock's length and five bytes."""
    first = next(place for place, line in enumerate(scene.inputs) if line.group)
    return scene.witnesses[first][25]


def told(scene: Scene, answer: Answer) -> Iterator[Finding]:
    """What there is to say of an accepted scene."""
    operation = _operation(scene)
    yield from capacities.fee(scene, answer)
    if operation == RECOVERY:
        yield from waiting.waits(scene, answer)
    if operation != SPEND:
        yield from waiting.locked_out(scene)
