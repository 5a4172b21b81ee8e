"""34 and 42: what a recovery waits for, what it has waited, and why that is not enough."""

from __future__ import annotations

from typing import Iterator

from .. import since
from ..answer import Answer
from ..numbers import INVALID_SINCE
from ..protocol import number_at
from ..scene import Input, Scene
from ..state_fault import SINCE_AT
from .finding import Finding
from .states import successors


def recovery_since(state: bytes) -> int:
    return number_at(state, SINCE_AT, 8)


def _own_input(scene: Scene) -> tuple[int, Input]:
    """Place and cell of the input that holds the state."""
    return next((place, cell) for place, cell in scene.own_cells() if isinstance(cell, Input))


def waits(scene: Scene, _answer: Answer) -> Iterator[Finding]:
    """What a recovery waits for, and what its input has."""
    place, cell = _own_input(scene)
    wanted = recovery_since(cell.data)
    if wanted == 0:
        yield Finding(place, ["its state's recovery_since is 0: the recovery waits for nothing"])
        return
    both = [f"its state's recovery_since is {since.in_words(wanted)}", f"its since is {since.in_words(cell.since)}"]
    yield Finding(place, both)


def too_early(scene: Scene, answer: Answer) -> Iterator[Finding]:
    """The same, and why it is not enough."""
    yield from waits(scene, answer)
    _, cell = _own_input(scene)
    yield Finding(None, [since.too_early(recovery_since(cell.data), cell.since)])


def locked_out(scene: Scene) -> Iterator[Finding]:
    """A warning of a successor whose recovery_since lets no recovery run."""
    for place, state in successors(scene):
        wait = recovery_since(state)
        if wait and any(since.malformed(wait)):
            warning = f"warning: its state's recovery_since is {since.in_words(wait)}"
            yield Finding(place, [warning, f"a recovery from it is {INVALID_SINCE} until a rotation leaves another state"])
