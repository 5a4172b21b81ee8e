"""21, 30, 32, 33, 38 and 44: a state that its own checks refuse. 49: a successor that carries a session."""

from __future__ import annotations

from typing import Iterator

from ..answer import Answer
from ..protocol import SESSION_CAPABILITY, SESSION_FLAG, number_at
from ..scene import Dep, Input, Output, Scene
from ..state_fault import FLAGS_AT, entry_places, find_fault
from .finding import Finding

LONGEST_SCRIPT = 512


def states(scene: Scene) -> list[tuple[int, bytes]]:
    """Places and bytes of the states that the lock reads: an input's and its output's, else a dep's."""
    own = scene.own_cells()
    spend = not any(isinstance(cell, Input) for _, cell in own)
    return [(place, cell.data) for place, cell in own if isinstance(cell, Dep) == spend]


def successors(scene: Scene) -> list[tuple[int, bytes]]:
    """Places and bytes of the states that outputs hold."""
    return [(place, cell.data) for place, cell in scene.own_cells() if isinstance(cell, Output)]


def _refused_before(scene: Scene) -> bool:
    """Whether args or a type script, which are tested before any state, give one of these numbers."""
    return scene.script[-33:-32] != b"\1" or any(len(cell.type_script) > LONGEST_SCRIPT for _, cell in scene.own_cells())


def refused(scene: Scene, answer: Answer) -> Iterator[Finding]:
    """The entry and the byte at fault in the first state that has a fault, where it gives this number."""
    if answer.digest is not None or _refused_before(scene):
        return
    for place, state in states(scene):
        if fault := find_fault(state):
            if fault.number == answer.number:
                yield Finding(place, [fault.in_words()])
            return


def _carried(state: bytes) -> Iterator[str]:
    """What a state carries of a session, and what should stand there."""
    flags = state[FLAGS_AT]
    if flags & SESSION_FLAG:
        yield f"its flags are {flags} and should be {flags - SESSION_FLAG}, without the session's {SESSION_FLAG}"
    for place, at in enumerate(entry_places(state)):
        slot, capabilities = number_at(state, at + 2), number_at(state, at + 6)
        if capabilities & SESSION_CAPABILITY:
            words = f"its entry {place + 1}, slot {slot}, has capabilities 0x{capabilities:04x} and should have"
            yield f"{words} 0x{capabilities - SESSION_CAPABILITY:04x}, without the session's 0x{SESSION_CAPABILITY:04x}"


def session(scene: Scene, _answer: Answer) -> Iterator[Finding]:
    """What the successor carries of a session."""
    for place, state in successors(scene):
        yield Finding(place, list(_carried(state)))
