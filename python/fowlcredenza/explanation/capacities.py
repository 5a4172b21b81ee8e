"""39 and 48: totals of capacities that do not do, and the fee of those that do."""

from __future__ import annotations

from typing import Iterator

from ..answer import Answer
from ..scene import Scene
from .finding import Finding

MAX_TOTAL = 2**64 - 1


def _totals(scene: Scene) -> tuple[int, int]:
    """What all inputs have and what all outputs have."""
    return sum(line.capacity for line in scene.inputs), sum(line.capacity for line in scene.outputs)


def _in_all(inputs: int, outputs: int) -> str:
    return f"the inputs have a capacity of {inputs:,} in all, the outputs {outputs:,}"


def overflow(scene: Scene, _answer: Answer) -> Iterator[Finding]:
    """Which total passes the limit, inputs first."""
    inputs, outputs = _totals(scene)
    name, total = ("inputs", inputs) if inputs > MAX_TOTAL else ("outputs", outputs)
    words = f"the {name} have a capacity of {total:,} in all, {total - MAX_TOTAL:,} more than {MAX_TOTAL:,}"
    yield Finding(None, [words])


def excess(scene: Scene, _answer: Answer) -> Iterator[Finding]:
    """By how much the outputs exceed the inputs."""
    inputs, outputs = _totals(scene)
    yield Finding(None, [f"{_in_all(inputs, outputs)}: the outputs exceed the inputs by {outputs - inputs:,}"])


def fee(scene: Scene, answer: Answer) -> Iterator[Finding]:
    """Both totals, and the fee that the lock gives."""
    yield Finding(None, [f"{_in_all(*_totals(scene))}: the fee is {answer.fee:,}"])
