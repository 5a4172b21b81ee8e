"""A since, the wait of a recovery, in words: RFC 0017's bits as docs/FORMATS.md has them."""

from __future__ import annotations

from typing import Iterator

METRICS = ("blocks", "epochs", "seconds")
BLOCKS, EPOCHS, SECONDS = range(3)
VALUE = 2**56 - 1


def is_relative(since: int) -> bool:
    return bool(since >> 63)


def metric(since: int) -> int:
    return since >> 61 & 3


def epoch(since: int) -> tuple[int, int, int]:
    """Number, index and length of a since in epochs."""
    return since & 0xFFFFFF, since >> 24 & 0xFFFF, since >> 40 & 0xFFFF


def malformed(since: int) -> Iterator[str]:
    """What is wrong with a since."""
    _, index, length = epoch(since)
    for bit in range(56, 61):
        if since >> bit & 1:
            yield f"its reserved bit {bit} is set"
    if metric(since) == 3:
        yield "its bits 61 and 62 are both set, which is no metric"
    if metric(since) == EPOCHS and index >= length and (index, length) != (0, 0):
        yield f"its index {index:,} (bits 24 to 39) is not below its length {length:,} (bits 40 to 55)"


def in_words(since: int) -> str:
    """A since with what it says, or with what is wrong."""
    if wrong := list(malformed(since)):
        return f"{since}, malformed: {'; '.join(wrong)}"
    number, index, length = epoch(since)
    value = f"{number:,} and {index:,}/{length:,}" if metric(since) == EPOCHS else f"{since & VALUE:,}"
    return f"{since}, {'relative' if is_relative(since) else 'absolute'}, {value} {METRICS[metric(since)]}"


def too_early(wanted: int, given: int) -> str:
    """Why a well-formed since is not enough."""
    if is_relative(wanted) != is_relative(given):
        return "one of them is relative and the other is not"
    if metric(wanted) != metric(given):
        return f"one of them is in {METRICS[metric(wanted)]} and the other in {METRICS[metric(given)]}"
    return "the since is lower"
