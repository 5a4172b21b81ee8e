"""Where a refused state is at fault.

The library accepts or refuses a state. What stands here follows docs/FORMATS.md's checks in their order to name the entry and
the byte at fault: it only says where to look.
"""

from __future__ import annotations

from dataclasses import dataclass
from typing import Iterator

from .declarations import SIZES
from .numbers import (
    AUX_TOO_LONG,
    INVALID_STATE,
    INVALID_VERIFIER_REF,
    UNSATISFIABLE_THRESHOLD,
    UNSUPPORTED_ALGORITHM,
    UNSUPPORTED_VERSION,
)
from .protocol import ALGORITHMS, RECOVERY_FLAG, STATE_HEADER_LEN, number_at

ENTRY_HEADER_LEN = 48
FLAGS_AT, COUNT_AT, SINCE_AT = 5, 22, 24
# Where the thresholds stand, with the capability of their operation.
THRESHOLDS = {"spend": (16, 0x0001), "rotate": (18, 0x0002), "recovery": (20, 0x0004)}
# A check that failed: the number, the byte, and what is there.
Failed = tuple[int, int, str]


@dataclass(frozen=True)
class Fault:
    """The number, the byte at fault and what is wrong; the entry, counted from 1, and its slot, where it is one's."""

    number: int
    byte: int
    words: str
    entry: int | None = None
    slot: int | None = None

    def in_words(self) -> str:
        """The fault as a sentence, without its byte."""
        subject = "the state" if self.entry is None else f"its entry {self.entry}, slot {self.slot},"
        return f"{subject} {self.words}"


def entry_places(state: bytes) -> Iterator[int]:
    """Where the entries of a state stand, as many as its header says."""
    at = STATE_HEADER_LEN
    for _ in range(sum(state[COUNT_AT : COUNT_AT + 1])):
        yield at
        at += number_at(state, at)


def _of_header(state: bytes) -> Iterator[Failed]:
    """The checks of the header that fail."""
    longest = SIZES["ACCOUNT_STATE_MAX_LEN"]
    if not STATE_HEADER_LEN <= len(state) <= longest:
        words = f"has {len(state):,} bytes; a state has {STATE_HEADER_LEN} to {longest:,}"
        yield INVALID_STATE, min(len(state), longest), words
        return
    if state[:4] != b"CKAS":
        yield INVALID_STATE, 0, f"begins with {state[:4].hex()}, and not with CKAS (434b4153)"
    if state[4] != 1:
        yield UNSUPPORTED_VERSION, 4, f"has version {state[4]}, and not 1"
    if state[FLAGS_AT] > 3:
        yield INVALID_STATE, FLAGS_AT, f"has flags {state[FLAGS_AT]}; they are at most 3"
    if number_at(state, 6) != STATE_HEADER_LEN:
        yield INVALID_STATE, 6, f"has a header length of {number_at(state, 6):,}, and not {STATE_HEADER_LEN}"
    if state[23] != 0:
        yield INVALID_STATE, 23, f"has {state[23]} where a 0 stands"
    if not 1 <= state[COUNT_AT] <= 16:
        yield INVALID_STATE, COUNT_AT, f"has a count of {state[COUNT_AT]} entries; it is 1 to 16"


def _of_layout(entry: bytes, at: int) -> Iterator[Failed]:
    """The checks of an entry's lengths that fail; `entry` is the rest of the state from its place `at` on."""
    if len(entry) < ENTRY_HEADER_LEN:
        yield INVALID_STATE, at, f"has {len(entry)} bytes left, and needs {ENTRY_HEADER_LEN}"
        return
    length, wanted = number_at(entry, 0), ENTRY_HEADER_LEN + number_at(entry, 44) + number_at(entry, 46)
    if length != wanted:
        yield INVALID_STATE, at, f"has an entry length of {length:,}; 48 and its key and aux are {wanted:,}"
    if length > len(entry):
        yield INVALID_STATE, at, f"has {len(entry):,} bytes left, and needs {length:,}"


def _of_fields(entry: bytes, at: int, least: int) -> Iterator[Failed]:
    """The checks of an entry's fields that fail, where its lengths pass."""
    slot, algorithm, capabilities, weight = (number_at(entry, field) for field in (2, 4, 6, 8))
    if slot < least:
        yield INVALID_STATE, at + 2, f"is not above the slot before it, {least - 1}"
    if weight == 0:
        yield INVALID_STATE, at + 8, "has weight 0"
    if capabilities > 0x000F:
        yield INVALID_STATE, at + 6, f"has capabilities 0x{capabilities:04x}; they are at most 0x000f"
    if entry[10] > 1:
        yield INVALID_VERIFIER_REF, at + 10, f"has hash type {entry[10]}; it is 0 or 1"
    if entry[11] != 1:
        yield INVALID_VERIFIER_REF, at + 11, f"has ABI {entry[11]}, and not 1"
    if algorithm not in ALGORITHMS:
        yield UNSUPPORTED_ALGORITHM, at + 4, f"has algorithm 0x{algorithm:04x}, which is not supported"
    if number_at(entry, 44) != 32:
        yield INVALID_STATE, at + 44, f"has a key of {number_at(entry, 44):,} bytes, and not of 32"
    aux = number_at(entry, 46)
    if aux == 0:
        yield INVALID_STATE, at + 46, "has an empty aux"
    longest = SIZES["ACCOUNT_STATE_MAX_AUX_LEN"]
    if aux > longest:
        yield AUX_TOO_LONG, at + 46, f"has an aux of {aux:,} bytes; a state's has at most {longest:,}"


def _of_entry(state: bytes, at: int, least: int) -> Iterator[Failed]:
    entry = state[at:]
    wrong = list(_of_layout(entry, at))
    yield from wrong or _of_fields(entry, at, least)


def _weight(state: bytes, capability: int) -> int:
    """The weight of the holders of a capability."""
    return sum(number_at(state, at + 8) for at in entry_places(state) if number_at(state, at + 6) & capability)


def _zero(state: bytes, name: str) -> Iterator[Failed]:
    at, _ = THRESHOLDS[name]
    if number_at(state, at) == 0:
        yield UNSATISFIABLE_THRESHOLD, at, f"has a {name} threshold of 0"


def _too_high(state: bytes, name: str) -> Iterator[Failed]:
    at, capability = THRESHOLDS[name]
    threshold, weight = number_at(state, at), _weight(state, capability)
    if threshold > weight:
        words = f"has a {name} threshold of {threshold:,}; all entries with that capability weigh {weight:,}"
        yield UNSATISFIABLE_THRESHOLD, at, words


def _of_recovery(state: bytes) -> Iterator[Failed]:
    """The checks of the recovery threshold and of recovery_since that fail."""
    at, _ = THRESHOLDS["recovery"]
    threshold, wait = number_at(state, at), number_at(state, SINCE_AT, 8)
    if state[FLAGS_AT] & RECOVERY_FLAG:
        yield from _zero(state, "recovery")
        yield from _too_high(state, "recovery")
        return
    if threshold:
        yield INVALID_STATE, at, f"has a recovery threshold of {threshold:,}, and recovery is off"
    if wait:
        yield INVALID_STATE, SINCE_AT, f"has a recovery_since of {wait}, and recovery is off"


def _of_end(state: bytes) -> Iterator[Failed]:
    """The checks after the last entry that fail."""
    end = STATE_HEADER_LEN + sum(number_at(state, at) for at in entry_places(state))
    if end != len(state):
        yield INVALID_STATE, end, f"has {len(state) - end:,} bytes after its last entry"
    for check in (_zero, _too_high):
        yield from check(state, "spend")
        yield from check(state, "rotate")
    yield from _of_recovery(state)


def find_fault(state: bytes) -> Fault | None:
    """The first check that fails."""
    for failed in _of_header(state):
        return Fault(*failed)
    least = 0
    for place, at in enumerate(entry_places(state)):
        slot = number_at(state, at + 2)
        for failed in _of_entry(state, at, least):
            return Fault(*failed, place + 1, slot)
        least = slot + 1
    for failed in _of_end(state):
        return Fault(*failed)
    return None
