"""An account's state in words."""

from __future__ import annotations

from . import since
from .protocol import ALGORITHMS, CAPABILITIES, FLAGS, RECOVERY_FLAG, algorithm_in_words, bits_in_words
from .readings import Entry, State

THRESHOLDS = ("spend", "rotate", "recovery")
HASH_TYPES = ("data hash", "type hash")


def _switches(flags: int) -> str:
    return ", ".join(f"{name} {'on' if flags & bit else 'off'}" for bit, name in FLAGS.items())


def _wait(state: State) -> str:
    header = state.header
    if not header.flags & RECOVERY_FLAG:
        return "recovery is off"
    if header.recovery_since == 0:
        return "a recovery waits for nothing (recovery_since 0)"
    words = since.in_words(header.recovery_since)
    stuck = "; no recovery can run" if any(since.malformed(header.recovery_since)) else ""
    return f"a recovery waits for its recovery_since: {words}{stuck}"


def in_words(state: State, entries: list[Entry]) -> list[str]:
    """An accepted state, line by line."""
    header = state.header
    weights = (state.spend_weight, state.rotate_weight, state.recovery_weight)
    limits = zip(THRESHOLDS, header[2:5], weights)
    return [
        f"sequence {header.sequence}",
        f"flags {header.flags}: {_switches(header.flags)}",
        "thresholds: " + ", ".join(f"{name} {limit:,} of {weight:,}" for name, limit, weight in limits),
        _wait(state),
        *(_entry_in_words(entry) for entry in entries),
    ]


def _entry_in_words(entry: Entry) -> str:
    capabilities = bits_in_words(entry.capabilities, CAPABILITIES)
    words = f"slot {entry.slot}: {algorithm_in_words(entry.algorithm)}, weight {entry.weight:,}, capabilities {capabilities}"
    verifier = f"verifier by {HASH_TYPES[entry.hash_type]} {entry.code_hash.hex()}"
    return f"{words}\n  {verifier}\n  key {entry.key.hex()}, aux of {len(entry.aux):,} byte{'s' * (len(entry.aux) > 1)}"


def data(state: State, entries: list[Entry]) -> dict:
    """An accepted state for JSON."""
    header = state.header._asdict()
    weights = {"spend": state.spend_weight, "rotate": state.rotate_weight, "recovery": state.recovery_weight}
    return {**header, "wait": _wait(state), "weights": weights, "entries": [_entry_data(entry) for entry in entries]}


def _entry_data(entry: Entry) -> dict:
    return {
        "slot": entry.slot,
        "algorithm": entry.algorithm,
        "algorithm_name": ALGORITHMS[entry.algorithm],
        "capabilities": [name for bit, name in CAPABILITIES.items() if entry.capabilities & bit],
        "weight": entry.weight,
        "hash_type": entry.hash_type,
        "code_hash": entry.code_hash.hex(),
        "key": entry.key.hex(),
        "aux": entry.aux.hex(),
    }
