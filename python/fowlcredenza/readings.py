"""What the library's readers hand out and its writers take: a format's fields by their names."""

from __future__ import annotations

import ctypes
from typing import NamedTuple


class Args(NamedTuple):
    version: int
    account: bytes


class StateHeader(NamedTuple):
    flags: int
    sequence: int
    spend_threshold: int
    rotate_threshold: int
    recovery_threshold: int
    count: int
    recovery_since: int


class State(NamedTuple):
    """The header of an accepted state, and the weights of the holders of spend, rotate and recovery."""

    header: StateHeader
    spend_weight: int
    rotate_weight: int
    recovery_weight: int


class Entry(NamedTuple):
    """An entry of a state; `offset` and `least` are what the step to the next one takes, and a writer does not."""

    slot: int
    algorithm: int
    capabilities: int
    weight: int
    hash_type: int
    abi: int
    code_hash: bytes
    key: bytes
    aux: bytes
    offset: int = 0
    least: int = 0


class WitnessHeader(NamedTuple):
    operation: int
    count: int
    sequence: int


class Proof(NamedTuple):
    """A proof of a witness lock; `offset` and `least` are what the step to the next one takes, and a writer does not."""

    slot: int
    proof: bytes
    offset: int = 0
    least: int = 0


class RequestNumbers(NamedTuple):
    algorithm: int
    slot: int
    operation: int
    profile: int


class VerifierRequest(NamedTuple):
    algorithm: int
    slot: int
    operation: int
    profile: int
    digest: bytes
    key: bytes
    aux: bytes
    proof: bytes


class PublicKeyProof(NamedTuple):
    key: bytes
    signature: bytes


class ReadScene(NamedTuple):
    """What the scene reader leaves, for the lock (docs/LAYOUTS.md)."""

    table: ctypes.Array
    store: bytes
