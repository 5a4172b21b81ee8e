"""The protocol's numbers by their names, as docs/FORMATS.md has them, and CKB's hash."""

from __future__ import annotations

import hashlib

OPERATIONS = {1: "spend", 2: "rotate", 3: "recovery"}
SPEND, ROTATE, RECOVERY = OPERATIONS
CAPABILITIES = {0x0001: "spend", 0x0002: "rotate", 0x0004: "recovery", 0x0008: "session issue"}
SESSION_CAPABILITY = 0x0008
FLAGS = {0x01: "recovery", 0x02: "sessions"}
RECOVERY_FLAG, SESSION_FLAG = FLAGS
ALGORITHMS = {
    0x0001: "P-256 with WebAuthn",
    0x0101: "ML-DSA-44",
    0x0102: "ML-DSA-65",
    0x0103: "ML-DSA-87",
    0x0201: "SLH-DSA",
}
# The digit of each verdict in a scene.
VERDICTS = {"approved": "0", "refused": "1", "failed": "2"}
MAX_PROOFS = 16
STATE_HEADER_LEN, WITNESS_HEADER_LEN = 32, 16


def bits_in_words(bits: int, names: dict[int, str]) -> str:
    """The names of the bits that are set, `none` where there are none."""
    return ", ".join(name for bit, name in names.items() if bits & bit) or "none"


def algorithm_in_words(algorithm: int) -> str:
    return f"{ALGORITHMS.get(algorithm, 'an unknown algorithm')} (0x{algorithm:04x})"


def number_at(data: bytes, at: int, width: int = 2) -> int:
    """The number of so many bytes that stands there, its lowest byte first."""
    return int.from_bytes(data[at : at + width], "little")


def ckb_hash(data: bytes) -> bytes:
    """CKB's hash by python3's hashlib, a second opinion beside the library's."""
    return hashlib.blake2b(data, digest_size=32, person=b"ckb-default-hash").digest()
