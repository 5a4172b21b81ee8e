"""The requests of all proofs of a scene, whatever its verdicts say, and the list that is filed with them.

The lock's walk over the proofs stops at the first one without a verdict, so the scene is decided with sixteen digits 1 in its
verdicts line: then 28 means that the walk came to its end and all requests were made.
"""

from __future__ import annotations

import json
from dataclasses import dataclass

from . import scene
from .answer import Answer
from .errors import Misuse
from .library import Library
from .numbers import THRESHOLD_UNSATISFIED
from .protocol import MAX_PROOFS, VERDICTS, number_at
from .scene import LineFault, Scene

ALL_REFUSED = "1" * MAX_PROOFS
REQUEST_HEADER_LEN = 96
AUX_LEN_AT, PROOF_LEN_AT = 80, 84


@dataclass(frozen=True)
class Request:
    """A request with the place of its proof in the witness lock, counted from 1, and CKB's hash of its bytes."""

    proof: int
    slot: int
    algorithm: int
    digest: bytes
    hash: bytes
    data: bytes

    @property
    def file(self) -> str:
        return f"proof_{self.proof}_slot_{self.slot}.request"

    def row(self) -> dict:
        """Its row in the list that is filed; the tester fills in the verdict."""
        return {
            "proof": self.proof,
            "slot": self.slot,
            "algorithm": self.algorithm,
            "digest": self.digest.hex(),
            "hash": self.hash.hex(),
            "length": len(self.data),
            "file": self.file,
            "verdict": None,
        }


@dataclass(frozen=True)
class Made:
    """A scene, None where its text is none; the text that was decided for it, its answer, and the requests that were made."""

    scene: Scene | None
    text: bytes
    answer: Answer
    requests: list[Request]

    @property
    def all_made(self) -> bool:
        return self.answer.number == THRESHOLD_UNSATISFIED


def _parts(requests: bytes) -> list[bytes]:
    """Requests that stand end to end, one by one."""
    parts, at = [], 0
    while at < len(requests):
        aux, proof = (number_at(requests, at + field, 4) for field in (AUX_LEN_AT, PROOF_LEN_AT))
        end = at + REQUEST_HEADER_LEN + aux + proof
        parts.append(requests[at:end])
        at = end
    return parts


def _request(library: Library, place: int, data: bytes) -> Request:
    fields = library.parse_verifier_request(data)
    return Request(place, fields.slot, fields.algorithm, fields.digest, library.ckb_hash(data), data)


def _read(text: bytes) -> Scene | None:
    try:
        return scene.read(text)
    except LineFault:
        return None


def make(library: Library, text: bytes) -> Made:
    """The requests of all proofs, or of those before the one at fault; a text that is no scene is decided as it is."""
    read = _read(text)
    decided = read.with_verdicts(ALL_REFUSED).text() if read else text
    answer = library.decide_scene(decided)
    parts = enumerate(_parts(answer.requests), 1)
    return Made(read, decided, answer, [_request(library, place, data) for place, data in parts])


def rows_of(name: str, text: str) -> list[dict]:
    """The rows of a list that was filed: each has a hash and a verdict, or null."""
    try:
        rows = json.loads(text)
    except json.JSONDecodeError as error:
        raise Misuse(f"{name}: line {error.lineno}: {error.msg}") from None
    if not isinstance(rows, list):
        raise Misuse(f"{name}: line 1: this is no list of requests")
    for place, row in enumerate(rows, 1):
        if not isinstance(row, dict) or not isinstance(row.get("hash"), str):
            raise Misuse(f"{name}: row {place}: it has no hash")
        if row.get("verdict") not in (None, *VERDICTS):
            raise Misuse(f"{name}: row {place}: its verdict is none of {', '.join(VERDICTS)} and null")
    return rows


def difference(made: Made, rows: list[dict]) -> str | None:
    """Why a list is not of this scene's requests."""
    for request, row in zip(made.requests, rows):
        if row["hash"] != request.hash.hex():
            return f"row {request.proof}: its request's hash is {row['hash']}, this scene's is {request.hash.hex()}"
    if len(rows) != len(made.requests):
        return f"it has {len(rows)} requests, this scene has {len(made.requests)}"
    return None


def digits_of(rows: list[dict]) -> str:
    """The verdicts line's digits; a request without a verdict has failed."""
    return "".join(VERDICTS[row.get("verdict") or "failed"] for row in rows)
