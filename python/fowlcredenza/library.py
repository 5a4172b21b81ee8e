"""The exported functions, called in the shared object that tools/library makes.

A refusal is an exception with number, name and words. `lock` and `decide_scene` return their answer with its number and do not
raise; `is_supported_algorithm` and `table_valid` return a bool. Bytes go in and come out: a place that a function stores as an
offset and a length is handed out as the bytes there.
"""

from __future__ import annotations

import ctypes
import struct
from pathlib import Path
from typing import Sequence

from .answer import Answer
from .declarations import FUNCTIONS, KINDS, PREFIX, RESULT, SIZES, WORDS
from .errors import Misuse
from .numbers import ACCEPTED, row_of
from .paths import library_path, short
from .protocol import STATE_HEADER_LEN, WITNESS_HEADER_LEN
from .readings import (
    Args,
    Entry,
    Proof,
    PublicKeyProof,
    ReadScene,
    RequestNumbers,
    State,
    StateHeader,
    VerifierRequest,
    WitnessHeader,
)

HOW = "`tools/fowlcredenza build` makes one, in about ten minutes, or two where the crates are proved already"


class Refusal(Exception):
    """A function's refusal: its number, the error's name, and docs/NUMBERS.md's words."""

    def __init__(self, function: str, number: int):
        row = row_of(number)
        self.function, self.number, self.name, self.words = function, number, row.name, row.words
        super().__init__(f"{function}: {number}, {self.name}: {self.words}")


def _open(path: Path) -> ctypes.CDLL:
    """The shared object; where it is missing, what makes it."""
    if not path.exists():
        raise Misuse(f"there is no library {short(path)}; {HOW}")
    try:
        return ctypes.CDLL(str(path))
    except OSError as error:
        raise Misuse(f"the library cannot be loaded: {error}") from None


def _functions(path: Path) -> dict:
    """The exported functions by their names, with their types."""
    opened = _open(path)
    functions = {}
    for name, types in FUNCTIONS.items():
        try:
            function = getattr(opened, PREFIX + name)
        except AttributeError:
            raise Misuse(f"{short(path)} has no function {PREFIX}{name}; {HOW}") from None
        function.restype, function.argtypes = KINDS[RESULT], [KINDS[kind] for kind in types]
        functions[name] = function
    return functions


def _lent(data: bytes) -> tuple[bytes, int]:
    return bytes(data), len(data)


def _fitting(kind, value: int) -> int:
    """The number, where its type holds it: ctypes would drop its upper bits."""
    if value >> 8 * ctypes.sizeof(kind):
        raise OverflowError(f"{value} is no {kind.__name__.removeprefix('c_')}")
    return value


def _array(kind, values: Sequence[int]) -> tuple[ctypes.Array, int]:
    """Numbers as a lent slice; the pointer of an empty one is not null."""
    return (kind * max(1, len(values)))(*(_fitting(kind, value) for value in values)), len(values)


class Library:
    """The exported functions. One object lends the same buffers at each call, so it serves one thread."""

    def __init__(self, path: Path | str | None = None):
        self.path = Path(path) if path else library_path()
        self._functions = _functions(self.path)
        self._store = (ctypes.c_uint8 * SIZES["SCENE_MAX_LEN"])()
        self._table = (ctypes.c_uint32 * SIZES["TABLE_LEN"])()
        self._answer = (ctypes.c_uint8 * SIZES["ANSWER_LEN"])()
        self._out = (ctypes.c_uint8 * SIZES["LOCK_OUT_LEN"])()

    # How functions are called.

    def _call(self, name: str, *arguments) -> int:
        function = self._functions[name]
        for kind, argument in zip(function.argtypes, arguments):
            if isinstance(argument, int):
                _fitting(kind, argument)
        return function(*arguments)

    def _accepted(self, name: str, *arguments) -> None:
        number = self._call(name, *arguments)
        if number != ACCEPTED:
            raise Refusal(name, number)

    def _words(self, name: str, *arguments) -> tuple[int, ...]:
        """The words that a function stores."""
        size = 8 * WORDS[name]
        out = (ctypes.c_uint8 * size)()
        self._accepted(name, *arguments, out, size)
        return struct.unpack(f"<{WORDS[name]}Q", out)

    def _hash(self, name: str, *arguments) -> bytes:
        out = (ctypes.c_uint8 * SIZES["HASH_LEN"])()
        self._accepted(name, *arguments, out, len(out))
        return bytes(out)

    def _written(self, name: str, room: int, *arguments) -> bytes:
        """What a writer writes into a buffer with that room."""
        out, length = (ctypes.c_uint8 * room)(), ctypes.c_size_t()
        self._accepted(name, *arguments, out, room, length)
        return bytes(out[: length.value])

    # The hash, and numbers of algorithms and operations.

    def ckb_hash(self, data: bytes) -> bytes:
        return self._hash("ckb_hash", *_lent(data))

    def is_supported_algorithm(self, algorithm: int) -> bool:
        return self._call("is_supported_algorithm", algorithm) == 1

    def capability_for_operation(self, operation: int) -> int:
        return self._words("capability_for_operation", operation)[0]

    # Readers.

    def parse_args(self, args: bytes) -> Args:
        version, account = self._words("parse_args", *_lent(args))
        return Args(version, args[account : account + SIZES["HASH_LEN"]])

    def parse_state_header(self, state: bytes) -> StateHeader:
        return StateHeader(*self._words("parse_state_header", *_lent(state)))

    def validate_state(self, state: bytes) -> State:
        words = self._words("validate_state", *_lent(state))
        return State(StateHeader(*words[:7]), *words[7:])

    def next_entry(self, state: bytes, offset: int = STATE_HEADER_LEN, least: int = 0) -> Entry:
        words = self._words("next_entry", *_lent(state), offset, least)
        code, key, key_len, aux, aux_len = words[6:11]
        parts = (state[code : code + SIZES["HASH_LEN"]], state[key : key + key_len], state[aux : aux + aux_len])
        return Entry(*words[:6], *parts, *words[11:])

    def entries(self, state: bytes) -> list[Entry]:
        """All entries of a state, as many as its header says."""
        offset, least, found = STATE_HEADER_LEN, 0, []
        for _ in range(self.parse_state_header(state).count):
            found.append(self.next_entry(state, offset, least))
            offset, least = found[-1].offset, found[-1].least
        return found

    def parse_witness_header(self, witness: bytes) -> WitnessHeader:
        return WitnessHeader(*self._words("parse_witness_header", *_lent(witness)))

    def validate_witness(self, witness: bytes) -> WitnessHeader:
        return WitnessHeader(*self._words("validate_witness", *_lent(witness)))

    def next_proof(self, witness: bytes, offset: int = WITNESS_HEADER_LEN, least: int = 0) -> Proof:
        slot, proof, length, *following = self._words("next_proof", *_lent(witness), offset, least)
        return Proof(slot, witness[proof : proof + length], *following)

    def parse_verifier_request(self, request: bytes) -> VerifierRequest:
        words = self._words("parse_verifier_request", *_lent(request))
        digest, key, aux, aux_len, proof, proof_len = words[4:]
        hashes = (request[digest : digest + SIZES["HASH_LEN"]], request[key : key + SIZES["HASH_LEN"]])
        return VerifierRequest(*words[:4], *hashes, request[aux : aux + aux_len], request[proof : proof + proof_len])

    def parse_public_key_proof(self, proof: bytes) -> PublicKeyProof:
        key, key_len, signature, signature_len = self._words("parse_public_key_proof", *_lent(proof))
        return PublicKeyProof(proof[key : key + key_len], proof[signature : signature + signature_len])

    # Writers.

    def account_lock_args(self, account: bytes) -> bytes:
        return self._written("account_lock_args", SIZES["ACCOUNT_LOCK_ARGS_LEN"], *_lent(account))

    def encode_state(self, header: StateHeader, entries: Sequence[Entry]) -> bytes:
        """A state of that header and these entries, by whose number the header's count is."""
        fields = [
            number
            for entry in entries
            for number in (entry.slot, entry.algorithm, entry.capabilities, entry.weight, len(entry.aux))
        ]
        parts = (bytes([entry.hash_type, entry.abi]) + entry.code_hash + entry.key + entry.aux for entry in entries)
        numbers = (*header[:5], header.recovery_since)
        lent = (*_array(ctypes.c_uint16, fields), *_lent(b"".join(parts)))
        return self._written("encode_state", SIZES["ACCOUNT_STATE_MAX_LEN"], *numbers, *lent)

    def encode_witness(self, operation: int, sequence: int, proofs: Sequence[Proof]) -> bytes:
        slots = _array(ctypes.c_uint16, [proof.slot for proof in proofs])
        lengths = _array(ctypes.c_uint32, [len(proof.proof) for proof in proofs])
        lent = (*slots, *lengths, *_lent(b"".join(proof.proof for proof in proofs)))
        return self._written("encode_witness", SIZES["ACCOUNT_WITNESS_MAX_LOCK_LEN"], operation, sequence, *lent)

    def encode_verifier_request(self, request: VerifierRequest) -> bytes:
        parts = (part for field in request[4:] for part in _lent(field))
        return self._written("encode_verifier_request", SIZES["VERIFIER_MAX_REQUEST_LEN"], *request[:4], *parts)

    def encode_public_key_proof(self, proof: PublicKeyProof) -> bytes:
        parts = (*_lent(proof.key), *_lent(proof.signature))
        return self._written("encode_public_key_proof", SIZES["PUBLIC_KEY_PROOF_MAX_LEN"], *parts)

    # The witnesses, the script and the hashes of a transaction.

    def witness_lock(self, witness: bytes) -> bytes:
        start, length = self._words("witness_lock", *_lent(witness))
        return witness[start : start + length]

    def script_args(self, script: bytes) -> bytes:
        start, length = self._words("script_args", *_lent(script))
        return script[start : start + length]

    def canonical_witness(self, witness: bytes) -> bytes:
        """The witness with an empty lock; it has at most four bytes more."""
        return self._written("canonical_witness", len(witness) + 4, *_lent(witness))

    def authorization_digest(self, operation: int, account: bytes, sequence: int, state: bytes, sighash: bytes) -> bytes:
        lent = (*_lent(account), sequence, *_lent(state), *_lent(sighash))
        return self._hash("authorization_digest", operation, *lent)

    def canonical_group_sighash(self, scene: ReadScene) -> bytes:
        return self._hash("canonical_group_sighash", scene.table, len(scene.table), *_lent(scene.store))

    # The scene and the lock.

    def read_scene(self, scene: bytes) -> ReadScene:
        """The table and the store of a scene. A store as long as the scene holds its bytes."""
        store, table = (ctypes.c_uint8 * max(1, len(scene)))(), (ctypes.c_uint32 * SIZES["TABLE_LEN"])()
        self._accepted("read_scene", *_lent(scene), store, len(scene), table, len(table))
        return ReadScene(table, bytes(store[: len(scene)]))

    def table_valid(self, table: Sequence[int], store_len: int) -> bool:
        return self._call("table_valid", *_array(ctypes.c_uint32, table), store_len) == 1

    def lock(self, table: Sequence[int], store: bytes) -> Answer:
        """Decides what table and store hold."""
        lent = (*_array(ctypes.c_uint32, table), *_lent(store))
        return self._answered(self._call("lock", *lent, *self._lent_answer()))

    def decide_scene(self, scene: bytes) -> Answer:
        """Reads a scene and decides it. A store as long as the scene holds its bytes, and a longer scene is not read."""
        room = min(len(scene), SIZES["SCENE_MAX_LEN"])
        lent = (*_lent(scene), self._store, room, self._table, SIZES["TABLE_LEN"])
        return self._answered(self._call("decide_scene", *lent, *self._lent_answer()))

    def _lent_answer(self) -> tuple:
        return self._answer, SIZES["ANSWER_LEN"], self._out, SIZES["LOCK_OUT_LEN"]

    def _answered(self, number: int) -> Answer:
        """The answer that stands in the lent buffers."""
        count, length, reached, digest, fee = struct.unpack("<QQQ32sQ", self._out)
        requests = ctypes.string_at(self._answer, length)
        return Answer(number, count, length, digest if reached else None, fee if number == ACCEPTED else None, requests)

    # The fields of a request.

    def request_numbers(self, request: bytes) -> RequestNumbers:
        return RequestNumbers(*self._words("request_numbers", *_lent(request)))

    def request_authorization_digest(self, request: bytes) -> bytes:
        return self._written("request_authorization_digest", SIZES["HASH_LEN"], *_lent(request))

    def request_key_id(self, request: bytes) -> bytes:
        return self._written("request_key_id", SIZES["HASH_LEN"], *_lent(request))

    def request_aux(self, request: bytes) -> bytes:
        return self._written("request_aux", SIZES["VERIFIER_MAX_AUX_LEN"], *_lent(request))

    def request_proof(self, request: bytes) -> bytes:
        return self._written("request_proof", SIZES["VERIFIER_MAX_PROOF_LEN"], *_lent(request))
