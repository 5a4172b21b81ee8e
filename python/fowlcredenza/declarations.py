"""The library's functions and sizes as include/fowlcredenza.h declares them; a test compares the two."""

from __future__ import annotations

import ctypes

# The ctypes of the header's types. A `const` slice of bytes is lent as `bytes` are, without a copy.
KINDS = {
    "uint8_t": ctypes.c_uint8,
    "uint16_t": ctypes.c_uint16,
    "uint32_t": ctypes.c_uint32,
    "uint64_t": ctypes.c_uint64,
    "size_t": ctypes.c_size_t,
    "const uint8_t *": ctypes.c_char_p,
    "const uint16_t *": ctypes.POINTER(ctypes.c_uint16),
    "const uint32_t *": ctypes.POINTER(ctypes.c_uint32),
    "uint8_t *": ctypes.POINTER(ctypes.c_uint8),
    "uint32_t *": ctypes.POINTER(ctypes.c_uint32),
    "size_t *": ctypes.POINTER(ctypes.c_size_t),
}
PREFIX = "fowlcredenza_"
# What every function returns.
RESULT = "uint32_t"

U8, U16, U32, U64, SIZE = ("uint8_t",), ("uint16_t",), ("uint32_t",), ("uint64_t",), ("size_t",)
BYTES, U16S, U32S = (("const uint8_t *", *SIZE), ("const uint16_t *", *SIZE), ("const uint32_t *", *SIZE))
BUFFER, TABLE = ("uint8_t *", *SIZE), ("uint32_t *", *SIZE)
LENGTH = ("size_t *",)

# The types of each function's parameters; its name is without the prefix.
FUNCTIONS = {
    "ckb_hash": BYTES + BUFFER,
    "is_supported_algorithm": U16,
    "capability_for_operation": U8 + BUFFER,
    "parse_args": BYTES + BUFFER,
    "parse_state_header": BYTES + BUFFER,
    "validate_state": BYTES + BUFFER,
    "next_entry": BYTES + SIZE + U32 + BUFFER,
    "parse_witness_header": BYTES + BUFFER,
    "validate_witness": BYTES + BUFFER,
    "next_proof": BYTES + SIZE + U32 + BUFFER,
    "parse_verifier_request": BYTES + BUFFER,
    "parse_public_key_proof": BYTES + BUFFER,
    "account_lock_args": BYTES + BUFFER + LENGTH,
    "encode_state": U8 + U64 + U16 + U16 + U16 + U64 + U16S + BYTES + BUFFER + LENGTH,
    "encode_witness": U8 + U64 + U16S + U32S + BYTES + BUFFER + LENGTH,
    "encode_verifier_request": U16 + U16 + U8 + U8 + BYTES + BYTES + BYTES + BYTES + BUFFER + LENGTH,
    "encode_public_key_proof": BYTES + BYTES + BUFFER + LENGTH,
    "witness_lock": BYTES + BUFFER,
    "script_args": BYTES + BUFFER,
    "canonical_witness": BYTES + BUFFER + LENGTH,
    "authorization_digest": U8 + BYTES + U64 + BYTES + BYTES + BUFFER,
    "canonical_group_sighash": U32S + BYTES + BUFFER,
    "read_scene": BYTES + BUFFER + TABLE,
    "table_valid": U32S + SIZE,
    "lock": U32S + BYTES + BUFFER + BUFFER,
    "decide_scene": BYTES + BUFFER + TABLE + BUFFER + BUFFER,
    "request_numbers": BYTES + BUFFER,
    "request_authorization_digest": BYTES + BUFFER + LENGTH,
    "request_key_id": BYTES + BUFFER + LENGTH,
    "request_aux": BYTES + BUFFER + LENGTH,
    "request_proof": BYTES + BUFFER + LENGTH,
}

# The header's sizes that are used here, by their names without the prefix.
SIZES = {
    "SCENE_MAX_LEN": 1048576,
    "PROGRAM_SCENE_MAX_LEN": 65536,
    "TABLE_LEN": 2048,
    "ANSWER_LEN": 148992,
    "ACCOUNT_LOCK_ARGS_LEN": 33,
    "ACCOUNT_STATE_MAX_LEN": 16384,
    "ACCOUNT_STATE_MAX_AUX_LEN": 2593,
    "ACCOUNT_WITNESS_MAX_LOCK_LEN": 131072,
    "VERIFIER_MAX_REQUEST_LEN": 69728,
    "VERIFIER_MAX_AUX_LEN": 4096,
    "VERIFIER_MAX_PROOF_LEN": 65536,
    "PUBLIC_KEY_PROOF_MAX_LEN": 131075,
    "HASH_LEN": 32,
    "LOCK_OUT_LEN": 64,
}
# How many words a function stores in `out`; the header has their bytes as .._OUT_LEN.
WORDS = {
    "capability_for_operation": 1,
    "parse_args": 2,
    "parse_state_header": 7,
    "validate_state": 10,
    "next_entry": 13,
    "parse_witness_header": 3,
    "validate_witness": 3,
    "next_proof": 5,
    "parse_verifier_request": 10,
    "parse_public_key_proof": 4,
    "witness_lock": 2,
    "script_args": 2,
    "request_numbers": 4,
}
