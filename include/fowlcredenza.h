/* The functions of libfowlcredenza.a, which tools/library makes. `include/fowlcredenza.rs` declares the same for Rust;
 * target/lib/libfowlcredenza.so has them for languages that load a library.
 *
 * A caller must see to this; no function can test it:
 * - A slice is a pointer and the number of its elements (of bytes for `uint8_t`, of entries for the wider ones). So many
 *   elements are there, and the pointer is aligned for them and not NULL, not even where the number is 0.
 * - A slice that is not `const` is written. It shares no memory with another slice of the same call; `const` slices may
 *   share memory with each other.
 * - `len` is aligned and not NULL. It shares no memory with a slice of the same call.
 *
 * A function returns the number of docs/NUMBERS.md, 0 accepted, unless its comment says otherwise. docs/LAYOUTS.md has the
 * layouts of slices. A function with an `out` and no `len` stores its numbers as 64-bit little-endian words, or a hash as 32
 * bytes, at the front of `out`; the bytes after them stay. Places are offsets into the input. An `out` that is too short for all
 * of it is 5, after every other refusal. A refusal leaves `out` and `len` as they were. Where the two functions of the lock
 * differ, their comment says it. */
#ifndef FOWLCREDENZA_H
#define FOWLCREDENZA_H

#include <stddef.h>
#include <stdint.h>

#ifdef __cplusplus
extern "C" {
#endif

/* Numbers, as docs/NUMBERS.md has them. */
enum fowlcredenza_number {
    FOWLCREDENZA_ACCEPTED = 0,
    FOWLCREDENZA_SCENE_TOO_LONG = 1,
    FOWLCREDENZA_INVALID_LINE = 2,
    FOWLCREDENZA_INVALID_FIELD = 3,
    FOWLCREDENZA_TOO_MANY_LINES = 4,
    FOWLCREDENZA_BUFFER_TOO_SHORT = 5,
    FOWLCREDENZA_STORE_TOO_SHORT = 6,
    FOWLCREDENZA_SLICES_DISAGREE = 7,
    FOWLCREDENZA_INVALID_ARGS = 20,
    FOWLCREDENZA_INVALID_STATE = 21,
    FOWLCREDENZA_INVALID_WITNESS = 22,
    FOWLCREDENZA_STATE_NOT_FOUND = 23,
    FOWLCREDENZA_DUPLICATE_STATE = 24,
    FOWLCREDENZA_STATE_CONSUMED_ON_SPEND = 25,
    FOWLCREDENZA_INVALID_TRANSITION = 26,
    FOWLCREDENZA_INVALID_SEQUENCE = 27,
    FOWLCREDENZA_THRESHOLD_UNSATISFIED = 28,
    FOWLCREDENZA_INVALID_CAPABILITY = 29,
    FOWLCREDENZA_INVALID_VERIFIER_REF = 30,
    FOWLCREDENZA_VERIFIER_FAILURE = 31,
    FOWLCREDENZA_UNSUPPORTED_VERSION = 32,
    FOWLCREDENZA_UNSUPPORTED_ALGORITHM = 33,
    FOWLCREDENZA_RECOVERY_LOCKED = 34,
    FOWLCREDENZA_INVALID_REQUEST = 35,
    FOWLCREDENZA_INVALID_PROOF = 36,
    FOWLCREDENZA_INVALID_OPERATION = 37,
    FOWLCREDENZA_UNSATISFIABLE_THRESHOLD = 38,
    FOWLCREDENZA_LENGTH_OVERFLOW = 39,
    FOWLCREDENZA_HASH_MISMATCH = 40,
    FOWLCREDENZA_INVALID_SINCE = 42,
    FOWLCREDENZA_AUX_TOO_LONG = 44,
    FOWLCREDENZA_OUTPUTS_EXCEED_INPUTS = 48,
    FOWLCREDENZA_SESSION_WITHDRAWN = 49
};

/* Sizes of buffers, in bytes; of a table, in entries. */
enum fowlcredenza_size {
    /* The longest scene that the reader takes, and the program; a store for each, as long as the scene; a table; an answer
     * buffer that is enough for any scene. */
    FOWLCREDENZA_SCENE_MAX_LEN = 1048576,
    FOWLCREDENZA_PROGRAM_SCENE_MAX_LEN = 65536,
    FOWLCREDENZA_STORE_LEN = 1048576,
    FOWLCREDENZA_PROGRAM_STORE_LEN = 65536,
    FOWLCREDENZA_TABLE_LEN = 2048,
    FOWLCREDENZA_ANSWER_LEN = 148992,
    /* At their longest: args, a state, an aux in it, a witness lock, a request, its aux and its proof, a public-key proof; a
     * witness that the lock takes, and its canonical form, which has at most four bytes more than it; a hash. */
    FOWLCREDENZA_ACCOUNT_LOCK_ARGS_LEN = 33,
    FOWLCREDENZA_ACCOUNT_STATE_MAX_LEN = 16384,
    FOWLCREDENZA_ACCOUNT_STATE_MAX_AUX_LEN = 2593,
    FOWLCREDENZA_ACCOUNT_WITNESS_MAX_LOCK_LEN = 131072,
    FOWLCREDENZA_VERIFIER_MAX_REQUEST_LEN = 69728,
    FOWLCREDENZA_VERIFIER_MAX_AUX_LEN = 4096,
    FOWLCREDENZA_VERIFIER_MAX_PROOF_LEN = 65536,
    FOWLCREDENZA_PUBLIC_KEY_PROOF_MAX_LEN = 131075,
    FOWLCREDENZA_WITNESS_MAX_LEN = 132096,
    FOWLCREDENZA_CANONICAL_WITNESS_MAX_LEN = 132100,
    FOWLCREDENZA_HASH_LEN = 32,
    /* What the function of that name stores in `out`; fowlcredenza_decide_scene as fowlcredenza_lock. */
    FOWLCREDENZA_CAPABILITY_FOR_OPERATION_OUT_LEN = 8,
    FOWLCREDENZA_PARSE_ARGS_OUT_LEN = 16,
    FOWLCREDENZA_PARSE_STATE_HEADER_OUT_LEN = 56,
    FOWLCREDENZA_VALIDATE_STATE_OUT_LEN = 80,
    FOWLCREDENZA_NEXT_ENTRY_OUT_LEN = 104,
    FOWLCREDENZA_PARSE_WITNESS_HEADER_OUT_LEN = 24,
    FOWLCREDENZA_VALIDATE_WITNESS_OUT_LEN = 24,
    FOWLCREDENZA_NEXT_PROOF_OUT_LEN = 40,
    FOWLCREDENZA_PARSE_VERIFIER_REQUEST_OUT_LEN = 80,
    FOWLCREDENZA_PARSE_PUBLIC_KEY_PROOF_OUT_LEN = 32,
    FOWLCREDENZA_WITNESS_LOCK_OUT_LEN = 16,
    FOWLCREDENZA_SCRIPT_ARGS_OUT_LEN = 16,
    FOWLCREDENZA_REQUEST_NUMBERS_OUT_LEN = 32,
    FOWLCREDENZA_LOCK_OUT_LEN = 64
};

/* The hash, 32 bytes. */

uint32_t fowlcredenza_ckb_hash(const uint8_t *data, size_t data_len, uint8_t *out, size_t out_len);

/* Numbers of algorithms and operations. */

/* 1 or 0. */
uint32_t fowlcredenza_is_supported_algorithm(uint16_t algorithm);

/* The capability bit, as a word. */
uint32_t fowlcredenza_capability_for_operation(uint8_t operation, uint8_t *out, size_t out_len);

/* Readers. */

/* Version, place of the account id. */
uint32_t fowlcredenza_parse_args(const uint8_t *args, size_t args_len, uint8_t *out,
                                 size_t out_len);

/* Flags, sequence, spend, rotate and recovery thresholds, count, recovery_since. */
uint32_t fowlcredenza_parse_state_header(const uint8_t *state, size_t state_len, uint8_t *out,
                                         size_t out_len);

/* The same, then the weights of the holders of spend, rotate and recovery. An aux above 2,593 bytes is 44, after
 * the other faults of its entry and before those of later ones. */
uint32_t fowlcredenza_validate_state(const uint8_t *state, size_t state_len, uint8_t *out,
                                     size_t out_len);

/* Slot, algorithm, capabilities, weight, hash type, ABI, place of the code hash, place and length of key and of aux,
 * offset and least slot of the next entry. The first entry has offset 32 and least slot 0. An aux above 2,593 bytes is 44,
 * after the other faults of its entry. */
uint32_t fowlcredenza_next_entry(const uint8_t *state, size_t state_len, size_t offset,
                                 uint32_t least, uint8_t *out, size_t out_len);

/* Operation, proof count, sequence. More than 16 proofs are not refused here. */
uint32_t fowlcredenza_parse_witness_header(const uint8_t *witness, size_t witness_len,
                                           uint8_t *out, size_t out_len);

/* The same, of a witness lock whose every proof passes and that has at most 16 of them. */
uint32_t fowlcredenza_validate_witness(const uint8_t *witness, size_t witness_len, uint8_t *out,
                                       size_t out_len);

/* Slot, place and length of the proof, offset and least slot of the next one. The first proof has offset 16 and least
 * slot 0. A step does not count the proofs: after as many as the header says, the offset is where they end. */
uint32_t fowlcredenza_next_proof(const uint8_t *witness, size_t witness_len, size_t offset,
                                 uint32_t least, uint8_t *out, size_t out_len);

/* Algorithm, slot, operation, profile, places of digest and key, place and length of aux and of proof. */
uint32_t fowlcredenza_parse_verifier_request(const uint8_t *request, size_t request_len,
                                             uint8_t *out, size_t out_len);

/* Place and length of key and of signature. */
uint32_t fowlcredenza_parse_public_key_proof(const uint8_t *proof, size_t proof_len, uint8_t *out,
                                             size_t out_len);

/* Writers. `len` takes the length written. */

uint32_t fowlcredenza_account_lock_args(const uint8_t *account, size_t account_len, uint8_t *out,
                                        size_t out_len, size_t *len);

/* An aux above 2,593 bytes is 44, after every other refusal but 5. Flag 2 and capability 0x0008 are written: the lock alone
 * refuses them, in a successor. */
uint32_t fowlcredenza_encode_state(uint8_t flags, uint64_t sequence, uint16_t spend,
                                   uint16_t rotate, uint16_t recovery, uint64_t since,
                                   const uint16_t *fields, size_t fields_len, const uint8_t *bytes,
                                   size_t bytes_len, uint8_t *out, size_t out_len, size_t *len);

uint32_t fowlcredenza_encode_witness(uint8_t operation, uint64_t sequence, const uint16_t *slots,
                                     size_t slots_len, const uint32_t *lengths, size_t lengths_len,
                                     const uint8_t *bytes, size_t bytes_len, uint8_t *out,
                                     size_t out_len, size_t *len);

uint32_t fowlcredenza_encode_verifier_request(uint16_t algorithm, uint16_t slot, uint8_t operation,
                                              uint8_t profile, const uint8_t *digest,
                                              size_t digest_len, const uint8_t *key,
                                              size_t key_len, const uint8_t *aux, size_t aux_len,
                                              const uint8_t *proof, size_t proof_len, uint8_t *out,
                                              size_t out_len, size_t *len);

uint32_t fowlcredenza_encode_public_key_proof(const uint8_t *key, size_t key_len,
                                              const uint8_t *signature, size_t signature_len,
                                              uint8_t *out, size_t out_len, size_t *len);

/* The witnesses, the script and the hashes of a transaction. */

/* Place and length of the lock's bytes. */
uint32_t fowlcredenza_witness_lock(const uint8_t *witness, size_t witness_len, uint8_t *out,
                                   size_t out_len);

/* Place and length of the args' bytes. */
uint32_t fowlcredenza_script_args(const uint8_t *script, size_t script_len, uint8_t *out,
                                  size_t out_len);

uint32_t fowlcredenza_canonical_witness(const uint8_t *witness, size_t witness_len, uint8_t *out,
                                        size_t out_len, size_t *len);

/* The digest, 32 bytes. */
uint32_t fowlcredenza_authorization_digest(uint8_t operation, const uint8_t *account,
                                           size_t account_len, uint64_t sequence,
                                           const uint8_t *state, size_t state_len,
                                           const uint8_t *sighash, size_t sighash_len, uint8_t *out,
                                           size_t out_len);

/* The sighash of what table and store hold, 32 bytes. A table that no scene, its length aside, leaves with a store of
 * that length is 7. */
uint32_t fowlcredenza_canonical_group_sighash(const uint32_t *table, size_t table_len,
                                              const uint8_t *store, size_t store_len, uint8_t *out,
                                              size_t out_len);

/* The scene. */

/* Reads a scene into the store and the table, which are all zero after a refusal. */
uint32_t fowlcredenza_read_scene(const uint8_t *scene, size_t scene_len, uint8_t *store,
                                 size_t store_len, uint32_t *table, size_t table_len);

/* 1 where some scene, its length aside, leaves this table with a store of that length, else 0. */
uint32_t fowlcredenza_table_valid(const uint32_t *table, size_t table_len, size_t store_len);

/* The lock. */

/* Decides what table and store hold; the requests go to the front of `answer`. Whatever the number, `out` takes count and
 * length of the requests and 1 where there is a digest, as words, then the digest's 32 bytes, zeros where there is none, then
 * the fee as a word, which is what all inputs have less what all outputs have, and 0 where the number is not 0. An `out` below
 * 64 bytes is 7 before all else, and then nothing is written anywhere. Where document 02's numbers stand among the others:
 * - 40 after 7, before the script's: a type hash is not that of its type script, or a data hash not that of its data.
 * - 44 in a state, the current one and the successor, after the other faults of its entry: an aux above 2,593 bytes.
 * - 49 after the successor's own refusals, before its sequence's: it has flag 2, or an entry with capability 0x0008.
 * - 42, then 34, after 29, in a recovery whose recovery_since is not 0: 42 where it or the input's since is malformed, 34 where
 *   relative flag or metric differ or the input's value is lower.
 * - 39, then 48, after all others: the inputs' total or the outputs' passes 2^64-1; the outputs' exceeds the inputs'. */
uint32_t fowlcredenza_lock(const uint32_t *table, size_t table_len, const uint8_t *store,
                           size_t store_len, uint8_t *answer, size_t answer_len, uint8_t *out,
                           size_t out_len);

/* Reads a scene as `fowlcredenza_read_scene` does, and decides it as `fowlcredenza_lock` does. An `out` below 64 bytes is 7
 * here too. */
uint32_t fowlcredenza_decide_scene(const uint8_t *scene, size_t scene_len, uint8_t *store,
                                   size_t store_len, uint32_t *table, size_t table_len,
                                   uint8_t *answer, size_t answer_len, uint8_t *out,
                                   size_t out_len);

/* The fields of a request. Each function refuses what `fowlcredenza_parse_verifier_request` refuses, then
 * gives 5 where `out` is too short for all that it stores. */

/* Algorithm, slot, operation, profile: four words. */
uint32_t fowlcredenza_request_numbers(const uint8_t *request, size_t request_len, uint8_t *out,
                                      size_t out_len);

/* The bytes of a part, to the front of `out`; `len` takes their number. Digest and key have 32, an aux at most 4,096, a proof
 * at most 65,536. */
uint32_t fowlcredenza_request_authorization_digest(const uint8_t *request, size_t request_len,
                                                   uint8_t *out, size_t out_len, size_t *len);

uint32_t fowlcredenza_request_key_id(const uint8_t *request, size_t request_len, uint8_t *out,
                                     size_t out_len, size_t *len);

uint32_t fowlcredenza_request_aux(const uint8_t *request, size_t request_len, uint8_t *out,
                                  size_t out_len, size_t *len);

uint32_t fowlcredenza_request_proof(const uint8_t *request, size_t request_len, uint8_t *out,
                                    size_t out_len, size_t *len);

#ifdef __cplusplus
}
#endif

#endif
