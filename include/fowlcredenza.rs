//! The functions of libfowlcredenza.a, which tools/library makes, as `include/fowlcredenza.h` declares them for C; what a
//! caller must see to, and what they do with what they are lent, is said there.

/// Numbers, as docs/NUMBERS.md has them.
#[allow(dead_code)]
pub mod number {
    pub const ACCEPTED: u32 = 0;
    pub const SCENE_TOO_LONG: u32 = 1;
    pub const INVALID_LINE: u32 = 2;
    pub const INVALID_FIELD: u32 = 3;
    pub const TOO_MANY_LINES: u32 = 4;
    pub const BUFFER_TOO_SHORT: u32 = 5;
    pub const STORE_TOO_SHORT: u32 = 6;
    pub const SLICES_DISAGREE: u32 = 7;
    pub const INVALID_ARGS: u32 = 20;
    pub const INVALID_STATE: u32 = 21;
    pub const INVALID_WITNESS: u32 = 22;
    pub const STATE_NOT_FOUND: u32 = 23;
    pub const DUPLICATE_STATE: u32 = 24;
    pub const STATE_CONSUMED_ON_SPEND: u32 = 25;
    pub const INVALID_TRANSITION: u32 = 26;
    pub const INVALID_SEQUENCE: u32 = 27;
    pub const THRESHOLD_UNSATISFIED: u32 = 28;
    pub const INVALID_CAPABILITY: u32 = 29;
    pub const INVALID_VERIFIER_REF: u32 = 30;
    pub const VERIFIER_FAILURE: u32 = 31;
    pub const UNSUPPORTED_VERSION: u32 = 32;
    pub const UNSUPPORTED_ALGORITHM: u32 = 33;
    pub const RECOVERY_LOCKED: u32 = 34;
    pub const INVALID_REQUEST: u32 = 35;
    pub const INVALID_PROOF: u32 = 36;
    pub const INVALID_OPERATION: u32 = 37;
    pub const UNSATISFIABLE_THRESHOLD: u32 = 38;
    pub const LENGTH_OVERFLOW: u32 = 39;
    pub const HASH_MISMATCH: u32 = 40;
    pub const INVALID_SINCE: u32 = 42;
    pub const AUX_TOO_LONG: u32 = 44;
    pub const OUTPUTS_EXCEED_INPUTS: u32 = 48;
    pub const SESSION_WITHDRAWN: u32 = 49;
}

/// Sizes of buffers, as `include/fowlcredenza.h` has them.
#[allow(dead_code)]
pub mod size {
    pub const SCENE_MAX_LEN: usize = 1_048_576;
    pub const PROGRAM_SCENE_MAX_LEN: usize = 65_536;
    pub const STORE_LEN: usize = 1_048_576;
    pub const PROGRAM_STORE_LEN: usize = 65_536;
    pub const TABLE_LEN: usize = 2_048;
    pub const ANSWER_LEN: usize = 148_992;
    pub const ACCOUNT_LOCK_ARGS_LEN: usize = 33;
    pub const ACCOUNT_STATE_MAX_LEN: usize = 16_384;
    pub const ACCOUNT_STATE_MAX_AUX_LEN: usize = 2_593;
    pub const ACCOUNT_WITNESS_MAX_LOCK_LEN: usize = 131_072;
    pub const VERIFIER_MAX_REQUEST_LEN: usize = 69_728;
    pub const VERIFIER_MAX_AUX_LEN: usize = 4_096;
    pub const VERIFIER_MAX_PROOF_LEN: usize = 65_536;
    pub const PUBLIC_KEY_PROOF_MAX_LEN: usize = 131_075;
    pub const WITNESS_MAX_LEN: usize = 132_096;
    pub const CANONICAL_WITNESS_MAX_LEN: usize = 132_100;
    pub const HASH_LEN: usize = 32;
    pub const CAPABILITY_FOR_OPERATION_OUT_LEN: usize = 8;
    pub const PARSE_ARGS_OUT_LEN: usize = 16;
    pub const PARSE_STATE_HEADER_OUT_LEN: usize = 56;
    pub const VALIDATE_STATE_OUT_LEN: usize = 80;
    pub const NEXT_ENTRY_OUT_LEN: usize = 104;
    pub const PARSE_WITNESS_HEADER_OUT_LEN: usize = 24;
    pub const VALIDATE_WITNESS_OUT_LEN: usize = 24;
    pub const NEXT_PROOF_OUT_LEN: usize = 40;
    pub const PARSE_VERIFIER_REQUEST_OUT_LEN: usize = 80;
    pub const PARSE_PUBLIC_KEY_PROOF_OUT_LEN: usize = 32;
    pub const WITNESS_LOCK_OUT_LEN: usize = 16;
    pub const SCRIPT_ARGS_OUT_LEN: usize = 16;
    pub const REQUEST_NUMBERS_OUT_LEN: usize = 32;
    pub const LOCK_OUT_LEN: usize = 64;
}

#[allow(dead_code)]
#[link(name = "fowlcredenza", kind = "static")]
unsafe extern "C" {
    pub fn fowlcredenza_ckb_hash(
        data: *const u8,
        data_len: usize,
        out: *mut u8,
        out_len: usize,
    ) -> u32;
    pub fn fowlcredenza_is_supported_algorithm(algorithm: u16) -> u32;
    pub fn fowlcredenza_capability_for_operation(
        operation: u8,
        out: *mut u8,
        out_len: usize,
    ) -> u32;
    pub fn fowlcredenza_parse_args(
        args: *const u8,
        args_len: usize,
        out: *mut u8,
        out_len: usize,
    ) -> u32;
    pub fn fowlcredenza_parse_state_header(
        state: *const u8,
        state_len: usize,
        out: *mut u8,
        out_len: usize,
    ) -> u32;
    pub fn fowlcredenza_validate_state(
        state: *const u8,
        state_len: usize,
        out: *mut u8,
        out_len: usize,
    ) -> u32;
    pub fn fowlcredenza_next_entry(
        state: *const u8,
        state_len: usize,
        offset: usize,
        least: u32,
        out: *mut u8,
        out_len: usize,
    ) -> u32;
    pub fn fowlcredenza_parse_witness_header(
        witness: *const u8,
        witness_len: usize,
        out: *mut u8,
        out_len: usize,
    ) -> u32;
    pub fn fowlcredenza_validate_witness(
        witness: *const u8,
        witness_len: usize,
        out: *mut u8,
        out_len: usize,
    ) -> u32;
    pub fn fowlcredenza_next_proof(
        witness: *const u8,
        witness_len: usize,
        offset: usize,
        least: u32,
        out: *mut u8,
        out_len: usize,
    ) -> u32;
    pub fn fowlcredenza_parse_verifier_request(
        request: *const u8,
        request_len: usize,
        out: *mut u8,
        out_len: usize,
    ) -> u32;
    pub fn fowlcredenza_parse_public_key_proof(
        proof: *const u8,
        proof_len: usize,
        out: *mut u8,
        out_len: usize,
    ) -> u32;
    pub fn fowlcredenza_account_lock_args(
        account: *const u8,
        account_len: usize,
        out: *mut u8,
        out_len: usize,
        len: *mut usize,
    ) -> u32;
    pub fn fowlcredenza_encode_state(
        flags: u8,
        sequence: u64,
        spend: u16,
        rotate: u16,
        recovery: u16,
        since: u64,
        fields: *const u16,
        fields_len: usize,
        bytes: *const u8,
        bytes_len: usize,
        out: *mut u8,
        out_len: usize,
        len: *mut usize,
    ) -> u32;
    pub fn fowlcredenza_encode_witness(
        operation: u8,
        sequence: u64,
        slots: *const u16,
        slots_len: usize,
        lengths: *const u32,
        lengths_len: usize,
        bytes: *const u8,
        bytes_len: usize,
        out: *mut u8,
        out_len: usize,
        len: *mut usize,
    ) -> u32;
    pub fn fowlcredenza_encode_verifier_request(
        algorithm: u16,
        slot: u16,
        operation: u8,
        profile: u8,
        digest: *const u8,
        digest_len: usize,
        key: *const u8,
        key_len: usize,
        aux: *const u8,
        aux_len: usize,
        proof: *const u8,
        proof_len: usize,
        out: *mut u8,
        out_len: usize,
        len: *mut usize,
    ) -> u32;
    pub fn fowlcredenza_encode_public_key_proof(
        key: *const u8,
        key_len: usize,
        signature: *const u8,
        signature_len: usize,
        out: *mut u8,
        out_len: usize,
        len: *mut usize,
    ) -> u32;
    pub fn fowlcredenza_witness_lock(
        witness: *const u8,
        witness_len: usize,
        out: *mut u8,
        out_len: usize,
    ) -> u32;
    pub fn fowlcredenza_script_args(
        script: *const u8,
        script_len: usize,
        out: *mut u8,
        out_len: usize,
    ) -> u32;
    pub fn fowlcredenza_canonical_witness(
        witness: *const u8,
        witness_len: usize,
        out: *mut u8,
        out_len: usize,
        len: *mut usize,
    ) -> u32;
    pub fn fowlcredenza_authorization_digest(
        operation: u8,
        account: *const u8,
        account_len: usize,
        sequence: u64,
        state: *const u8,
        state_len: usize,
        sighash: *const u8,
        sighash_len: usize,
        out: *mut u8,
        out_len: usize,
    ) -> u32;
    pub fn fowlcredenza_canonical_group_sighash(
        table: *const u32,
        table_len: usize,
        store: *const u8,
        store_len: usize,
        out: *mut u8,
        out_len: usize,
    ) -> u32;
    pub fn fowlcredenza_read_scene(
        scene: *const u8,
        scene_len: usize,
        store: *mut u8,
        store_len: usize,
        table: *mut u32,
        table_len: usize,
    ) -> u32;
    pub fn fowlcredenza_table_valid(table: *const u32, table_len: usize, store_len: usize) -> u32;
    pub fn fowlcredenza_lock(
        table: *const u32,
        table_len: usize,
        store: *const u8,
        store_len: usize,
        answer: *mut u8,
        answer_len: usize,
        out: *mut u8,
        out_len: usize,
    ) -> u32;
    pub fn fowlcredenza_decide_scene(
        scene: *const u8,
        scene_len: usize,
        store: *mut u8,
        store_len: usize,
        table: *mut u32,
        table_len: usize,
        answer: *mut u8,
        answer_len: usize,
        out: *mut u8,
        out_len: usize,
    ) -> u32;
    pub fn fowlcredenza_request_numbers(
        request: *const u8,
        request_len: usize,
        out: *mut u8,
        out_len: usize,
    ) -> u32;
    pub fn fowlcredenza_request_authorization_digest(
        request: *const u8,
        request_len: usize,
        out: *mut u8,
        out_len: usize,
        len: *mut usize,
    ) -> u32;
    pub fn fowlcredenza_request_key_id(
        request: *const u8,
        request_len: usize,
        out: *mut u8,
        out_len: usize,
        len: *mut usize,
    ) -> u32;
    pub fn fowlcredenza_request_aux(
        request: *const u8,
        request_len: usize,
        out: *mut u8,
        out_len: usize,
        len: *mut usize,
    ) -> u32;
    pub fn fowlcredenza_request_proof(
        request: *const u8,
        request_len: usize,
        out: *mut u8,
        out_len: usize,
        len: *mut usize,
    ) -> u32;
}
