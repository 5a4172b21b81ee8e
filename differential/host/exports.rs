//! The functions of `crates/exports`, wrapped to take slices. Their addresses and lengths are all
//! that the calls rely on, and a slice has both.

use crate::fowlcredenza as library;

/// A reader: bytes, and the buffer for its words.
type Reader = unsafe extern "C" fn(*const u8, usize, *mut u8, usize) -> u32;
/// A reader of one part: bytes, the part's offset and least slot, and the buffer for its words.
type Step = unsafe extern "C" fn(*const u8, usize, usize, u32, *mut u8, usize) -> u32;

/// CKB's hash of the data, at the front of `out`.
pub fn ckb_hash(data: &[u8], out: &mut [u8]) -> u32 {
    unsafe {
        library::fowlcredenza_ckb_hash(data.as_ptr(), data.len(), out.as_mut_ptr(), out.len())
    }
}

/// 1 or 0.
pub fn is_supported_algorithm(algorithm: u16) -> u32 {
    unsafe { library::fowlcredenza_is_supported_algorithm(algorithm) }
}

/// The bit.
pub fn capability_for_operation(operation: u8, out: &mut [u8]) -> u32 {
    unsafe {
        library::fowlcredenza_capability_for_operation(operation, out.as_mut_ptr(), out.len())
    }
}

fn read(reader: Reader, input: &[u8], out: &mut [u8]) -> u32 {
    unsafe { reader(input.as_ptr(), input.len(), out.as_mut_ptr(), out.len()) }
}

fn step(step: Step, input: &[u8], offset: usize, least: u32, out: &mut [u8]) -> u32 {
    unsafe {
        step(
            input.as_ptr(),
            input.len(),
            offset,
            least,
            out.as_mut_ptr(),
            out.len(),
        )
    }
}

/// Version, place of the account id.
pub fn parse_args(args: &[u8], out: &mut [u8]) -> u32 {
    read(library::fowlcredenza_parse_args, args, out)
}

/// Flags, sequence, three thresholds, count, recovery_since.
pub fn parse_state_header(state: &[u8], out: &mut [u8]) -> u32 {
    read(library::fowlcredenza_parse_state_header, state, out)
}

/// The same, and three weights.
pub fn validate_state(state: &[u8], out: &mut [u8]) -> u32 {
    read(library::fowlcredenza_validate_state, state, out)
}

/// Four fields of an entry, hash type, ABI, place of the code hash, place and length of key and of aux, offset and
/// least slot of the next entry.
pub fn next_entry(state: &[u8], offset: usize, least: u32, out: &mut [u8]) -> u32 {
    step(library::fowlcredenza_next_entry, state, offset, least, out)
}

/// Operation, count, sequence.
pub fn parse_witness_header(witness: &[u8], out: &mut [u8]) -> u32 {
    read(library::fowlcredenza_parse_witness_header, witness, out)
}

/// The same, once every proof passed.
pub fn validate_witness(witness: &[u8], out: &mut [u8]) -> u32 {
    read(library::fowlcredenza_validate_witness, witness, out)
}

/// Slot, place and length of a proof, offset and least slot of the next one.
pub fn next_proof(witness: &[u8], offset: usize, least: u32, out: &mut [u8]) -> u32 {
    step(
        library::fowlcredenza_next_proof,
        witness,
        offset,
        least,
        out,
    )
}

/// Four fields, places of digest and key, place and length of aux and of proof.
pub fn parse_verifier_request(request: &[u8], out: &mut [u8]) -> u32 {
    read(library::fowlcredenza_parse_verifier_request, request, out)
}

/// Place and length of key and of signature.
pub fn parse_public_key_proof(proof: &[u8], out: &mut [u8]) -> u32 {
    read(library::fowlcredenza_parse_public_key_proof, proof, out)
}

/// The args of an account.
pub fn account_lock_args(account: &[u8], out: &mut [u8], len: &mut usize) -> u32 {
    unsafe {
        library::fowlcredenza_account_lock_args(
            account.as_ptr(),
            account.len(),
            out.as_mut_ptr(),
            out.len(),
            len,
        )
    }
}

/// What a state is written from, as it is lent: five numbers for each entry, and its bytes.
pub struct LentState<'a> {
    pub flags: u8,
    pub sequence: u64,
    pub spend_threshold: u16,
    pub rotate_threshold: u16,
    pub recovery_threshold: u16,
    pub recovery_since: u64,
    pub fields: &'a [u16],
    pub bytes: &'a [u8],
}

pub fn encode_state(state: &LentState, out: &mut [u8], len: &mut usize) -> u32 {
    unsafe {
        library::fowlcredenza_encode_state(
            state.flags,
            state.sequence,
            state.spend_threshold,
            state.rotate_threshold,
            state.recovery_threshold,
            state.recovery_since,
            state.fields.as_ptr(),
            state.fields.len(),
            state.bytes.as_ptr(),
            state.bytes.len(),
            out.as_mut_ptr(),
            out.len(),
            len,
        )
    }
}

/// What a witness lock is written from, as it is lent: slot and length of each proof, and their bytes end to end.
pub struct LentWitness<'a> {
    pub operation: u8,
    pub sequence: u64,
    pub slots: &'a [u16],
    pub lengths: &'a [u32],
    pub bytes: &'a [u8],
}

pub fn encode_witness(witness: &LentWitness, out: &mut [u8], len: &mut usize) -> u32 {
    unsafe {
        library::fowlcredenza_encode_witness(
            witness.operation,
            witness.sequence,
            witness.slots.as_ptr(),
            witness.slots.len(),
            witness.lengths.as_ptr(),
            witness.lengths.len(),
            witness.bytes.as_ptr(),
            witness.bytes.len(),
            out.as_mut_ptr(),
            out.len(),
            len,
        )
    }
}

/// What a request is written from, as it is lent: digest and key may have any length.
pub struct LentRequest<'a> {
    pub algorithm_id: u16,
    pub slot: u16,
    pub operation: u8,
    pub verifier_profile: u8,
    pub digest: &'a [u8],
    pub key: &'a [u8],
    pub aux: &'a [u8],
    pub proof: &'a [u8],
}

pub fn encode_verifier_request(request: &LentRequest, out: &mut [u8], len: &mut usize) -> u32 {
    unsafe {
        library::fowlcredenza_encode_verifier_request(
            request.algorithm_id,
            request.slot,
            request.operation,
            request.verifier_profile,
            request.digest.as_ptr(),
            request.digest.len(),
            request.key.as_ptr(),
            request.key.len(),
            request.aux.as_ptr(),
            request.aux.len(),
            request.proof.as_ptr(),
            request.proof.len(),
            out.as_mut_ptr(),
            out.len(),
            len,
        )
    }
}

pub fn encode_public_key_proof(
    key: &[u8],
    signature: &[u8],
    out: &mut [u8],
    len: &mut usize,
) -> u32 {
    unsafe {
        library::fowlcredenza_encode_public_key_proof(
            key.as_ptr(),
            key.len(),
            signature.as_ptr(),
            signature.len(),
            out.as_mut_ptr(),
            out.len(),
            len,
        )
    }
}
