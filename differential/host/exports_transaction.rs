//! The functions on a transaction, wrapped to take slices as those of `exports` are.

use crate::fowlcredenza as library;

/// Place and length of the lock's bytes.
pub fn witness_lock(witness: &[u8], out: &mut [u8]) -> u32 {
    unsafe {
        library::fowlcredenza_witness_lock(
            witness.as_ptr(),
            witness.len(),
            out.as_mut_ptr(),
            out.len(),
        )
    }
}

/// Place and length of the args' bytes.
pub fn script_args(script: &[u8], out: &mut [u8]) -> u32 {
    unsafe {
        library::fowlcredenza_script_args(
            script.as_ptr(),
            script.len(),
            out.as_mut_ptr(),
            out.len(),
        )
    }
}

pub fn canonical_witness(witness: &[u8], out: &mut [u8], len: &mut usize) -> u32 {
    unsafe {
        library::fowlcredenza_canonical_witness(
            witness.as_ptr(),
            witness.len(),
            out.as_mut_ptr(),
            out.len(),
            len,
        )
    }
}

/// What a digest is over, as it is lent: account and sighash may have any length.
pub struct LentDigest<'a> {
    pub operation: u8,
    pub account: &'a [u8],
    pub sequence: u64,
    pub state: &'a [u8],
    pub sighash: &'a [u8],
}

pub fn authorization_digest(digest: &LentDigest, out: &mut [u8]) -> u32 {
    unsafe {
        library::fowlcredenza_authorization_digest(
            digest.operation,
            digest.account.as_ptr(),
            digest.account.len(),
            digest.sequence,
            digest.state.as_ptr(),
            digest.state.len(),
            digest.sighash.as_ptr(),
            digest.sighash.len(),
            out.as_mut_ptr(),
            out.len(),
        )
    }
}

/// The sighash of what table and store hold.
pub fn canonical_group_sighash(table: &[u32], store: &[u8], out: &mut [u8]) -> u32 {
    unsafe {
        library::fowlcredenza_canonical_group_sighash(
            table.as_ptr(),
            table.len(),
            store.as_ptr(),
            store.len(),
            out.as_mut_ptr(),
            out.len(),
        )
    }
}
