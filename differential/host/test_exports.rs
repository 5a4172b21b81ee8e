//! The function of `crates/exports_test`, which the tests alone call: declared, and wrapped as those of `exports` are.

#[link(name = "exports_test", kind = "static")]
unsafe extern "C" {
    fn fowlcredenza_ckb_hash_parts(
        data: *const u8,
        data_len: usize,
        first: usize,
        step: usize,
        out: *mut u8,
        out_len: usize,
    ) -> u32;
}

/// CKB's hash of data that is fed as its first `first` bytes, then `step` bytes at a time, or the rest
/// at once where `step` is 0.
pub fn ckb_hash_parts(data: &[u8], first: usize, step: usize, out: &mut [u8]) -> u32 {
    unsafe {
        fowlcredenza_ckb_hash_parts(
            data.as_ptr(),
            data.len(),
            first,
            step,
            out.as_mut_ptr(),
            out.len(),
        )
    }
}
