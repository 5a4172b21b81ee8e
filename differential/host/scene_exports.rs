//! The reader of scenes and the lock, wrapped to take slices as those of `exports` are.

use crate::fowlcredenza as library;

/// Reads a scene into the store and the table.
pub fn read_scene(scene: &[u8], store: &mut [u8], table: &mut [u32]) -> u32 {
    unsafe {
        library::fowlcredenza_read_scene(
            scene.as_ptr(),
            scene.len(),
            store.as_mut_ptr(),
            store.len(),
            table.as_mut_ptr(),
            table.len(),
        )
    }
}

/// 1 where some scene leaves this table with a store of that length, else 0.
pub fn table_valid(table: &[u32], store_len: usize) -> u32 {
    unsafe { library::fowlcredenza_table_valid(table.as_ptr(), table.len(), store_len) }
}

/// Runs the lock. `out` takes count, length and 1 where there is a digest, as 64-bit words, then the digest, then the fee as
/// such a word.
pub fn lock(table: &[u32], store: &[u8], answer: &mut [u8], out: &mut [u8]) -> u32 {
    unsafe {
        library::fowlcredenza_lock(
            table.as_ptr(),
            table.len(),
            store.as_ptr(),
            store.len(),
            answer.as_mut_ptr(),
            answer.len(),
            out.as_mut_ptr(),
            out.len(),
        )
    }
}

/// Reads a scene into the store and the table and runs the lock, as `read_scene` and `lock` do.
pub fn decide_scene(
    scene: &[u8],
    store: &mut [u8],
    table: &mut [u32],
    answer: &mut [u8],
    out: &mut [u8],
) -> u32 {
    unsafe {
        library::fowlcredenza_decide_scene(
            scene.as_ptr(),
            scene.len(),
            store.as_mut_ptr(),
            store.len(),
            table.as_mut_ptr(),
            table.len(),
            answer.as_mut_ptr(),
            answer.len(),
            out.as_mut_ptr(),
            out.len(),
        )
    }
}
