//! Stands in for the crate ckb_hash: CKB's hash, with the interface that the originals use.

use std::cell::RefCell;

thread_local! {
    static FINISHED: RefCell<Vec<[u8; 32]>> = const { RefCell::new(Vec::new()) };
}

/// The digests finished on this thread since the last call, in order. A program that hashes but
/// does not give its digest away can be compared by them.
pub fn take_finished() -> Vec<[u8; 32]> {
    FINISHED.take()
}

pub struct Blake2b(blake2b::Blake2b);

pub fn new_blake2b() -> Blake2b {
    Blake2b(blake2b::Blake2b::ckb())
}

impl Blake2b {
    pub fn update(&mut self, data: &[u8]) {
        self.0.update(data);
    }

    /// As in the crate, `output` has 32 bytes.
    pub fn finalize(self, output: &mut [u8]) {
        let digest = self.0.finish_32();
        output.copy_from_slice(&digest);
        FINISHED.with_borrow_mut(|finished| finished.push(digest));
    }
}
