//! Stands in for the crate ckb_types: the few types and conversions that the originals use.

pub mod bytes;
pub mod molecule;
pub mod packed;
pub mod prelude;

/// A hash of 32 bytes.
pub struct H256(pub [u8; 32]);

impl H256 {
    pub fn as_bytes(&self) -> &[u8] {
        &self.0
    }
}
