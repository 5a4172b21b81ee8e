//! Conversions between plain and serialized values.

use crate::bytes::Bytes;
use crate::molecule::byte_vector;
use crate::packed;

pub trait Pack<T> {
    fn pack(&self) -> T;
}

pub trait Unpack<T> {
    fn unpack(&self) -> T;
}

impl Pack<packed::Byte32> for [u8; 32] {
    fn pack(&self) -> packed::Byte32 {
        packed::Byte32(*self)
    }
}

impl Unpack<[u8; 32]> for packed::Byte32 {
    fn unpack(&self) -> [u8; 32] {
        self.0
    }
}

impl Pack<packed::Bytes> for [u8] {
    fn pack(&self) -> packed::Bytes {
        packed::Bytes(byte_vector(self))
    }
}

impl Pack<packed::BytesOpt> for Option<Bytes> {
    fn pack(&self) -> packed::BytesOpt {
        packed::BytesOpt(self.as_deref().map(byte_vector).unwrap_or_default())
    }
}
