//! Changes of bytes that are made in more than one part. Past the end they change nothing.

use super::{Fault, OnBytes, Part};
use crate::changes;
use crate::prng::Prng;

pub fn set(bytes: &mut [u8], at: usize, value: u8) {
    put(bytes, at, &[value]);
}

pub fn put(bytes: &mut [u8], at: usize, value: &[u8]) {
    if let Some(part) = bytes.get_mut(at..at + value.len()) {
        part.copy_from_slice(value);
    }
}

/// The number of `width` bytes there, or 0.
fn number(bytes: &[u8], at: usize, width: usize) -> usize {
    let mut word = [0; 8];
    if let Some(part) = bytes.get(at..at + width) {
        word[..width].copy_from_slice(part);
    }
    u64::from_le_bytes(word) as usize
}

pub fn u16_at(bytes: &[u8], at: usize) -> usize {
    number(bytes, at, 2)
}

pub fn u32_at(bytes: &[u8], at: usize) -> usize {
    number(bytes, at, 4)
}

pub fn put_u16(bytes: &mut [u8], at: usize, value: usize) {
    put(bytes, at, &(value as u16).to_le_bytes());
}

pub fn put_u32(bytes: &mut [u8], at: usize, value: usize) {
    put(bytes, at, &(value as u32).to_le_bytes());
}

/// Adds to the u32 there.
pub fn add_u32(bytes: &mut [u8], at: usize, more: i64) {
    let value = u32_at(bytes, at) as i64 + more;
    put_u32(bytes, at, value as usize);
}

/// Faults of a loose Molecule table with three fields.
pub const TABLE: [(&str, OnBytes); 11] = [
    ("is empty", |bytes, _| bytes.clear()),
    ("has 15 bytes", |bytes, _| bytes.truncate(15)),
    ("has a total one more", |bytes, _| add_u32(bytes, 0, 1)),
    ("has a total one less", |bytes, _| add_u32(bytes, 0, -1)),
    ("has a byte behind", |bytes, _| bytes.push(0)),
    ("has a first offset of 12", |bytes, _| put_u32(bytes, 4, 12)),
    ("has a first offset of 20", |bytes, _| put_u32(bytes, 4, 20)),
    ("has a second offset of 15", |bytes, _| {
        put_u32(bytes, 8, 15)
    }),
    ("has offsets that fall", |bytes, _| {
        let second = u32_at(bytes, 8);
        put_u32(bytes, 12, second.wrapping_sub(1));
    }),
    ("has an offset past its end", |bytes, _| {
        let length = bytes.len();
        put_u32(bytes, 12, length + 1);
    }),
    ("has an offset of 2^32-1", |bytes, _| {
        put_u32(bytes, 12, u32::MAX as usize)
    }),
];

/// Takes the last byte away.
pub fn shorten(bytes: &mut Vec<u8>) {
    bytes.truncate(bytes.len().saturating_sub(1));
}

/// Makes the last field of a table longer, so that the table has this length.
pub fn lengthen(bytes: &mut Vec<u8>, length: usize) {
    bytes.resize(length, 0x77);
    put_u32(bytes, 0, length);
}

/// Any change of up to four bytes, in any part.
pub fn damage(prng: &mut Prng) -> Fault {
    let parts = [
        Part::Args,
        Part::Script,
        Part::Lock,
        Part::Witness,
        Part::State,
        Part::Successor,
    ];
    let change = |bytes: &mut Vec<u8>, prng: &mut Prng| {
        if !bytes.is_empty() {
            *bytes = changes::random(prng, bytes);
        }
    };
    Fault::Bytes(parts[prng.up_to(5)], change)
}
