//! Tables of three fields: strict ones, ones that only a loose reader takes, and ones at the limits of its checks.

use crate::prng::Prng;
use ckb_types::molecule::{byte_vector, table};

/// Numbers that an offset or a total is set to beside those about the table's length.
const NUMBERS: [u32; 9] = [0, 1, 15, 16, 17, 20, 0x8000_0000, u32::MAX - 1, u32::MAX];

/// A vector of bytes, nothing, bytes that are no vector, or a vector whose length is off by one.
fn field(prng: &mut Prng, most: usize) -> Vec<u8> {
    let length = prng.up_to(most);
    let bytes = prng.bytes(length);
    let mut vector = byte_vector(&bytes);
    match prng.up_to(9) {
        0 => Vec::new(),
        1 => bytes,
        2 => {
            vector[0] = vector[0].wrapping_add(1);
            vector
        }
        3 => {
            vector.pop();
            vector
        }
        _ => vector,
    }
}

/// A table whose fields are of any kind.
pub fn random(prng: &mut Prng, most: usize) -> Vec<u8> {
    let fields = [field(prng, most), field(prng, most), field(prng, most)];
    table(&[&fields[0], &fields[1], &fields[2]])
}

/// A table of three vectors of bytes.
pub fn strict(prng: &mut Prng, most: usize) -> Vec<u8> {
    let mut vector = || {
        let length = prng.up_to(most);
        byte_vector(&prng.bytes(length))
    };
    table(&[&vector(), &vector(), &vector()])
}

fn with_number(table: &[u8], at: usize, number: u32) -> Vec<u8> {
    let mut copy = table.to_vec();
    copy[at..at + 4].copy_from_slice(&number.to_le_bytes());
    copy
}

/// The table with its second and third offset at any two places of it, in order or not.
pub fn loose(prng: &mut Prng, table: &[u8]) -> Vec<u8> {
    let mut place = || (16 + prng.up_to(table.len() - 16)) as u32;
    let moved = with_number(table, 8, place());
    with_number(&moved, 12, place())
}

/// The table with its total or an offset at each of the numbers where a check changes its answer.
pub fn limits(table: &[u8], mut f: impl FnMut(&[u8])) {
    let length = table.len() as u32;
    let about = [length - 1, length, length + 1];
    for at in [0, 4, 8, 12] {
        for number in NUMBERS.into_iter().chain(about) {
            let copy = with_number(table, at, number);
            f(&copy);
            for number in NUMBERS.into_iter().chain(about) {
                f(&with_number(&copy, 12, number));
            }
        }
    }
}

/// Bytes behind a right total and a right first offset.
pub fn headed(prng: &mut Prng, most: usize) -> Vec<u8> {
    let length = 8 + prng.up_to(most);
    let mut bytes = prng.bytes(length);
    bytes[..4].copy_from_slice(&(length as u32).to_le_bytes());
    bytes[4..8].copy_from_slice(&16u32.to_le_bytes());
    bytes
}
