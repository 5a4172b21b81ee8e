//! Changed copies of an input.

use crate::prng::Prng;

/// Every copy with one byte changed to each of the values that `values` makes of the byte there.
pub fn one_byte(bytes: &[u8], values: impl Fn(u8) -> Vec<u8>, mut f: impl FnMut(&[u8])) {
    let mut copy = bytes.to_vec();
    for i in 0..bytes.len() {
        for value in values(bytes[i]) {
            copy[i] = value;
            f(&copy);
        }
        copy[i] = bytes[i];
    }
}

/// Every other value of a byte.
pub fn any_other(byte: u8) -> Vec<u8> {
    (0..=255).filter(|value| *value != byte).collect()
}

/// Neighbours of a byte, and values at the ends of its range.
pub fn some_others(byte: u8) -> Vec<u8> {
    let near = [byte.wrapping_add(1), byte.wrapping_sub(1)];
    let bits = [byte ^ 0x10, byte ^ 0x80];
    [&near[..], &bits, &[0, 1, 2, 3, 4, 0xff]].concat()
}

/// The same, each once and none of them the byte itself.
pub fn some_different(byte: u8) -> Vec<u8> {
    let mut values = some_others(byte);
    values.retain(|value| *value != byte);
    values.sort();
    values.dedup();
    values
}

/// Every shorter copy, and one that is a byte longer.
pub fn other_lengths(bytes: &[u8], mut f: impl FnMut(&[u8])) {
    for length in 0..bytes.len() {
        f(&bytes[..length]);
    }
    f(&[bytes, &[0]].concat());
}

/// A copy with up to four bytes changed, most of them little.
pub fn random(prng: &mut Prng, bytes: &[u8]) -> Vec<u8> {
    let mut copy = bytes.to_vec();
    for _ in 0..=prng.up_to(3) {
        let i = prng.up_to(bytes.len() - 1);
        let values = some_others(copy[i]);
        copy[i] = match prng.up_to(3) {
            0 => prng.next() as u8,
            _ => values[prng.up_to(values.len() - 1)],
        };
    }
    copy
}
