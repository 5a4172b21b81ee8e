//! Sinces laid out by CKB's RFC 0017, and pairs of them.

use crate::prng::Prng;

/// The relative flag.
pub const RELATIVE: u64 = 1 << 63;
/// The last value of blocks and of seconds.
pub const LAST_VALUE: u64 = (1 << 56) - 1;
pub const LAST_NUMBER: u64 = (1 << 24) - 1;
pub const LAST_LENGTH: u64 = (1 << 16) - 1;
/// The reserved bits.
pub const RESERVED: [u32; 5] = [56, 57, 58, 59, 60];

/// An absolute since of this metric.
pub const fn of_metric(metric: u64, value: u64) -> u64 {
    metric << 61 | value
}

pub const fn seconds(value: u64) -> u64 {
    of_metric(2, value)
}

pub const fn epoch_value(number: u64, index: u64, length: u64) -> u64 {
    length << 40 | index << 24 | number
}

pub const fn epochs(number: u64, index: u64, length: u64) -> u64 {
    of_metric(1, epoch_value(number, index, length))
}

/// A number of up to this one: small, great or any.
fn some(prng: &mut Prng, last: u64) -> u64 {
    let any = prng.next() % (last + 1);
    match prng.up_to(2) {
        0 => any.min(prng.up_to(3) as u64),
        1 => last - any.min(prng.up_to(3) as u64),
        _ => any,
    }
}

/// Blocks or seconds, and as many or more.
fn plain(prng: &mut Prng, metric: u64) -> [u64; 2] {
    let value = some(prng, LAST_VALUE);
    let more = some(prng, LAST_VALUE - value);
    [value, value + [0, 1.min(more), more][prng.up_to(2)]].map(|value| of_metric(metric, value))
}

/// An index and the length that it is below, or 0 and 0.
fn fraction(prng: &mut Prng) -> (u64, u64) {
    let length = some(prng, LAST_LENGTH);
    let index = some(prng, length.saturating_sub(1));
    (index, length)
}

/// An epoch, and one that is as late or later: itself, the same fraction in other terms, an index more or another number more.
fn epoch_pair(prng: &mut Prng) -> [u64; 2] {
    let number = some(prng, LAST_NUMBER);
    let (index, length) = fraction(prng);
    let (other_index, other_length) = fraction(prng);
    let times = 1 + prng.up_to((LAST_LENGTH / length.max(1) - 1) as usize) as u64;
    let later = match prng.up_to(3) {
        0 => epochs(number, times * index, times * length),
        1 if index + 1 < length => epochs(number, index + 1, length),
        2 if number < LAST_NUMBER => epochs(number + 1, other_index, other_length),
        _ => epochs(number, index, length),
    };
    [epochs(number, index, length), later]
}

/// A recovery_since, and a since of its input with which the recovery may run.
pub fn passing(prng: &mut Prng) -> [u64; 2] {
    let flag = RELATIVE * prng.up_to(1) as u64;
    let pair = match prng.up_to(7) {
        0 => return [0, prng.next()],
        1 | 2 => plain(prng, 0),
        3 | 4 => plain(prng, 2),
        _ => epoch_pair(prng),
    };
    pair.map(|since| flag | since)
}

/// Any two: two that pass, those exchanged or with a bit of one of them turned, or any numbers.
pub fn any(prng: &mut Prng) -> [u64; 2] {
    let [recovery_since, since] = passing(prng);
    let bit = 1 << prng.up_to(63);
    match prng.up_to(4) {
        0 => [since, recovery_since],
        1 => [recovery_since ^ bit, since],
        2 => [recovery_since, since ^ bit],
        3 => [prng.next(), prng.next()],
        _ => [recovery_since, since],
    }
}
