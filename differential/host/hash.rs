//! CKB's hash of the library beside the reference: whole, in parts, into output buffers of any length.

use crate::exports;
use crate::hex::Hex;
use crate::prng::Prng;
use crate::report::Report;
use crate::test_exports;

/// Lengths of output buffers: none, short ones, exact, longer ones.
const OUT: [usize; 6] = [0, 1, 31, 32, 33, 64];
/// Bytes behind the buffer that is lent, to see that they stay.
const BEHIND: usize = 16;
const RANDOM_CASES: usize = 3000;
/// The longest data that is fed in two parts, cut at every place.
const SPLIT: usize = 400;
/// Feeds about one block and two blocks long.
const STEPS: [usize; 6] = [127, 128, 129, 255, 256, 257];
/// The numbers of a buffer that is too short, and of a first part that is longer than the data.
const TOO_SHORT: u32 = 5;
const DISAGREE: u32 = 7;

/// How the data is fed: its first bytes, then so many at a time.
type Parts = Option<(usize, usize)>;

/// The number and the buffer after a call that is lent its first `out_len` bytes.
fn result(data: &[u8], parts: Parts, before: &[u8], out_len: usize) -> (u32, Hex) {
    let mut buffer = before.to_vec();
    let out = &mut buffer[..out_len];
    let number = match parts {
        None => exports::ckb_hash(data, out),
        Some((first, step)) => test_exports::ckb_hash_parts(data, first, step, out),
    };
    (number, Hex(buffer))
}

/// The digest at the front of the lent bytes, where there is a first part and room; every other byte as before.
fn expected(data: &[u8], parts: Parts, before: &[u8], out_len: usize) -> (u32, Hex) {
    let mut buffer = before.to_vec();
    let number = match parts {
        Some((first, _)) if first > data.len() => DISAGREE,
        _ if out_len < 32 => TOO_SHORT,
        _ => {
            buffer[..32].copy_from_slice(&blake2b::ckb_hash(data));
            0
        }
    };
    (number, Hex(buffer))
}

fn compare(report: &mut Report, prng: &mut Prng, data: &[u8], parts: Parts, out_len: usize) {
    let before = prng.bytes(out_len + BEHIND);
    let name = match parts {
        None => "hash",
        Some(_) => "hash in parts",
    };
    let input = || format!("parts {parts:?}, out {out_len}, {:?}", Hex(data.to_vec()));
    let result = result(data, parts, &before, out_len);
    let expected = expected(data, parts, &before, out_len);
    report.answered(name, result.0);
    report.compare(name, data.len(), input, &result, &expected);
}

/// Small parts, parts about a block's length, parts longer than the data, all at once.
fn random_parts(prng: &mut Prng, length: usize) -> (usize, usize) {
    let first = match prng.up_to(3) {
        0 => 0,
        1 => prng.up_to(130),
        2 => prng.up_to(length),
        _ => length + prng.up_to(2),
    };
    let step = match prng.up_to(4) {
        0 => 0,
        1 => 1 + prng.up_to(8),
        2 => 126 + prng.up_to(4),
        3 => 1 + prng.up_to(length),
        _ => usize::MAX,
    };
    (first, step)
}

/// Every length up to 300, into each output buffer.
fn every_short_length(report: &mut Report, prng: &mut Prng) {
    for length in 0..=300 {
        let data = prng.bytes(length);
        for out_len in OUT {
            let parts = random_parts(prng, length);
            compare(report, prng, &data, None, out_len);
            compare(report, prng, &data, Some(parts), out_len);
        }
    }
}

/// Every length up to 400 in two parts, cut at every place, the ends too.
fn every_split(report: &mut Report, prng: &mut Prng) {
    for length in 0..=SPLIT {
        let data = prng.bytes(length);
        for first in 0..=length {
            compare(report, prng, &data, Some((first, 0)), 32);
        }
    }
}

/// Data that ends at a feed's end and beside it, behind a first part that ends at a block's border, beside it, or is empty.
fn feeds_about_a_block(report: &mut Report, prng: &mut Prng) {
    for step in STEPS {
        for length in [step - 1, step, step + 1, 2 * step, 2 * step + 1, 10 * step] {
            let data = prng.bytes(length);
            for first in [0, 1, 127, 128, 129]
                .into_iter()
                .filter(|first| *first <= length)
            {
                compare(report, prng, &data, Some((first, step)), 32);
            }
        }
    }
}

fn random_lengths(report: &mut Report, prng: &mut Prng) {
    for _ in 0..RANDOM_CASES {
        let length = prng.up_to(5000);
        let data = prng.bytes(length);
        let parts = random_parts(prng, length);
        let out_len = OUT[prng.up_to(OUT.len() - 1)];
        compare(report, prng, &data, None, 32);
        compare(report, prng, &data, Some(parts), out_len);
    }
}

pub fn run(report: &mut Report) {
    let mut prng = Prng::new(1);
    every_short_length(report, &mut prng);
    every_split(report, &mut prng);
    feeds_about_a_block(report, &mut prng);
    random_lengths(report, &mut prng);
    let data = prng.bytes(1000);
    compare(report, &mut prng, &data, Some((usize::MAX, usize::MAX)), 32);
    compare(report, &mut prng, &data, Some((usize::MAX, 0)), 31);
    report.expect_answers("hash", &[0, 5]);
    report.expect_answers("hash in parts", &[0, 5, 7]);
}
