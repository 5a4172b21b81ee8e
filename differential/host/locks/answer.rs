//! What a run of the lock leaves: by what it is measured by, and by the port.

use crate::hex::Hex;
use crate::lent::Lent;
use crate::measure::refused;
use crate::original::Outcome;
use crate::scene_exports;
use std::sync::LazyLock;

/// An answer buffer that is long enough for any scene.
pub const ENOUGH: usize = 148_992;
/// Three words, a digest and the fee.
const OUT: usize = 64;
const FEE: usize = 56;
/// The lock's number for a request that does not fit the answer buffer.
const SHORT: u32 = 5;
/// The lock's number for a table that no scene leaves.
const NO_TABLE: i8 = 7;

/// What answer buffers hold before a run.
static BEFORE: LazyLock<Vec<u8>> =
    LazyLock::new(|| (0..ENOUGH).map(|i| (i % 251) as u8 ^ 0xa5).collect());

#[derive(Debug, Eq, PartialEq)]
pub struct Answer {
    pub number: u32,
    pub count: u64,
    pub length: u64,
    /// 1 and the digest, or 0 and 32 zeros.
    pub digest: (u64, Hex),
    /// 0 where the lock refuses.
    pub fee: u64,
    /// The whole answer buffer.
    pub buffer: Hex,
}

/// Number, count and length of a run whose requests go into this buffer. The walk is cut at the first that does not
/// fit.
pub fn fill(outcome: &Outcome, buffer: &mut [u8]) -> (u32, u64, u64) {
    let (mut count, mut total) = (0, 0);
    for request in &outcome.requests {
        let end = total + request.0.len();
        if end > buffer.len() {
            return (SHORT, count, total as u64);
        }
        buffer[total..end].copy_from_slice(&request.0);
        (count, total) = (count + 1, end);
    }
    (outcome.number as u32, count, total as u64)
}

impl Answer {
    /// What an outcome means for an answer buffer of this length.
    pub fn expected(outcome: &Outcome, buffer_len: usize) -> Self {
        let mut buffer = BEFORE[..buffer_len].to_vec();
        let (number, count, length) = fill(outcome, &mut buffer);
        let absent = || (0, Hex(vec![0; 32]));
        let digest = outcome.digest.clone().map(|digest| (1, digest));
        Answer {
            number,
            count,
            length,
            digest: digest.unwrap_or_else(absent),
            fee: outcome.fee.filter(|_| number == 0).unwrap_or(0),
            buffer: Hex(buffer),
        }
    }

    /// What a table that no scene leaves gives.
    pub fn no_table(buffer_len: usize) -> Self {
        Answer::expected(&refused(NO_TABLE), buffer_len)
    }

    /// An answer as the port stores it.
    fn stored(number: u32, out: [u8; OUT], buffer: Vec<u8>) -> Self {
        let word = |i: usize| u64::from_le_bytes(out[8 * i..8 * i + 8].try_into().unwrap());
        Answer {
            number,
            count: word(0),
            length: word(1),
            digest: (word(2), Hex(out[24..FEE].to_vec())),
            fee: word(FEE / 8),
            buffer: Hex(buffer),
        }
    }

    /// The digest, where the run reached it.
    pub fn reached(self) -> Option<Hex> {
        let (reached, digest) = self.digest;
        (reached == 1).then_some(digest)
    }

    pub fn of_port(lent: &Lent, buffer_len: usize) -> Self {
        let mut buffer = BEFORE[..buffer_len].to_vec();
        let mut out = [0; OUT];
        let number = scene_exports::lock(&lent.table, &lent.store, &mut buffer, &mut out);
        Answer::stored(number, out, buffer)
    }

    /// What the port gives for a scene's text, with a store and a table as long as those.
    pub fn of_text(text: &[u8], lent: &Lent, buffer_len: usize) -> Self {
        let (mut store, mut table) = (vec![0; lent.store.len()], vec![0; lent.table.len()]);
        let mut buffer = BEFORE[..buffer_len].to_vec();
        let mut out = [0; OUT];
        let number =
            scene_exports::decide_scene(text, &mut store, &mut table, &mut buffer, &mut out);
        Answer::stored(number, out, buffer)
    }
}
