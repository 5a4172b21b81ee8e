//! The digest that an authorization is over, beside the one of the host crate and the one of the lock.

use crate::exports_transaction::{self as exports, LentDigest};
use crate::formats::calls::{numbered, Calls, DISAGREE};
use crate::hex::Hex;
use ckb_account_lock::opened;

const RANDOM: usize = 3_000;
const NAME: &str = "authorization_digest";

#[derive(Clone)]
pub struct Digest {
    pub operation: u8,
    pub account: [u8; 32],
    pub sequence: u64,
    pub state: Vec<u8>,
    pub sighash: [u8; 32],
}

impl Digest {
    pub fn lent(&self) -> LentDigest<'_> {
        LentDigest {
            operation: self.operation,
            account: &self.account,
            sequence: self.sequence,
            state: &self.state,
            sighash: &self.sighash,
        }
    }
}

fn lend(calls: &mut Calls, digest: &LentDigest, expected: Result<[u8; 32], u32>) {
    let input = || {
        format!(
            "operation {}, account {:?}, sequence {}, state {:?}, sighash {:?}",
            digest.operation,
            Hex(digest.account.to_vec()),
            digest.sequence,
            Hex(digest.state.to_vec()),
            Hex(digest.sighash.to_vec())
        )
    };
    calls.hash(NAME, digest.state.len(), expected, input, |out| {
        exports::authorization_digest(digest, out)
    });
}

/// The lock's own function has no test of the operation.
pub fn compare(calls: &mut Calls, digest: &Digest) {
    let lent = digest.lent();
    let by_host = numbered(ckb_account_host::authorization_digest(
        digest.operation,
        &digest.account,
        digest.sequence,
        &digest.state,
        &digest.sighash,
    ));
    lend(calls, &lent, by_host);
    if by_host.is_ok() {
        let by_lock = opened::authorization_digest(
            digest.operation,
            &digest.account,
            digest.sequence,
            &digest.state,
            &digest.sighash,
        );
        lend(calls, &lent, Ok(by_lock));
    }
}

/// An account or a sighash of another length than 32, before any operation is looked at.
fn disagreeing(calls: &mut Calls, digest: &Digest) {
    let (account, sighash) = (&digest.account[..], &digest.sighash[..]);
    for other in [&[][..], &account[..31], &[7; 33], &[7; 64]] {
        for (account, sighash) in [(other, sighash), (account, other), (other, other)] {
            let lent = LentDigest {
                operation: digest.operation,
                account,
                sequence: digest.sequence,
                state: &digest.state,
                sighash,
            };
            lend(calls, &lent, Err(DISAGREE));
        }
    }
}

fn random(calls: &mut Calls, operation: u8, most: usize) -> Digest {
    let length = calls.prng.up_to(most);
    Digest {
        operation,
        account: calls.prng.bytes(32).try_into().unwrap(),
        sequence: calls.prng.next(),
        state: calls.prng.bytes(length),
        sighash: calls.prng.bytes(32).try_into().unwrap(),
    }
}

pub fn run(calls: &mut Calls) {
    for operation in 0..=255 {
        let digest = random(calls, operation, 300);
        compare(calls, &digest);
        disagreeing(calls, &digest);
    }
    for i in 0..RANDOM {
        let operation = 1 + (i % 3) as u8;
        let mut digest = random(calls, operation, 600);
        if i % 10 == 0 {
            digest.sequence = [0, 1, u64::MAX][calls.prng.up_to(2)];
        }
        compare(calls, &digest);
    }
    let long = random(calls, 1, 16_384);
    compare(calls, &long);
}
