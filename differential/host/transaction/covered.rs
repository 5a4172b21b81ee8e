//! What a digest covers. Change 12 of document 02: "Equal digest inputs mean equal operation, account, sequence, state hash and
//! sighash." So of inputs that differ in a byte no two have one digest.

use super::digest::{compare, Digest};
use crate::changes::{one_byte, some_different};
use crate::exports_transaction::authorization_digest;
use crate::formats::calls::Calls;
use crate::samples::{account_id, smallest_spend, SEQUENCE};
use std::collections::BTreeSet;

const OPERATION: &str = "authorization_digest, operation";

/// A part of an input that has bytes, and how an input is given it.
struct Part {
    name: &'static str,
    bytes: fn(&Digest) -> Vec<u8>,
    put: fn(&mut Digest, &[u8]),
}

const PARTS: [Part; 4] = [
    Part {
        name: "authorization_digest, account",
        bytes: |digest| digest.account.to_vec(),
        put: |digest, bytes| digest.account.copy_from_slice(bytes),
    },
    Part {
        name: "authorization_digest, sequence",
        bytes: |digest| digest.sequence.to_le_bytes().to_vec(),
        put: |digest, bytes| {
            digest.sequence = u64::from_le_bytes(bytes.try_into().expect("8 bytes"));
        },
    },
    Part {
        name: "authorization_digest, state",
        bytes: |digest| digest.state.clone(),
        put: |digest, bytes| digest.state = bytes.to_vec(),
    },
    Part {
        name: "authorization_digest, sighash",
        bytes: |digest| digest.sighash.to_vec(),
        put: |digest, bytes| digest.sighash.copy_from_slice(bytes),
    },
];

/// The smallest state, with any account and sighash.
fn small(operation: u8) -> Digest {
    Digest {
        operation,
        account: account_id(),
        sequence: SEQUENCE,
        state: smallest_spend().deps[0].data.clone(),
        sighash: [0x77; 32],
    }
}

/// All inputs that differ from this one in a byte, each with the name of the part that has it.
fn changed(base: &Digest) -> Vec<(&'static str, Digest)> {
    let mut changed = Vec::new();
    for part in PARTS {
        one_byte(&(part.bytes)(base), some_different, |bytes| {
            let mut digest = base.clone();
            (part.put)(&mut digest, bytes);
            changed.push((part.name, digest));
        });
    }
    changed
}

pub fn run(calls: &mut Calls) {
    let mut digests = BTreeSet::new();
    for operation in 1..=3 {
        let base = small(operation);
        let inputs = changed(&base).into_iter();
        for (name, digest) in [(OPERATION, base)].into_iter().chain(inputs) {
            compare(calls, &digest);
            let mut out = [0; 32];
            let number = authorization_digest(&digest.lent(), &mut out);
            let result = (number, digests.insert(out));
            let input = || format!("operation {operation}, a byte changed");
            calls.report.compare(name, 0, input, &result, &(0, true));
        }
    }
}
