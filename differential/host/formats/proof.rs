//! The public-key proof: its reader and its writer.

use super::calls::{numbered, place, Calls, Words};
use crate::changes;
use crate::exports;
use ckb_account_host::encode_public_key_proof;
use ckb_account_protocol::parse_public_key_proof;

const CHANGED: usize = 4_000;
/// Lengths of a key and of a signature: none, few, the most that a u16 holds, more.
const LENGTHS: [usize; 7] = [0, 1, 2, 65_534, 65_535, 65_536, 65_537];

fn words(proof: &[u8]) -> Words {
    let parsed = parse_public_key_proof(proof)?;
    Ok(vec![
        place(proof, parsed.public_key),
        parsed.public_key.len() as u64,
        place(proof, parsed.signature),
        parsed.signature.len() as u64,
    ])
}

fn read(calls: &mut Calls, proof: &[u8]) {
    calls.read(
        "parse_public_key_proof",
        proof,
        words(proof),
        exports::parse_public_key_proof,
    );
}

/// The layout filled from a key and a signature; lengths are cut to their fields.
fn layout(key: &[u8], signature: &[u8]) -> Vec<u8> {
    let mut out = vec![1];
    out.extend((key.len() as u16).to_le_bytes());
    out.extend((signature.len() as u16).to_le_bytes());
    out.extend(key);
    out.extend(signature);
    out
}

fn write(calls: &mut Calls, key: &[u8], signature: &[u8]) {
    let expected = numbered(encode_public_key_proof(key, signature));
    let input = || format!("key {key:?}, signature {signature:?}");
    calls.write("encode_public_key_proof", &expected, input, |out, len| {
        exports::encode_public_key_proof(key, signature, out, len)
    });
}

fn limits(calls: &mut Calls) {
    for key_len in LENGTHS {
        for signature_len in LENGTHS {
            let key = calls.prng.bytes(key_len);
            let signature = calls.prng.bytes(signature_len);
            read(calls, &layout(&key, &signature));
            write(calls, &key, &signature);
        }
    }
}

/// Bytes behind a right version.
fn random_bytes(calls: &mut Calls) {
    for _ in 0..2_000 {
        let length = calls.prng.up_to(40);
        let mut bytes = calls.prng.bytes(length);
        if let Some(version) = bytes.first_mut() {
            *version = 1;
        }
        read(calls, &bytes);
    }
}

pub fn run(calls: &mut Calls) {
    limits(calls);
    random_bytes(calls);
    // Document 01's marked row, and the same without its last byte.
    let marked = [1, 1, 0, 1, 0, 0xaa, 0xbb];
    read(calls, &marked);
    changes::one_byte(&marked, changes::any_other, |proof| read(calls, proof));
    changes::other_lengths(&marked, |proof| read(calls, proof));
    for _ in 0..CHANGED {
        let (key_len, signature_len) = (calls.prng.up_to(40), calls.prng.up_to(60));
        let key = calls.prng.bytes(key_len);
        let signature = calls.prng.bytes(signature_len);
        let bytes = layout(&key, &signature);
        read(calls, &bytes);
        let other = changes::random(&mut calls.prng, &bytes);
        read(calls, &other);
        write(calls, &key, &signature);
    }
}
