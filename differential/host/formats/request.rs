//! The verifier request: its reader, the request that holds its bytes, and its writer.

use super::calls::{numbered, place, Calls, Words, DISAGREE};
use super::held;
use crate::changes;
use crate::exports::{self, LentRequest};
use crate::prng::Prng;
use ckb_account_host::encode_verifier_request;
use ckb_account_protocol::VerifierRequest;

const CHANGED: usize = 4_000;
/// Lengths of an aux and of a proof: none, few, the limit, one above.
const AUX: [usize; 6] = [0, 1, 2, 4_095, 4_096, 4_097];
const PROOF: [usize; 6] = [0, 1, 2, 65_535, 65_536, 65_537];

#[derive(Clone, Debug)]
struct Request {
    algorithm_id: u16,
    slot: u16,
    operation: u8,
    verifier_profile: u8,
    digest: [u8; 32],
    key: [u8; 32],
    aux: Vec<u8>,
    proof: Vec<u8>,
}

fn words(request: &[u8]) -> Words {
    let parsed = VerifierRequest::parse(request)?;
    Ok(vec![
        parsed.algorithm_id.into(),
        parsed.slot.into(),
        parsed.operation.into(),
        parsed.verifier_profile.into(),
        place(request, parsed.authorization_digest),
        place(request, parsed.key_id),
        place(request, parsed.aux),
        parsed.aux.len() as u64,
        place(request, parsed.proof),
        parsed.proof.len() as u64,
    ])
}

fn read(calls: &mut Calls, request: &[u8]) {
    calls.read(
        "parse_verifier_request",
        request,
        words(request),
        exports::parse_verifier_request,
    );
    held::fields(calls, request);
}

fn random(prng: &mut Prng, aux_len: usize, proof_len: usize) -> Request {
    Request {
        algorithm_id: prng.next() as u16,
        slot: prng.next() as u16,
        operation: 1 + prng.up_to(2) as u8,
        verifier_profile: prng.next() as u8,
        digest: prng.bytes(32).try_into().unwrap(),
        key: prng.bytes(32).try_into().unwrap(),
        aux: prng.bytes(aux_len),
        proof: prng.bytes(proof_len),
    }
}

/// The layout filled from a request, valid or not.
fn layout(request: &Request) -> Vec<u8> {
    let mut out = b"CKVR\x01\x00\x60\x00".to_vec();
    out.extend(request.algorithm_id.to_le_bytes());
    out.extend(request.slot.to_le_bytes());
    out.extend([request.operation, request.verifier_profile, 0, 0]);
    out.extend(request.digest);
    out.extend(request.key);
    out.extend((request.aux.len() as u32).to_le_bytes());
    out.extend((request.proof.len() as u32).to_le_bytes());
    out.extend([0; 8]);
    out.extend(&request.aux);
    out.extend(&request.proof);
    out
}

fn write_slices(
    calls: &mut Calls,
    request: &Request,
    digest: &[u8],
    key: &[u8],
    expected: &Result<Vec<u8>, u32>,
) {
    let lent = LentRequest {
        algorithm_id: request.algorithm_id,
        slot: request.slot,
        operation: request.operation,
        verifier_profile: request.verifier_profile,
        digest,
        key,
        aux: &request.aux,
        proof: &request.proof,
    };
    let input = || format!("digest {}, key {}, {request:?}", digest.len(), key.len());
    calls.write("encode_verifier_request", expected, input, |out, len| {
        exports::encode_verifier_request(&lent, out, len)
    });
}

fn write(calls: &mut Calls, request: &Request) {
    let expected = numbered(encode_verifier_request(
        request.algorithm_id,
        request.slot,
        request.operation,
        request.verifier_profile,
        &request.digest,
        &request.key,
        &request.aux,
        &request.proof,
    ));
    write_slices(calls, request, &request.digest, &request.key, &expected);
}

/// A digest or a key of another length than 32.
fn write_disagreeing(calls: &mut Calls, request: &Request) {
    let (digest, key) = (&request.digest, &request.key);
    let longer = [&digest[..], &[7]].concat();
    let expected = Err(DISAGREE);
    for other in [&[][..], &digest[..31], &longer, &[7; 64]] {
        write_slices(calls, request, other, key, &expected);
        write_slices(calls, request, digest, other, &expected);
        write_slices(calls, request, other, other, &expected);
    }
}

/// Every pair of lengths at the limits, and every operation.
fn limits(calls: &mut Calls) {
    for aux_len in AUX {
        for proof_len in PROOF {
            let mut request = random(&mut calls.prng, aux_len, proof_len);
            read(calls, &layout(&request));
            write(calls, &request);
            request.operation = [0, 4][calls.prng.up_to(1)];
            read(calls, &layout(&request));
            write(calls, &request);
            write_disagreeing(calls, &request);
        }
    }
    for operation in 0..=255 {
        let mut request = random(&mut calls.prng, 1, 2);
        request.operation = operation;
        read(calls, &layout(&request));
        write(calls, &request);
    }
}

fn changed_bytes(calls: &mut Calls) {
    let small = layout(&random(&mut calls.prng, 3, 2));
    changes::one_byte(&small, changes::any_other, |request| read(calls, request));
    changes::other_lengths(&small, |request| read(calls, request));
    let long = layout(&random(&mut calls.prng, 4_096, 65_536));
    for (at, value) in [(80, 1), (81, 17), (82, 1), (84, 1), (86, 2), (87, 255)] {
        let mut copy = long.clone();
        copy[at] = value;
        read(calls, &copy);
    }
    read(calls, &long[..long.len() - 1]);
    read(calls, &[&long[..], &[0]].concat());
}

/// Bytes behind a right magic.
fn random_bytes(calls: &mut Calls) {
    for _ in 0..2_000 {
        let length = calls.prng.up_to(200);
        let tail = calls.prng.bytes(length);
        read(calls, &[b"CKVR", &tail[..]].concat());
        let head = b"CKVR\x01\x00\x60\x00\x01\x00\x05\x00\x01";
        read(calls, &[head, &tail[..]].concat());
    }
}

pub fn run(calls: &mut Calls) {
    limits(calls);
    changed_bytes(calls);
    random_bytes(calls);
    for i in 0..CHANGED {
        let (aux_len, proof_len) = (calls.prng.up_to(40), calls.prng.up_to(60));
        let mut request = random(&mut calls.prng, aux_len, proof_len);
        if i % 8 == 0 {
            request.operation = calls.prng.up_to(5) as u8;
        }
        let bytes = layout(&request);
        read(calls, &bytes);
        let other = changes::random(&mut calls.prng, &bytes);
        read(calls, &other);
        write(calls, &request);
        if i % 20 == 0 {
            write_disagreeing(calls, &request);
        }
    }
}
