//! The speed of readers and writers: the original and the port, on the same input in one process.

use crate::exports::{self, LentRequest, LentState};
use crate::lent_state::slices;
use ckb_account_host::{encode_state, encode_verifier_request, AccountState, Authenticator};
use ckb_account_protocol::{validate_state, ALG_MLDSA44, OP_SPEND, VERIFIER_ABI_V1};
use std::hint::black_box;
use std::time::{Duration, Instant};

pub const ROUNDS: usize = 300;
/// Calls in one measurement.
pub const CALLS: u32 = 100;
/// The aux of an ML-DSA-44 key: a profile byte and the key.
pub const AUX: usize = 1_313;
/// The longest aux of which 16 fit a state of 16,384 bytes; of AUX bytes there is room for 11.
pub const SHORTER_AUX: usize = 942;
/// An ML-DSA-44 signature.
pub const PROOF: usize = 2_420;

/// The time of so many calls.
fn time(calls: u32, f: &mut dyn FnMut()) -> Duration {
    let start = Instant::now();
    for _ in 0..calls {
        f();
    }
    start.elapsed()
}

/// Prints the best time of each, taken in turn so that a disturbance meets both alike.
pub fn print_row_of(calls: u32, name: &str, original: &mut dyn FnMut(), port: &mut dyn FnMut()) {
    let mut best = [Duration::MAX; 2];
    for _ in 0..ROUNDS {
        best[0] = time(calls, original).min(best[0]);
        best[1] = time(calls, port).min(best[1]);
    }
    let [rust, rattle] = best.map(|time| time.as_secs_f64() * 1e9 / f64::from(calls));
    let ratio = rust / rattle;
    println!("{name:47} {rust:9.1} {rattle:9.1} {ratio:12.2}");
}

pub fn print_row(name: &str, original: &mut dyn FnMut(), port: &mut dyn FnMut()) {
    print_row_of(CALLS, name, original, port);
}

pub fn state(entries: u16, aux_len: usize) -> AccountState {
    let authenticator = |slot| Authenticator {
        slot,
        algorithm_id: ALG_MLDSA44,
        capabilities: 7,
        weight: 1,
        verifier_hash_type: 0,
        verifier_abi: VERIFIER_ABI_V1,
        verifier_code_hash: [0x22; 32],
        key_id: [0x33; 32],
        aux: vec![1; aux_len],
    };
    AccountState {
        flags: 1,
        sequence: 7,
        spend_threshold: 1,
        rotate_threshold: 1,
        recovery_threshold: 1,
        recovery_since: 1000,
        authenticators: (0..entries).map(authenticator).collect(),
    }
}

fn validate(name: &str, state: &AccountState) {
    let bytes = encode_state(state).expect("a valid state");
    let mut out = [0; 80];
    assert_eq!(exports::validate_state(&bytes, &mut out), 0);
    print_row(
        name,
        &mut || {
            let _ = black_box(validate_state(black_box(&bytes)));
        },
        &mut || {
            black_box(exports::validate_state(black_box(&bytes), &mut out));
        },
    );
}

fn write_state(name: &str, state: &AccountState) {
    let (fields, bytes) = slices(state);
    let lent = LentState {
        flags: state.flags,
        sequence: state.sequence,
        spend_threshold: state.spend_threshold,
        rotate_threshold: state.rotate_threshold,
        recovery_threshold: state.recovery_threshold,
        recovery_since: state.recovery_since,
        fields: &fields,
        bytes: &bytes,
    };
    let (mut out, mut len) = (vec![0; 16_384], 0);
    assert_eq!(exports::encode_state(&lent, &mut out, &mut len), 0);
    assert_eq!(encode_state(state).unwrap(), out[..len as usize]);
    print_row(
        name,
        &mut || {
            let _ = black_box(encode_state(black_box(state)));
        },
        &mut || {
            black_box(exports::encode_state(black_box(&lent), &mut out, &mut len));
        },
    );
}

fn write_request(name: &str) {
    let (digest, key) = ([0x44; 32], [0x33; 32]);
    let (aux, proof) = (vec![1; AUX], vec![2; PROOF]);
    let lent = LentRequest {
        algorithm_id: ALG_MLDSA44,
        slot: 5,
        operation: OP_SPEND,
        verifier_profile: 1,
        digest: &digest,
        key: &key,
        aux: &aux,
        proof: &proof,
    };
    let original = |lent: &LentRequest| {
        let (id, slot, operation) = (lent.algorithm_id, lent.slot, lent.operation);
        let profile = lent.verifier_profile;
        encode_verifier_request(
            id, slot, operation, profile, &digest, &key, lent.aux, lent.proof,
        )
    };
    let (mut out, mut len) = (vec![0; 8_192], 0);
    assert_eq!(
        exports::encode_verifier_request(&lent, &mut out, &mut len),
        0
    );
    assert_eq!(original(&lent).unwrap(), out[..len as usize]);
    print_row(
        name,
        &mut || {
            let _ = black_box(original(black_box(&lent)));
        },
        &mut || {
            let lent = black_box(&lent);
            black_box(exports::encode_verifier_request(lent, &mut out, &mut len));
        },
    );
}

pub fn run() {
    println!();
    println!("Readers and writers, nanoseconds for a call, best of {ROUNDS} times {CALLS} in turn. The original's writers");
    println!("allocate what they return; the port's write into a buffer. A ratio is of speeds: above 1 the port is faster.");
    println!("                                                     Rust    Rattle  Rattle/Rust");
    let (one, most) = (state(1, AUX), state(16, SHORTER_AUX));
    validate("validate_state, 1 entry, aux 1,313", &one);
    validate("validate_state, 16 entries, aux 942", &most);
    write_state("encode_state, 1 entry, aux 1,313", &one);
    write_state("encode_state, 16 entries, aux 942", &most);
    write_request("encode_verifier_request, aux 1,313, proof 2,420");
}
