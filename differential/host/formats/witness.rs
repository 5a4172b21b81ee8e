//! The witness lock: its readers and its writer.

use super::calls::{numbered, Calls, Words, DISAGREE};
use super::witnesses::Witness;
use super::{witness_walk, witnesses};
use crate::changes;
use crate::exports::{self, LentWitness};
use crate::prng::Prng;
use ckb_account_host::encode_witness;
use ckb_account_protocol::{
    parse_proofs, parse_witness_header, ProtocolError, AUTHENTICATOR_MAX_COUNT,
};

const CHANGED: usize = 12_000;

fn header_words(witness: &[u8]) -> Words {
    let header = parse_witness_header(witness)?;
    Ok(vec![
        header.operation.into(),
        header.proof_count.into(),
        header.state_sequence,
    ])
}

/// The whole witness lock: the original has no function for it, and its lock does these in turn.
fn witness_words(witness: &[u8]) -> Words {
    let header = parse_witness_header(witness)?;
    if usize::from(header.proof_count) > AUTHENTICATOR_MAX_COUNT {
        return Err(ProtocolError::InvalidWitness);
    }
    parse_proofs(witness, &header, |_, _| Ok(()))?;
    header_words(witness)
}

/// All three readers on the same bytes.
fn read(calls: &mut Calls, witness: &[u8]) {
    calls.read(
        "parse_witness_header",
        witness,
        header_words(witness),
        exports::parse_witness_header,
    );
    calls.read(
        "validate_witness",
        witness,
        witness_words(witness),
        exports::validate_witness,
    );
    witness_walk::walk(calls, witness);
}

/// What the writer is lent: slots, lengths and bytes.
struct Slices {
    slots: Vec<u16>,
    lengths: Vec<u32>,
    bytes: Vec<u8>,
}

fn slices(witness: &Witness) -> Slices {
    let proofs = witness.proofs.iter();
    Slices {
        slots: proofs.clone().map(|proof| proof.slot).collect(),
        lengths: proofs
            .clone()
            .map(|proof| proof.bytes.len() as u32)
            .collect(),
        bytes: proofs.flat_map(|proof| proof.bytes.clone()).collect(),
    }
}

fn write_slices(
    calls: &mut Calls,
    witness: &Witness,
    slices: &Slices,
    expected: &Result<Vec<u8>, u32>,
) {
    let lent = LentWitness {
        operation: witness.operation,
        sequence: witness.sequence,
        slots: &slices.slots,
        lengths: &slices.lengths,
        bytes: &slices.bytes,
    };
    let counts = (slices.slots.len(), slices.lengths.len(), slices.bytes.len());
    let input = || format!("slots, lengths, bytes {counts:?}, {witness:?}");
    calls.write("encode_witness", expected, input, |out, len| {
        exports::encode_witness(&lent, out, len)
    });
}

fn write(calls: &mut Calls, witness: &Witness) {
    let Witness {
        operation,
        sequence,
        proofs,
    } = witness;
    let expected = numbered(encode_witness(*operation, *sequence, proofs));
    write_slices(calls, witness, &slices(witness), &expected);
}

/// Slices that disagree: a slot or a length too many, bytes too few or too many, lengths that add up to more than a u32.
fn write_disagreeing(calls: &mut Calls, witness: &Witness) {
    let faults: [fn(&mut Slices); 6] = [
        |slices| slices.slots.push(65_535),
        |slices| slices.lengths.push(0),
        |slices| slices.bytes.push(7),
        |slices| slices.lengths.iter_mut().for_each(|length| *length += 1),
        |slices| slices.lengths.fill(u32::MAX),
        |slices| slices.bytes.truncate(slices.bytes.len().saturating_sub(1)),
    ];
    let whole = if witness.proofs.is_empty() { 3 } else { 6 };
    for fault in &faults[..whole] {
        let mut slices = slices(witness);
        fault(&mut slices);
        let added: u64 = slices.lengths.iter().map(|length| u64::from(*length)).sum();
        if slices.slots.len() != slices.lengths.len() || added != slices.bytes.len() as u64 {
            write_slices(calls, witness, &slices, &Err(DISAGREE));
        }
    }
}

/// A cursor that the walk may not reach.
fn random_cursor(prng: &mut Prng, witness: &[u8]) -> (usize, u32) {
    let offset = match prng.up_to(3) {
        0 => prng.up_to(witness.len() + 2),
        1 => usize::MAX - prng.up_to(20),
        _ => 16,
    };
    let least = match prng.up_to(4) {
        0 => 65_535 + prng.up_to(3) as u32,
        1 => u32::MAX,
        2 => prng.up_to(10) as u32,
        _ => 0,
    };
    (offset, least)
}

fn changed_bytes(calls: &mut Calls) {
    for count in 0..=4 {
        let witness = witnesses::layout(&witnesses::valid(&mut calls.prng, count));
        changes::one_byte(&witness, changes::any_other, |witness| read(calls, witness));
        changes::other_lengths(&witness, |witness| read(calls, witness));
    }
}

/// Bytes behind a right magic, with the rest of the header right or not.
fn random_bytes(calls: &mut Calls) {
    for _ in 0..2_000 {
        let length = calls.prng.up_to(200);
        let tail = calls.prng.bytes(length);
        read(calls, &[b"CKAW", &tail[..]].concat());
        let count = calls.prng.up_to(3) as u8;
        let head = [b"CKAW\x01\x01", &[count, 0][..], &[9; 8]].concat();
        read(calls, &[head, tail].concat());
    }
}

pub fn run(calls: &mut Calls) {
    for witness in witnesses::limits(&mut calls.prng) {
        read(calls, &witnesses::layout(&witness));
        write(calls, &witness);
        write_disagreeing(calls, &witness);
    }
    for i in 0..CHANGED {
        let witness = match i % 3 {
            0 => witnesses::valid(&mut calls.prng, i % 17),
            _ => witnesses::changed(&mut calls.prng),
        };
        let bytes = witnesses::layout(&witness);
        read(calls, &bytes);
        let cursor = random_cursor(&mut calls.prng, &bytes);
        witness_walk::step_anywhere(calls, &bytes, cursor);
        let other = changes::random(&mut calls.prng, &bytes);
        read(calls, &other);
        write(calls, &witness);
        if i % 20 == 0 {
            write_disagreeing(calls, &witness);
        }
    }
    changed_bytes(calls);
    random_bytes(calls);
}
