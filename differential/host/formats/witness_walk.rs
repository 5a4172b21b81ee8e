//! The step over a witness lock's proofs, beside what the original hands out.

use super::calls::{place, Calls, Words};
use super::witnesses;
use crate::exports;
use ckb_account_host::Proof;
use ckb_account_protocol::{
    parse_proofs, parse_witness_header, AccountWitnessHeader, ProtocolError,
};

/// Where the next proof begins, and the least slot that it may have.
type Cursor = (usize, u32);
const FIRST: Cursor = (16, 0);

/// The proofs that the original hands out, each with the cursor behind it, and how its walk ends.
fn original(
    witness: &[u8],
    header: &AccountWitnessHeader,
) -> (Vec<Vec<u64>>, Result<(), ProtocolError>) {
    let mut proofs = Vec::new();
    let end = parse_proofs(witness, header, |slot, proof| {
        let (start, length) = (place(witness, proof), proof.len() as u64);
        let slot = u64::from(slot);
        proofs.push(vec![slot, start, length, start + length, slot + 1]);
        Ok(())
    });
    (proofs, end)
}

fn step(calls: &mut Calls, witness: &[u8], cursor: Cursor, expected: Words) {
    let (offset, least) = cursor;
    calls.read("next_proof", witness, expected, |witness, out| {
        exports::next_proof(witness, offset, least, out)
    });
}

/// Walks as far as the original does. Where it stops short of the count, its refusal is that of the step there.
pub fn walk(calls: &mut Calls, witness: &[u8]) {
    let Ok(header) = parse_witness_header(witness) else {
        return;
    };
    let (proofs, end) = original(witness, &header);
    let mut cursor = FIRST;
    for words in &proofs {
        step(calls, witness, cursor, Ok(words.clone()));
        cursor = (words[3] as usize, words[4] as u32);
    }
    if proofs.len() < usize::from(header.proof_count) {
        step(calls, witness, cursor, Err(end.unwrap_err()));
    } else {
        let expected = (cursor.0 != witness.len()).then_some(ProtocolError::InvalidWitness);
        let input = || format!("a walk that ends at {} of {}", cursor.0, witness.len());
        let name = "end of a walk over proofs";
        calls.report.compare(name, 0, input, &end.err(), &expected);
    }
}

/// A step at any cursor. For the original a witness lock is made in which the same bytes follow a proof whose slot is one below
/// the least slot, or the header. A least slot above 65,536 follows no proof, and no slot reaches it.
pub fn step_anywhere(calls: &mut Calls, witness: &[u8], cursor: Cursor) {
    let (offset, least) = cursor;
    let mut before = vec![0; FIRST.0];
    if least > 0 {
        before.extend(witnesses::proof_layout(&Proof {
            slot: (least - 1) as u16,
            bytes: vec![7],
        }));
    }
    let count = 1 + usize::from(least > 0);
    let header = AccountWitnessHeader {
        operation: 1,
        proof_count: count as u8,
        state_sequence: 0,
    };
    let rest = &witness[offset.min(witness.len())..];
    let (mut proofs, end) = original(&[&before, rest].concat(), &header);
    let expected = match proofs.len() == count && least <= 65_536 {
        false if least > 65_536 => Err(ProtocolError::InvalidWitness),
        false => Err(end.unwrap_err()),
        true => {
            let mut words = proofs.remove(count - 1);
            for i in [1, 3] {
                words[i] = words[i] - before.len() as u64 + offset as u64;
            }
            Ok(words)
        }
    };
    step(calls, witness, cursor, expected);
}
