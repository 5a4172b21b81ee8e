//! The step over a state's entries, beside what the original hands out, an aux above document 02's limit aside.

use super::calls::{numbered, place, Calls, Words};
use super::states;
use crate::aux_limit::within;
use crate::exports;
use ckb_account_protocol::{
    is_supported_algorithm, parse_authenticators, AuthenticatorEntry, ProtocolError, StateHeader,
};

/// Where the next entry begins, and the least slot that it may have.
type Cursor = (usize, u32);
const FIRST: Cursor = (32, 0);
/// The length of the aux among an entry's words.
const AUX_LEN: usize = 10;

/// The words of an entry that the original hands out from a state, with the cursor behind it.
fn entry_words(state: &[u8], entry: &AuthenticatorEntry) -> Vec<u64> {
    let aux = place(state, entry.aux);
    vec![
        entry.slot.into(),
        entry.algorithm_id.into(),
        entry.capabilities.into(),
        entry.weight.into(),
        entry.verifier_hash_type.into(),
        entry.verifier_abi.into(),
        place(state, entry.verifier_code_hash),
        place(state, entry.key_id),
        entry.key_id.len() as u64,
        aux,
        entry.aux.len() as u64,
        aux + entry.aux.len() as u64,
        u64::from(entry.slot) + 1,
    ]
}

/// What the original's validation tests in each entry after the walk did.
fn tested(entry: &AuthenticatorEntry) -> Result<(), ProtocolError> {
    if !is_supported_algorithm(entry.algorithm_id) {
        return Err(ProtocolError::UnsupportedAlgorithm);
    }
    if entry.key_id.len() != 32 || entry.aux.is_empty() {
        return Err(ProtocolError::InvalidState);
    }
    Ok(())
}

/// The entries that the original hands out, and how its walk ends.
fn original(state: &[u8], header: &StateHeader) -> (Vec<Vec<u64>>, Result<(), ProtocolError>) {
    let mut entries = Vec::new();
    let end = parse_authenticators(state, header, |entry| {
        tested(&entry)?;
        entries.push(entry_words(state, &entry));
        Ok(())
    });
    (entries, end)
}

/// Hands an entry out where its aux is within the limit.
fn limited(words: Vec<u64>) -> Result<Vec<u64>, u32> {
    within(words[AUX_LEN] as usize)?;
    Ok(words)
}

fn step(calls: &mut Calls, state: &[u8], cursor: Cursor, expected: Words) {
    let (offset, least) = cursor;
    let expected = numbered(expected).and_then(limited);
    calls.read_as("next_entry", state, expected, |state, out| {
        exports::next_entry(state, offset, least, out)
    });
}

/// Walks as far as the original does. Where it stops short of the count, its refusal is that of the step there.
pub fn walk(calls: &mut Calls, state: &[u8]) {
    let Ok(header) = StateHeader::parse(state) else {
        return;
    };
    let (entries, end) = original(state, &header);
    let mut cursor = FIRST;
    for words in &entries {
        step(calls, state, cursor, Ok(words.clone()));
        cursor = (words[11] as usize, words[12] as u32);
    }
    if entries.len() < usize::from(header.authenticator_count) {
        step(calls, state, cursor, Err(end.unwrap_err()));
    } else {
        let expected = (cursor.0 != state.len()).then_some(ProtocolError::InvalidState);
        let input = || format!("a walk that ends at {} of {}", cursor.0, state.len());
        let name = "end of a walk over entries";
        calls.report.compare(name, 0, input, &end.err(), &expected);
    }
}

/// A step at any cursor. For the original a state is made in which the same bytes follow an entry whose slot is one below the
/// least slot, or the header. A least slot above 65,536 follows no entry, and no slot reaches it.
pub fn step_anywhere(calls: &mut Calls, state: &[u8], cursor: Cursor) {
    let (offset, least) = cursor;
    let mut before = vec![0; FIRST.0];
    if least > 0 {
        let mut auth = states::smallest(&mut calls.prng).authenticators.remove(0);
        auth.slot = (least - 1) as u16;
        before.extend(states::entry_layout(&auth));
    }
    let count = 1 + usize::from(least > 0);
    let header = StateHeader {
        flags: 0,
        sequence: 0,
        spend_threshold: 0,
        rotate_threshold: 0,
        recovery_threshold: 0,
        authenticator_count: count as u8,
        recovery_since: 0,
    };
    let rest = &state[offset.min(state.len())..];
    let (mut entries, end) = original(&[&before, rest].concat(), &header);
    let expected = match entries.len() == count && least <= 65_536 {
        false if least > 65_536 => Err(ProtocolError::InvalidState),
        false => Err(end.unwrap_err()),
        true => {
            let mut words = entries.remove(count - 1);
            for i in [6, 7, 9, 11] {
                words[i] = words[i] - before.len() as u64 + offset as u64;
            }
            Ok(words)
        }
    };
    step(calls, state, cursor, expected);
}
