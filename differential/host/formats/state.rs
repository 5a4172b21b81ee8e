//! The account state: its readers and its writer.

use super::calls::{numbered, Calls, Words, DISAGREE};
use super::{long_aux, session, state_walk, states};
use crate::aux_limit::{state_number, too_long, within, AUX_TOO_LONG};
use crate::changes;
use crate::exports::{self, LentState};
use crate::hex::Hex;
use crate::lent_state::slices;
use crate::prng::Prng;
use ckb_account_host::{encode_state, AccountState};
use ckb_account_protocol::{validate_state, StateHeader};

const CHANGED: usize = 12_000;

fn header_words(header: &StateHeader) -> Vec<u64> {
    vec![
        header.flags.into(),
        header.sequence,
        header.spend_threshold.into(),
        header.rotate_threshold.into(),
        header.recovery_threshold.into(),
        header.authenticator_count.into(),
        header.recovery_since,
    ]
}

fn state_words(state: &[u8]) -> Words {
    let (header, summary) = validate_state(state)?;
    let weights = [
        summary.spend_weight,
        summary.rotate_weight,
        summary.recovery_weight,
    ];
    Ok([header_words(&header), weights.map(u64::from).to_vec()].concat())
}

/// What the original says, or the limit's refusal.
pub fn measured(state: &[u8]) -> Result<Vec<u64>, u32> {
    match too_long(state) {
        true => Err(AUX_TOO_LONG),
        false => numbered(state_words(state)),
    }
}

/// The model of the checks, without the limit, gives the original's number.
fn check_model(calls: &mut Calls, state: &[u8]) {
    let number = state_number(state, None);
    let expected = numbered(state_words(state)).err().unwrap_or(0);
    let name = "model of a state's checks";
    let input = || format!("{:?}", Hex(state.to_vec()));
    let report = &mut calls.report;
    report.compare(name, state.len(), input, &number, &expected);
}

/// All three readers on the same bytes.
pub fn read(calls: &mut Calls, state: &[u8]) {
    check_model(calls, state);
    let header = StateHeader::parse(state).map(|header| header_words(&header));
    calls.read(
        "parse_state_header",
        state,
        header,
        exports::parse_state_header,
    );
    let whole = measured(state);
    calls.read_as("validate_state", state, whole, exports::validate_state);
    state_walk::walk(calls, state);
}

fn lent<'a>(state: &AccountState, fields: &'a [u16], bytes: &'a [u8]) -> LentState<'a> {
    LentState {
        flags: state.flags,
        sequence: state.sequence,
        spend_threshold: state.spend_threshold,
        rotate_threshold: state.rotate_threshold,
        recovery_threshold: state.recovery_threshold,
        recovery_since: state.recovery_since,
        fields,
        bytes,
    }
}

fn write_slices(
    calls: &mut Calls,
    state: &AccountState,
    fields: &[u16],
    bytes: &[u8],
    expected: &Result<Vec<u8>, u32>,
) {
    let lent = lent(state, fields, bytes);
    let input = || format!("{} numbers, {} bytes, {state:?}", fields.len(), bytes.len());
    calls.write("encode_state", expected, input, |out, len| {
        exports::encode_state(&lent, out, len)
    });
}

/// What the original writes. The limit refuses behind all of its refusals.
pub fn written(state: &AccountState) -> Result<Vec<u8>, u32> {
    let bytes = numbered(encode_state(state))?;
    let mut entries = state.authenticators.iter();
    entries.try_for_each(|auth| within(auth.aux.len()))?;
    Ok(bytes)
}

pub fn write(calls: &mut Calls, state: &AccountState) {
    let (fields, bytes) = slices(state);
    write_slices(calls, state, &fields, &bytes, &written(state));
}

/// The writer in a buffer of this length.
pub fn write_into(calls: &mut Calls, state: &AccountState, room: usize) {
    let (fields, bytes) = slices(state);
    let lent = lent(state, &fields, &bytes);
    let (expected, input) = (written(state), || format!("{state:?}"));
    calls.write_into("encode_state", room, &expected, input, |out, len| {
        exports::encode_state(&lent, out, len)
    });
}

/// Slices that disagree: numbers for no whole entry, bytes too few or too many, or an aux length that is wrong.
pub fn write_disagreeing(calls: &mut Calls, state: &AccountState) {
    let (fields, bytes) = slices(state);
    let expected = Err(DISAGREE);
    for spare in 1..=4 {
        let longer = [&fields[..], &[7; 4][..spare]].concat();
        write_slices(calls, state, &longer, &bytes, &expected);
    }
    let longer = [&bytes[..], &[7]].concat();
    write_slices(calls, state, &fields, &longer, &expected);
    if fields.is_empty() {
        return;
    }
    let without_last = &fields[..fields.len() - 1];
    write_slices(calls, state, without_last, &bytes, &expected);
    let without_entry = &fields[..fields.len() - 5];
    write_slices(calls, state, without_entry, &bytes, &expected);
    let shorter = &bytes[..bytes.len() - 1];
    write_slices(calls, state, &fields, shorter, &expected);
    let mut longer_aux = fields.clone();
    longer_aux[4] += 1;
    write_slices(calls, state, &longer_aux, &bytes, &expected);
}

/// A cursor that the walk may not reach.
fn random_cursor(prng: &mut Prng, state: &[u8]) -> (usize, u32) {
    let offset = match prng.up_to(3) {
        0 => prng.up_to(state.len() + 2),
        1 => usize::MAX - prng.up_to(60),
        _ => 32,
    };
    let least = match prng.up_to(4) {
        0 => 65_535 + prng.up_to(3) as u32,
        1 => u32::MAX,
        2 => prng.up_to(10) as u32,
        _ => 0,
    };
    (offset, least)
}

fn changed_bytes(calls: &mut Calls) {
    let smallest = states::layout(&states::smallest(&mut calls.prng));
    changes::one_byte(&smallest, changes::any_other, |state| read(calls, state));
    for count in 1..=3 {
        let state = states::layout(&states::valid(&mut calls.prng, count));
        changes::one_byte(&state, changes::some_others, |state| read(calls, state));
        changes::other_lengths(&state, |state| read(calls, state));
    }
}

/// Keys of other lengths than 32, the entry's length being right: the key takes bytes from the aux, down to none, or gives some.
/// Other faults of the entry may come first.
fn other_keys(calls: &mut Calls) {
    for key_len in [0u16, 1, 31, 32, 33, 34, 71, 72] {
        for (place, value) in [(0, 0), (36, 0), (42, 2), (43, 2)] {
            let mut state = states::layout(&states::with_aux(&mut calls.prng, &[40]));
            state[76..78].copy_from_slice(&key_len.to_le_bytes());
            state[78..80].copy_from_slice(&(72 - key_len).to_le_bytes());
            if place > 0 {
                state[place] = value;
            }
            read(calls, &state);
        }
    }
}

/// Bytes behind a right magic, with the rest of the header right or not.
fn random_bytes(calls: &mut Calls) {
    for _ in 0..2_000 {
        let length = calls.prng.up_to(400);
        let tail = calls.prng.bytes(length);
        read(calls, &[b"CKAS", &tail[..]].concat());
        let count = 1 + calls.prng.up_to(2) as u8;
        let head = [b"CKAS\x01\x00\x20\x00", &[1; 14][..], &[count, 0], &[0; 8]].concat();
        read(calls, &[head, tail].concat());
    }
}

pub fn run(calls: &mut Calls) {
    for state in states::limits(&mut calls.prng) {
        read(calls, &states::layout(&state));
        write(calls, &state);
        write_disagreeing(calls, &state);
    }
    for i in 0..CHANGED {
        let state = match i % 4 {
            0 => states::valid(&mut calls.prng, 1 + i % 16),
            _ => states::changed(&mut calls.prng),
        };
        let bytes = states::layout(&state);
        read(calls, &bytes);
        let cursor = random_cursor(&mut calls.prng, &bytes);
        state_walk::step_anywhere(calls, &bytes, cursor);
        let other = changes::random(&mut calls.prng, &bytes);
        read(calls, &other);
        write(calls, &state);
        if i % 20 == 0 {
            write_disagreeing(calls, &state);
        }
    }
    changed_bytes(calls);
    other_keys(calls);
    random_bytes(calls);
    long_aux::run(calls);
    session::run(calls);
}
