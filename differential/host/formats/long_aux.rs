//! States with an aux about document 02's limit, alone and beside each other fault of a state, through readers and writer. What
//! they are measured by is held to what the documents say of each.

use super::calls::Calls;
use super::state_faults::{faults, Change, Fault, Met};
use super::{state, state_walk, states};
use crate::aux_limit::{AUX_TOO_LONG, MAX_AUX};
use crate::hex::Hex;
use ckb_account_host::{AccountState, Authenticator};

/// What a longest state has behind its header.
const ROOM: usize = 16_352;
/// An entry without its aux.
const ENTRY: usize = 80;
/// How many entries a state has: one, two, and as many as there may be. With short ones beside it an aux of 5,000 bytes
/// leaves room for all.
const COUNTS: [usize; 3] = [1, 2, 16];
const LENGTHS: [usize; 6] = [2_592, 2_593, 2_594, 4_096, 4_097, 5_000];
/// The limit, and the first length above it.
const ABOUT: [usize; 2] = [MAX_AUX, MAX_AUX + 1];

/// Where the entry of a place stands.
fn start(state: &AccountState, place: usize) -> usize {
    let before = state.authenticators[..place].iter();
    32 + before.map(|auth| ENTRY + auth.aux.len()).sum::<usize>()
}

/// What document 02 says of a state whose first aux above the limit is in this place: a reader meets the limit at the end of
/// that entry.
fn in_reader(long: Option<usize>, fault: Option<&Fault>) -> u32 {
    let first = fault.filter(|fault| match (fault.met, long) {
        (Met::Before, _) | (_, None) => true,
        (Met::In(place), Some(long)) => place <= long,
        (Met::Behind, Some(_)) => false,
    });
    let limit = if long.is_some() { AUX_TOO_LONG } else { 0 };
    first.map_or(limit, |fault| fault.number)
}

/// A writer comes to the limit behind every other fault.
fn in_writer(long: Option<usize>, fault: Option<&Fault>) -> u32 {
    let limit = if long.is_some() { AUX_TOO_LONG } else { 0 };
    fault.map_or(limit, |fault| fault.number)
}

fn number<T>(measured: Result<T, u32>) -> u32 {
    measured.err().unwrap_or(0)
}

fn read(calls: &mut Calls, bytes: &[u8], expected: u32) {
    let measured = number(state::measured(bytes));
    let name = "state's measure by the documents";
    let input = || format!("{:?}", Hex(bytes.to_vec()));
    let report = &mut calls.report;
    report.compare(name, bytes.len(), input, &measured, &expected);
    state::read(calls, bytes);
}

/// In buffers that are empty, one byte too short, just long enough, and longer.
fn write(calls: &mut Calls, state: &AccountState, expected: u32) {
    let measured = number(state::written(state));
    let name = "state writer's measure by the documents";
    let report = &mut calls.report;
    report.compare(name, 0, || format!("{state:?}"), &measured, &expected);
    let length = start(state, state.authenticators.len());
    for room in [0, length - 1, length, length + 9] {
        state::write_into(calls, state, room);
    }
}

/// A state with aux of these lengths and maybe a fault.
fn run_one(calls: &mut Calls, aux_lens: &[usize], fault: Option<&Fault>) {
    let mut state = states::with_aux(&mut calls.prng, aux_lens);
    let place = match fault.map(|fault| fault.met) {
        Some(Met::In(place)) => place,
        _ => 0,
    };
    if let Some(Change::State(change)) = fault.map(|fault| fault.change) {
        change(&mut state, place);
    }
    let above = |auth: &Authenticator| auth.aux.len() > MAX_AUX;
    let long = state.authenticators.iter().position(above);
    let mut bytes = states::layout(&state);
    if let Some(Change::Bytes(change)) = fault.map(|fault| fault.change) {
        change(&mut bytes, start(&state, place));
    } else {
        write(calls, &state, in_writer(long, fault));
    }
    read(calls, &bytes, in_reader(long, fault));
}

/// Each of these lengths, but for the one in this place.
fn but_one(mut aux_lens: Vec<usize>, place: usize, aux_len: usize) -> Vec<usize> {
    aux_lens[place] = aux_len;
    aux_lens
}

/// The shortest aux beside it.
fn one_long(count: usize, place: usize, aux_len: usize) -> Vec<usize> {
    but_one(vec![1; count], place, aux_len)
}

/// As many entries with the longest aux beside it as fit, in each place.
fn all_long(aux_len: usize) -> Vec<Vec<usize>> {
    let count = 1 + (ROOM - ENTRY - aux_len) / (ENTRY + MAX_AUX);
    let in_place = |place| but_one(vec![MAX_AUX; count], place, aux_len);
    (0..count).map(in_place).collect()
}

/// Each length in each place, as long as the state has room, and as many of that length as fit.
fn alone(calls: &mut Calls) {
    for count in COUNTS {
        let longest = ROOM - ENTRY * count - (count - 1);
        for aux_len in LENGTHS.into_iter().chain([longest]) {
            for place in 0..count {
                run_one(calls, &one_long(count, place, aux_len), None);
            }
        }
        let too_long = Fault {
            number: 21,
            met: Met::Before,
            change: Change::State(|_, _| {}),
        };
        run_one(calls, &one_long(count, 0, longest + 1), Some(&too_long));
    }
    for aux_len in LENGTHS {
        run_one(calls, &vec![aux_len; ROOM / (ENTRY + aux_len)], None);
        for aux_lens in all_long(aux_len) {
            run_one(calls, &aux_lens, None);
        }
    }
}

/// Each fault beside an aux at the limit or above it, in each place.
fn beside_faults(calls: &mut Calls) {
    for aux_len in ABOUT {
        let short = COUNTS.into_iter().flat_map(|count| {
            let in_place = move |place| one_long(count, place, aux_len);
            (0..count).map(in_place)
        });
        for aux_lens in short.chain(all_long(aux_len)) {
            for fault in faults(aux_lens.len()) {
                run_one(calls, &aux_lens, Some(&fault));
            }
        }
    }
}

/// Steps at an aux above the limit and beside it, with least slots that its slot reaches and that it does not.
fn steps(calls: &mut Calls) {
    for place in 0..3 {
        let state = states::with_aux(&mut calls.prng, &one_long(3, place, MAX_AUX + 1));
        let (bytes, at) = (states::layout(&state), start(&state, place));
        let slot = u32::from(state.authenticators[place].slot);
        for offset in [at - 1, at, at + 1] {
            for least in [0, slot, slot + 1, 65_536, u32::MAX] {
                state_walk::step_anywhere(calls, &bytes, (offset, least));
            }
        }
    }
}

/// Slices that disagree come before the limit.
fn disagreeing(calls: &mut Calls) {
    for count in COUNTS {
        for aux_len in ABOUT {
            let aux_lens = one_long(count, count - 1, aux_len);
            let state = states::with_aux(&mut calls.prng, &aux_lens);
            state::write_disagreeing(calls, &state);
        }
    }
}

pub fn run(calls: &mut Calls) {
    alone(calls);
    beside_faults(calls);
    steps(calls);
    disagreeing(calls);
}
