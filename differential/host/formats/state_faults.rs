//! Faults of a state, each alone, and where a reader meets it.

use ckb_account_host::AccountState;
use Change::{Bytes, State};

/// A fault that is made in the entry of this place, or in the whole state.
#[derive(Clone, Copy)]
pub enum Change {
    /// A writer can be lent it too.
    State(fn(&mut AccountState, usize)),
    /// Of bytes, the entry standing here.
    Bytes(fn(&mut Vec<u8>, usize)),
}

/// Where a reader meets a fault: before the entries, in the entry of a place, behind them.
#[derive(Clone, Copy)]
pub enum Met {
    Before,
    In(usize),
    Behind,
}

#[derive(Clone, Copy)]
pub struct Fault {
    pub number: u32,
    pub met: Met,
    pub change: Change,
}

const HEADER: [(u32, Change); 7] = [
    (21, State(|state, _| state.flags = 4)),
    (21, Bytes(|state, _| state[3] = b'W')),
    (32, Bytes(|state, _| state[4] = 2)),
    (21, Bytes(|state, _| state[6] = 33)),
    (21, Bytes(|state, _| state[23] = 1)),
    (21, Bytes(|state, _| state[22] = 0)),
    (21, Bytes(|state, _| state[22] = 17)),
];

const ENTRIES: [(u32, Change); 13] = [
    (21, State(|state, i| state.authenticators[i].weight = 0)),
    (
        21,
        State(|state, i| state.authenticators[i].capabilities = 0x10),
    ),
    (
        30,
        State(|state, i| state.authenticators[i].verifier_hash_type = 2),
    ),
    (
        30,
        State(|state, i| state.authenticators[i].verifier_abi = 2),
    ),
    (
        33,
        State(|state, i| state.authenticators[i].algorithm_id = 0),
    ),
    (
        33,
        State(|state, i| state.authenticators[i].algorithm_id = 0x0301),
    ),
    (21, State(|state, i| state.authenticators[i].aux.clear())),
    (21, Bytes(|state, at| add(state, at, 1))),
    (21, Bytes(|state, at| add(state, at, u16::MAX))),
    (21, Bytes(|state, at| move_border(state, at, 1))),
    (21, Bytes(|state, at| move_border(state, at, u16::MAX))),
    (21, Bytes(|state, at| add(state, at + 46, 1))),
    (
        21,
        Bytes(|state, at| {
            add(state, at, 20_000);
            add(state, at + 46, 20_000);
        }),
    ),
];

/// Of an entry behind another one.
const SAME_SLOT: (u32, Change) = (
    21,
    State(|state, i| state.authenticators[i].slot = state.authenticators[i - 1].slot),
);

const BEHIND: [(u32, Change); 9] = [
    (21, Bytes(|state, _| state.push(0))),
    (38, State(|state, _| state.spend_threshold = 0)),
    (38, State(|state, _| state.rotate_threshold = 0)),
    (38, State(|state, _| light(state).spend_threshold = 17)),
    (38, State(|state, _| light(state).rotate_threshold = 17)),
    (38, State(|state, _| recovery(state, 1, 0, 0))),
    (38, State(|state, _| recovery(light(state), 1, 17, 0))),
    (21, State(|state, _| recovery(state, 0, 1, 0))),
    (21, State(|state, _| recovery(state, 0, 0, 1))),
];

/// Adds to the u16 there, wrapping.
fn add(state: &mut [u8], at: usize, more: u16) {
    let number = u16::from_le_bytes([state[at], state[at + 1]]).wrapping_add(more);
    state[at..at + 2].copy_from_slice(&number.to_le_bytes());
}

/// Gives the key so many bytes of the aux.
fn move_border(state: &mut [u8], at: usize, more: u16) {
    add(state, at + 44, more);
    add(state, at + 46, more.wrapping_neg());
}

/// Every weight 1, and thresholds that it meets.
fn light(state: &mut AccountState) -> &mut AccountState {
    state
        .authenticators
        .iter_mut()
        .for_each(|auth| auth.weight = 1);
    state.spend_threshold = 1;
    state.rotate_threshold = 1;
    state.recovery_threshold = u16::from(state.flags & 1);
    state
}

fn recovery(state: &mut AccountState, flag: u8, threshold: u16, since: u64) {
    state.flags = flag;
    state.recovery_threshold = threshold;
    state.recovery_since = since;
}

/// Every fault, one of an entry in each place.
pub fn faults(count: usize) -> Vec<Fault> {
    let fault = |met| {
        move |(number, change)| Fault {
            number,
            met,
            change,
        }
    };
    let mut faults: Vec<Fault> = HEADER.map(fault(Met::Before)).to_vec();
    faults.extend(BEHIND.map(fault(Met::Behind)));
    for place in 0..count {
        faults.extend(ENTRIES.map(fault(Met::In(place))));
    }
    faults.extend((1..count).map(|place| fault(Met::In(place))(SAME_SLOT)));
    faults
}
