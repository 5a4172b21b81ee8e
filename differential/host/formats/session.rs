//! States with flag 2 or capability 0x0008: readers take them, and the writer writes them.

use super::calls::Calls;
use super::{state, states};
use crate::session::CAPABILITY;
use ckb_account_host::AccountState;

const COUNTS: [usize; 4] = [1, 2, 3, 16];

/// What the writer is measured by gives the state's layout, and what the readers are measured by accepts it.
fn run_one(calls: &mut Calls, state: &AccountState) {
    let bytes = states::layout(state);
    let measured = (
        state::written(state) == Ok(bytes.clone()),
        state::measured(&bytes).err(),
    );
    let name = "state with a session by the documents";
    let (size, input) = (bytes.len(), || format!("{state:?}"));
    let report = &mut calls.report;
    report.compare(name, size, input, &measured, &(true, None));
    state::read(calls, &bytes);
    state::write(calls, state);
}

/// A valid state with these flags, and with the capability in the entry of this place alone.
fn with_session(calls: &mut Calls, count: usize, flags: u8, holder: usize) -> AccountState {
    let mut state = states::valid(&mut calls.prng, count);
    state.flags = flags;
    state.recovery_threshold = u16::from(flags & 1);
    state.recovery_since = 0;
    for (place, auth) in state.authenticators.iter_mut().enumerate() {
        auth.capabilities &= !CAPABILITY;
        if place == holder {
            auth.capabilities |= CAPABILITY;
        }
    }
    state
}

/// All flags, with the capability in each entry and in none.
pub fn run(calls: &mut Calls) {
    for count in COUNTS {
        for flags in 0..=3 {
            for holder in 0..=count {
                let state = with_session(calls, count, flags, holder);
                run_one(calls, &state);
            }
        }
    }
}
