//! What the port's lock is compared with: document 02's test of hashes, then its limit of an aux where the lock comes to a
//! state above it, then its row of sessions where the lock comes to a successor that carries one, then its rows of waiting
//! periods where they answer otherwise than the original does, and else the original; where all of these accept, document 02's
//! totals of capacities.

use crate::account::owns;
use crate::aux_limit::{self, AUX_TOO_LONG, MAX_AUX, UNSUPPORTED_ALGORITHM};
use crate::capacity::Totals;
use crate::cell_hashes::first_difference;
use crate::original::{self, Outcome};
use crate::samples;
use crate::session::{self, SESSION_WITHDRAWN};
use crate::since::{self, RECOVERY_LOCKED};
use crate::true_hashes::cells_mut;
use ckb_std::{Cell, Scene};

/// The lock's number for a hash that differs.
pub const HASH_MISMATCH: i8 = 40;

pub fn cells(scene: &Scene) -> impl Iterator<Item = &Cell> {
    let inputs = scene.inputs.iter().map(|input| &input.cell);
    let outputs = scene.outputs.iter().map(|output| &output.cell);
    inputs.chain(outputs).chain(&scene.deps)
}

/// A state that the original refuses with 33.
fn unsupported() -> Vec<u8> {
    let mut state = samples::state(0);
    state[36..38].fill(0xff);
    state
}

/// Puts it in place of each state that is asked for.
fn mark<'a>(cells: impl IntoIterator<Item = &'a mut Cell>, asked: fn(&[u8]) -> bool) {
    for cell in cells {
        if asked(&cell.data) {
            cell.data = unsupported();
        }
    }
}

/// Whether the lock comes to one of the states that `mark_asked` marks. States that are 33 themselves become empty before,
/// which is 21, and nothing but a state gives 33: so the original gives it just where the lock comes to a marked one. All data
/// that is changed was within 16,384 bytes and still is. The hashes stay, which the original believes.
fn comes_to(scene: &Scene, mark_asked: impl FnOnce(&mut Scene)) -> bool {
    let mut scene = scene.clone();
    for cell in cells_mut(&mut scene) {
        if aux_limit::state_number(&cell.data, Some(MAX_AUX)) == UNSUPPORTED_ALGORITHM {
            cell.data.clear();
        }
    }
    mark_asked(&mut scene);
    original::lock(&scene).number as u32 == UNSUPPORTED_ALGORITHM
}

/// Whether the lock comes to a state that is 44.
fn meets_long_aux(scene: &Scene) -> bool {
    let asked = aux_limit::too_long;
    let there = cells(scene).any(|cell| asked(&cell.data));
    there && comes_to(scene, |scene| mark(cells_mut(scene), asked))
}

/// Whether the lock comes to a successor that passes its own checks and carries a session. An output is read as a successor or
/// not at all, so outputs alone are marked: a current state, in an input or a dep, may carry one. A state that the lock comes
/// to is not 44, which was answered before, so the original reads the current state as the lock does.
fn meets_session(scene: &Scene) -> bool {
    let asked = session::carried;
    let mut outputs = scene.outputs.iter();
    let there = outputs.any(|output| asked(&output.cell.data));
    let mark_outputs = |scene: &mut Scene| {
        let outputs = scene.outputs.iter_mut();
        mark(outputs.map(|output| &mut output.cell), asked);
    };
    there && comes_to(scene, mark_outputs)
}

/// The two numbers of a recovery's waiting period, where the lock compares them.
#[derive(Clone, Copy)]
pub struct Waits {
    /// The place of the input that holds the account's state.
    pub place: usize,
    /// What that state has, not 0.
    pub recovery_since: u64,
    /// What that input has.
    pub since: u64,
}

/// Bytes 24 to 31 of a state.
fn recovery_since(state: &[u8]) -> u64 {
    let bytes = state.get(24..32).map(|bytes| bytes.try_into().unwrap());
    bytes.map_or(0, u64::from_le_bytes)
}

/// The original over the scene with one since for every input.
fn with_since(scene: &Scene, since: u64) -> Outcome {
    let mut scene = scene.clone();
    for input in &mut scene.inputs {
        input.since = since;
    }
    original::lock(&scene)
}

/// The waits, where the lock comes to them. The original gives 34 where the since of the state's input is below recovery_since
/// and nowhere else: so with every since at 0 it gives 34 just where the lock comes to this row and recovery_since is not 0.
/// There one input has the account's id.
fn waits(scene: &Scene) -> Option<Waits> {
    let mut inputs = scene.inputs.iter();
    let there = inputs.any(|input| recovery_since(&input.cell.data) != 0);
    if !there || with_since(scene, 0).number != RECOVERY_LOCKED {
        return None;
    }
    let mut inputs = scene.inputs.iter();
    let place = inputs.position(|input| owns(scene, &input.cell));
    let place = place.expect("an input that holds the state");
    let input = &scene.inputs[place];
    Some(Waits {
        place,
        recovery_since: recovery_since(&input.cell.data),
        since: input.since,
    })
}

/// The answer where the lock comes to these waits. Where they answer as the original's plain comparison does, it is the
/// original's; where they pass and the comparison does not, the original's with a since that is below no other.
fn waited(scene: &Scene, waits: Waits) -> Outcome {
    let outcome = original::lock(scene);
    let found = since::test(waits.recovery_since, waits.since);
    let (passes, plain) = (found.number == 0, outcome.number != RECOVERY_LOCKED);
    match (passes, plain) {
        (true, true) => outcome,
        (true, false) => with_since(scene, u64::MAX),
        (false, false) if found.number == RECOVERY_LOCKED => outcome,
        (false, _) => refused(found.number),
    }
}

/// A refusal before the first request and the digest.
pub fn refused(number: i8) -> Outcome {
    Outcome {
        number,
        requests: vec![],
        digest: None,
        fee: None,
    }
}

/// The number of a row before the waits that the original does not have.
fn before_waits(scene: &Scene) -> Option<i8> {
    if first_difference(scene).is_some() {
        return Some(HASH_MISMATCH);
    }
    if meets_long_aux(scene) {
        return Some(AUX_TOO_LONG as i8);
    }
    meets_session(scene).then_some(SESSION_WITHDRAWN)
}

/// The outcome with the rows of totals behind it. They leave requests and digest as they are.
pub fn with_totals(scene: &Scene, mut outcome: Outcome) -> Outcome {
    if outcome.number == 0 {
        match Totals::of(scene).fee() {
            Ok(fee) => outcome.fee = Some(fee),
            Err(number) => outcome.number = number,
        }
    }
    outcome
}

/// What the lock has to answer, and the waits that it comes to.
pub fn lock_and_waits(scene: &Scene) -> (Outcome, Option<Waits>) {
    if let Some(number) = before_waits(scene) {
        return (refused(number), None);
    }
    let waits = waits(scene);
    let outcome = match waits {
        Some(waits) => waited(scene, waits),
        None => original::lock(scene),
    };
    (with_totals(scene, outcome), waits)
}

pub fn lock(scene: &Scene) -> Outcome {
    let (outcome, _) = lock_and_waits(scene);
    outcome
}
