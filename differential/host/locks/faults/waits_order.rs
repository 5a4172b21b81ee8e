//! The waiting period of a recovery beside the faults of other rows, before it and behind it; and the sinces of inputs that do
//! not hold the state.

use super::long_aux::{first_aux, TOO_LONG};
use super::order::{behind_waits, beside, earlier, recovering};
use super::session::on_successor;
use super::waits::waits;
use super::{on_plan, row, session, session_order, session_own, transition};
use super::{Fault, OnScene, Row, CHANGING, RECOVERY};
use crate::locks::assembly::plain_input;
use crate::locks::plan::Plan;
use crate::locks::sinces::{epochs, RELATIVE};
use crate::prng::Prng;
use crate::session::SESSION_WITHDRAWN;
use crate::since::{INVALID_SINCE, RECOVERY_LOCKED};
use ckb_std::Scene;

/// A wait, one that is lower by its fraction, and one with a reserved bit.
const WAIT: u64 = RELATIVE | epochs(5, 1, 2);
const LOWER: u64 = RELATIVE | epochs(5, 1, 3);
const MALFORMED: u64 = WAIT | 1 << 56;

/// Refused ones: recovery_since, and the since of the state's input.
const WAITS: [(i8, &str, u64, u64); 3] = [
    (INVALID_SINCE, "a malformed recovery_since", MALFORMED, WAIT),
    (INVALID_SINCE, "a malformed since", WAIT, MALFORMED),
    (RECOVERY_LOCKED, "a lower since", WAIT, LOWER),
];

/// A row before the waits keeps its number, unless it passes.
fn kept(row: &Row, number: i8) -> i8 {
    match row.number {
        0 => number,
        before => before,
    }
}

/// A row behind the waits is not met. Among those of requests are some of a long aux in the current state.
fn not_met(row: &Row, number: i8) -> i8 {
    match row.number {
        TOO_LONG => TOO_LONG,
        _ => number,
    }
}

/// The rows with each of the waits.
fn beside_each(rows: fn() -> Vec<Row>, number: fn(&Row, i8) -> i8) -> Vec<Row> {
    let mut all = Vec::new();
    for (refused, name, recovery_since, since) in WAITS {
        let fault = Fault::Waits(recovery_since, since);
        let with = |row: Row| {
            let number = number(&row, refused);
            beside(row, name, fault, number)
        };
        all.extend(rows().into_iter().filter_map(recovering).map(with));
    }
    all
}

/// The states, the session and the sequences.
fn states() -> Vec<Row> {
    let long = row(
        TOO_LONG,
        CHANGING,
        "successor has a long aux",
        on_successor(first_aux::<2_594>),
    );
    let sessions = session::rows()
        .into_iter()
        .filter(|row| row.number == SESSION_WITHDRAWN);
    let mut rows = session_order::current();
    rows.extend(transition::witness_rows());
    rows.extend(session_own::whole());
    rows.push(long.long());
    rows.extend(sessions);
    rows.extend(transition::successor_rows());
    rows
}

/// Recovery off, and a malformed since.
fn off_row() -> Row {
    let malformed = Fault::Plan(|plan, _| plan.since = MALFORMED);
    let name = "recovery off, and a malformed since";
    on_plan(29, RECOVERY, name, transition::turn_off).and(malformed)
}

/// This since in each input that does not hold the state, of which there is one more in the group and one more outside it.
fn others<const SINCE: u64>(scene: &mut Scene, plan: &Plan, prng: &mut Prng) {
    for group in [true, false] {
        scene.inputs.push(plain_input(prng, group));
    }
    for input in &mut scene.inputs {
        if input.cell.type_hash != Some(plan.id()) {
            input.since = SINCE;
        }
    }
}

/// The same with a foreign input and its witness in front of all others.
fn behind_another<const SINCE: u64>(scene: &mut Scene, plan: &Plan, prng: &mut Prng) {
    scene.inputs.insert(0, plain_input(prng, false));
    scene.witnesses.insert(0, Vec::new());
    others::<SINCE>(scene, plan, prng);
}

/// Sinces of other inputs, which are not read.
fn unread_rows() -> Vec<Row> {
    let others: [(&str, OnScene); 6] = [
        ("other inputs wait", others::<WAIT>),
        ("no other input waits", others::<0>),
        ("other inputs malformed", others::<MALFORMED>),
        ("behind inputs that wait", behind_another::<WAIT>),
        ("behind inputs that do not wait", behind_another::<0>),
        ("behind malformed inputs", behind_another::<MALFORMED>),
    ];
    let passing = [
        (0, "the state's input waits", WAIT, WAIT),
        (0, "no wait", 0, 0),
    ];
    let mut rows = Vec::new();
    for (place, change) in others {
        for (number, name, recovery_since, since) in WAITS.into_iter().chain(passing) {
            let name = format!("{name}, {place}");
            rows.push(waits(number, &name, recovery_since, since).and(Fault::Scene(change)));
        }
    }
    rows
}

pub fn rows() -> Vec<Row> {
    let mut rows = vec![off_row()];
    rows.extend(unread_rows());
    rows.extend(beside_each(earlier, kept));
    rows.extend(beside_each(states, kept));
    rows.extend(beside_each(behind_waits, not_met));
    rows
}
