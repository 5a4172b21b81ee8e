//! The rows of sequences, and those of recovery.

use super::parts::set;
use super::waits::waits;
use super::{on_plan, row, Fault, Part, Row, ALL, CHANGING, RECOVERY};
use crate::locks::plan::Plan;
use crate::prng::Prng;
use crate::since::{INVALID_SINCE, RECOVERY_LOCKED};

/// The last sequence there is.
fn last_sequence(plan: &mut Plan) {
    plan.state.sequence = u64::MAX;
    plan.lock.sequence = u64::MAX;
}

fn of_version_2(part: Part) -> Fault {
    Fault::Bytes(part, |state, _| set(state, 4, 2))
}

/// The witness sequence, which comes between the two states.
pub fn witness_rows() -> Vec<Row> {
    let other = Fault::Plan(|plan, _| plan.lock.sequence ^= 1 << 40);
    vec![
        on_plan(27, ALL, "witness sequence one more", |plan, _| {
            plan.lock.sequence = plan.lock.sequence.wrapping_add(1);
        }),
        row(27, ALL, "witness sequence differing above", other),
        row(32, ALL, "state of version 2, witness sequence", other).and(of_version_2(Part::State)),
        row(
            27,
            CHANGING,
            "successor of version 2, witness sequence",
            other,
        )
        .and(of_version_2(Part::Successor)),
    ]
}

pub fn successor_rows() -> Vec<Row> {
    vec![
        on_plan(27, CHANGING, "successor's sequence the same", |plan, _| {
            plan.successor.sequence = plan.state.sequence;
        }),
        on_plan(27, CHANGING, "successor's sequence two more", |plan, _| {
            plan.successor.sequence = plan.state.sequence.wrapping_add(2);
        }),
        on_plan(27, CHANGING, "sequence 2^64-1, successor's 0", |plan, _| {
            last_sequence(plan);
            plan.successor.sequence = 0;
        }),
        on_plan(
            27,
            CHANGING,
            "sequence 2^64-1, successor's too",
            |plan, _| {
                last_sequence(plan);
                plan.successor.sequence = u64::MAX;
            },
        ),
        on_plan(
            32,
            CHANGING,
            "sequence 2^64-1, successor of version 2",
            |plan, _| {
                last_sequence(plan);
            },
        )
        .and(of_version_2(Part::Successor)),
        on_plan(0, CHANGING, "sequence 2^64-2", |plan, _| {
            plan.state.sequence = u64::MAX - 1;
            plan.lock.sequence = u64::MAX - 1;
            plan.successor.sequence = u64::MAX;
        }),
        on_plan(0, &[1], "sequence 2^64-1 spent", |plan, _| {
            last_sequence(plan)
        }),
    ]
}

/// Turns recovery off in the current state.
pub fn turn_off(plan: &mut Plan, _: &mut Prng) {
    plan.state.flags &= 2;
    plan.state.recovery_threshold = 0;
    plan.state.recovery_since = 0;
}

/// Recovery that is off, and some waiting periods: the others stand in `waits`.
fn recovery_rows() -> Vec<Row> {
    vec![
        on_plan(29, RECOVERY, "recovery off", turn_off),
        waits(RECOVERY_LOCKED, "since one below", 1_000, 999),
        waits(0, "since equal", 1_000, 1_000),
        waits(0, "no wait", 0, 0),
        waits(INVALID_SINCE, "since 2^64-2", u64::MAX, u64::MAX - 1),
        waits(INVALID_SINCE, "since 2^64-1", u64::MAX, u64::MAX),
    ]
}

/// The rows behind both states.
pub fn later_rows() -> Vec<Row> {
    let mut rows = successor_rows();
    rows.extend(recovery_rows());
    rows.push(on_plan(0, &[2], "a rotation does not wait", |plan, _| {
        plan.since = 0
    }));
    rows
}

pub fn rows() -> Vec<Row> {
    let mut rows = witness_rows();
    rows.extend(later_rows());
    rows
}
