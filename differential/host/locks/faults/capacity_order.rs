//! Totals that fail beside the faults of other rows, which all come before.

use super::order::{behind_waits, beside, earlier};
use super::Made::Nothing;
use super::{session, session_order, transition, Fault, Row};
use crate::capacity::{LAST, LENGTH_OVERFLOW, OUTPUTS_EXCEED_INPUTS};
use crate::locks::capacities::Wanted;
use crate::prng::Prng;

/// Numbers, names, and totals of inputs and of outputs.
const FAILING: [(i8, &str, u128, u128); 4] = [
    (LENGTH_OVERFLOW, "inputs above 2^64-1", LAST + 1, 0),
    (LENGTH_OVERFLOW, "outputs above 2^64-1", 5, LAST + 3),
    (LENGTH_OVERFLOW, "both above 2^64-1", LAST + 9, LAST + 2),
    (OUTPUTS_EXCEED_INPUTS, "outputs above inputs", 1_000, 1_001),
];

/// The totals of one of those.
fn wanted(turn: usize) -> Fault {
    let (_, _, inputs, outputs) = FAILING[turn % FAILING.len()];
    Fault::Totals(Wanted {
        inputs,
        outputs,
        lines: 0,
        foreign: None,
    })
}

/// Totals that fail.
pub fn any(prng: &mut Prng) -> Fault {
    wanted(prng.up_to(FAILING.len() - 1))
}

/// The row with totals that fail. It keeps its number, unless it passes.
fn failing(row: Row, turn: usize) -> Row {
    let (refused, name, ..) = FAILING[turn % FAILING.len()];
    let number = match row.number {
        0 => refused,
        before => before,
    };
    beside(row, name, wanted(turn), number)
}

/// Rows before the digest, each with one of the totals.
fn before_digest() -> Vec<Row> {
    let mut rows = earlier();
    rows.extend(session_order::current());
    rows.extend(transition::rows());
    rows.extend(session::rows());
    for row in rows.iter_mut().filter(|row| row.number != 0) {
        row.made = Some(Nothing);
    }
    let rows = rows.into_iter().enumerate();
    rows.map(|(turn, row)| failing(row, turn)).collect()
}

/// Rows behind the waits, those of 31 and of 28 among them, each with each of the totals.
fn behind_digest() -> Vec<Row> {
    let with = |turn| {
        behind_waits()
            .into_iter()
            .map(move |row| failing(row, turn))
    };
    (0..FAILING.len()).flat_map(with).collect()
}

pub fn rows() -> Vec<Row> {
    let mut rows = before_digest();
    rows.extend(behind_digest());
    rows
}
