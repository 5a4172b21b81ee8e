//! The rows of the table that stand before the states and behind them, to be met beside a fault of a state.

use super::{
    cells, hashes, proofs, requests, script, transition, witness, Fault, Row, CHANGING, RECOVERY,
};

/// Before the current state.
pub fn earlier() -> Vec<Row> {
    let mut rows = hashes::rows();
    rows.extend(script::rows());
    rows.extend(witness::first_rows());
    rows.extend(cells::search_rows());
    rows
}

/// Behind the successor.
pub fn later() -> Vec<Row> {
    let mut rows = transition::later_rows();
    rows.extend(behind_waits());
    rows
}

/// Behind the waiting period of a recovery.
pub fn behind_waits() -> Vec<Row> {
    let mut rows = witness::hashed_rows();
    rows.extend(proofs::rows());
    rows.extend(requests::rows());
    rows
}

/// The row with those of its operations that have a successor.
pub fn changing(mut row: Row) -> Option<Row> {
    row.operations = match row.operations {
        [1] => return None,
        [1, ..] => CHANGING,
        operations => operations,
    };
    Some(row)
}

/// The row as one of a recovery.
pub fn recovering(mut row: Row) -> Option<Row> {
    let recovered = row.operations.contains(&3);
    row.operations = RECOVERY;
    recovered.then_some(row)
}

/// The row with another fault, which is made before its own, and the number of both.
pub fn beside(mut row: Row, name: &str, fault: Fault, number: i8) -> Row {
    row.name = format!("{}, and {name}", row.name);
    row.number = number;
    row.faults.insert(0, fault);
    row
}
