//! A session in a successor beside faults that the successor's own checks find: they come first.

use super::long_aux::{fill, first_aux, last_aux, two_entries, LONGEST, TOO_LONG};
use super::order::beside;
use super::parts::set;
use super::session::{capabilities, flag, in_first, in_last, on_successor};
use super::states::{of_both, Change, BEHIND, ENTRIES, HEADER, LATER, SHORT};
use super::{row, Fault, OnBytes, Row, CHANGING};
use crate::session::SESSION_WITHDRAWN;

/// The rows of the successor's own checks.
fn successor_rows(changes: impl IntoIterator<Item = Change>) -> Vec<Row> {
    let successor = |change| {
        let [_, row] = of_both(change);
        row
    };
    changes.into_iter().map(successor).collect()
}

/// The row with a session in its successor, made behind its own faults: it keeps its number.
fn then(mut row: Row, name: &str, change: OnBytes) -> Row {
    row.name = format!("{}, and {name}", row.name);
    row.and(on_successor(change))
}

/// Faults of the header, of the first entry, and behind the entries.
pub fn whole() -> Vec<Row> {
    let changes = HEADER.into_iter().chain(ENTRIES);
    successor_rows(changes.chain([SHORT]).chain(BEHIND))
}

/// A session in the same entry as a fault of an entry, in an earlier one and in a later one, and by its flag.
fn beside_rows() -> Vec<Row> {
    let first = |row| then(row, "a first capability 0x0008", in_first);
    let last = |row: Row| {
        let (number, fault) = (row.number, on_successor(in_last));
        beside(row, "a last capability 0x0008", fault, number).and(Fault::Plan(two_entries))
    };
    let mut rows: Vec<Row> = whole().into_iter().map(first).collect();
    rows.extend(whole().into_iter().map(last));
    for row in successor_rows(LATER) {
        rows.push(first(row).and(Fault::Plan(two_entries)));
    }
    for row in whole() {
        rows.push(then(row, "flag 2", flag));
    }
    for row in successor_rows(LATER) {
        rows.push(then(row, "flag 2", flag).and(Fault::Plan(two_entries)));
    }
    rows
}

/// A session's flag or capability beside one that there is not.
fn unknown_rows() -> Vec<Row> {
    let unknown: [(&str, OnBytes); 4] = [
        ("successor has flags 6", |state, _| set(state, 5, 6)),
        ("successor has flags 0xff", |state, _| set(state, 5, 0xff)),
        (
            "successor has capabilities 0x0018",
            capabilities::<0, 0x0018>,
        ),
        (
            "successor has capabilities 0x8008",
            capabilities::<0, 0x8008>,
        ),
    ];
    let row = |(name, change)| row(21, CHANGING, name, on_successor(change));
    unknown.map(row).into()
}

/// Aux about their limit in a successor of two entries, and data about its own.
fn length_rows() -> Vec<Row> {
    let aux: [(i8, &str, OnBytes); 5] = [
        (SESSION_WITHDRAWN, "first aux 2,593", first_aux::<2_593>),
        (SESSION_WITHDRAWN, "last aux 2,593", last_aux::<2_593>),
        (TOO_LONG, "first aux 2,594", first_aux::<2_594>),
        (TOO_LONG, "last aux 2,594", last_aux::<2_594>),
        (21, "16,385 bytes", fill::<{ LONGEST + 1 }>),
    ];
    let sessions: [(&str, OnBytes); 3] = [
        ("flag 2", flag),
        ("a first capability 0x0008", in_first),
        ("a last capability 0x0008", in_last),
    ];
    let mut rows = Vec::new();
    for (number, length, change) in aux {
        for (session, give) in sessions {
            let name = format!("successor has {length}, and {session}");
            let row = row(number, CHANGING, &name, on_successor(give));
            let row = row.and(on_successor(change)).and(Fault::Plan(two_entries));
            rows.push(row.long());
        }
    }
    rows
}

pub fn rows() -> Vec<Row> {
    let mut rows = beside_rows();
    rows.extend(unknown_rows());
    rows.extend(length_rows());
    rows
}
