//! The limit of an aux in a state: alone, and beside other faults of the same state.

use super::order::beside;
use super::parts::u16_at;
use super::states::{last, of_both, set_aux, Change, BEHIND, ENTRIES, FIRST, HEADER, LATER, SHORT};
use super::{on_plan, Fault, Part, Row, ALL};
use crate::aux_limit::{AUX_TOO_LONG, MAX_AUX};
use crate::locks::plan::{successor, Plan};
use crate::prng::Prng;

/// The lock's number for an aux above the limit.
pub const TOO_LONG: i8 = AUX_TOO_LONG as i8;
/// The longest state.
pub const LONGEST: usize = 16_384;

/// A first aux of this length.
pub fn first_aux<const LENGTH: usize>(state: &mut Vec<u8>, prng: &mut Prng) {
    set_aux(state, FIRST, prng.bytes(LENGTH));
}

/// A last one.
pub fn last_aux<const LENGTH: usize>(state: &mut Vec<u8>, prng: &mut Prng) {
    let at = last(state);
    set_aux(state, at, prng.bytes(LENGTH));
}

/// The first aux so long that the state has this length.
pub fn fill<const LENGTH: usize>(state: &mut Vec<u8>, prng: &mut Prng) {
    let aux_len = u16_at(state, FIRST + 46) + LENGTH.saturating_sub(state.len());
    set_aux(state, FIRST, prng.bytes(aux_len));
}

/// An aux about the limit, in the first entry or in the last.
pub fn about_limit(state: &mut Vec<u8>, prng: &mut Prng) {
    let at = [FIRST, last(state)][prng.up_to(1)];
    let aux_len = MAX_AUX - 2 + prng.up_to(4);
    set_aux(state, at, prng.bytes(aux_len));
}

const ALONE: [Change; 11] = [
    (0, "has an aux of 2,592", first_aux::<2_592>),
    (0, "has an aux of 2,593", first_aux::<2_593>),
    (0, "has a last aux of 2,593", last_aux::<2_593>),
    (0, "has aux of 2,593 at both ends", |state, prng| {
        first_aux::<2_593>(state, prng);
        last_aux::<2_593>(state, prng);
    }),
    (TOO_LONG, "has an aux of 2,594", first_aux::<2_594>),
    (TOO_LONG, "has a last aux of 2,594", last_aux::<2_594>),
    (TOO_LONG, "has aux of 2,594 at both ends", |state, prng| {
        first_aux::<2_594>(state, prng);
        last_aux::<2_594>(state, prng);
    }),
    (TOO_LONG, "has an aux of 4,096", first_aux::<4_096>),
    (TOO_LONG, "has an aux of 4,097", first_aux::<4_097>),
    (TOO_LONG, "has an aux of 5,000", first_aux::<5_000>),
    (TOO_LONG, "has a last aux of 5,000", last_aux::<5_000>),
];

const FILLED: [Change; 2] = [
    (TOO_LONG, "is filled by an aux", fill::<LONGEST>),
    (21, "is overfilled by an aux", fill::<{ LONGEST + 1 }>),
];

/// As many entries with the longest aux as a state has room for, the last aux having this length.
fn full(plan: &mut Plan, prng: &mut Prng, last_aux: usize) {
    let aux_lens = [MAX_AUX, MAX_AUX, MAX_AUX, MAX_AUX, MAX_AUX, last_aux];
    *plan = Plan::with_aux(prng, plan.lock.operation, &aux_lens);
}

/// States alone.
fn alone_rows() -> Vec<Row> {
    let mut rows: Vec<Row> = ALONE.into_iter().flat_map(of_both).collect();
    rows.extend(FILLED.into_iter().flat_map(of_both).map(Row::long));
    rows.push(
        on_plan(0, ALL, "six aux of 2,593", |plan, prng| {
            full(plan, prng, 2_593)
        })
        .long(),
    );
    rows.push(
        on_plan(TOO_LONG, ALL, "the sixth aux of 2,594", |plan, prng| {
            full(plan, prng, 2_594)
        })
        .long(),
    );
    rows
}

/// A successor of two entries, so that one of them is later.
pub fn two_entries(plan: &mut Plan, prng: &mut Prng) {
    plan.successor = successor(prng, 2, plan.successor.sequence);
}

/// The part of the scene that a row of a state changes.
fn part(row: &Row) -> Part {
    match row.faults[..] {
        [Fault::Bytes(part, _)] => part,
        _ => unreachable!("a row of one state"),
    }
}

/// Another fault of the same state: before the limit where it is of the header, of an earlier entry or of the same one.
fn same_state_rows() -> Vec<Row> {
    let first = |row: Row, number| {
        let fault = Fault::Bytes(part(&row), first_aux::<2_594>);
        beside(row, "a first aux of 2,594", fault, number).long()
    };
    let last = |row: Row| {
        let (number, fault) = (row.number, Fault::Bytes(part(&row), last_aux::<2_594>));
        beside(row, "a last aux of 2,594", fault, number).long()
    };
    let mut rows = Vec::new();
    for row in HEADER
        .into_iter()
        .chain(ENTRIES)
        .chain([SHORT])
        .flat_map(of_both)
    {
        rows.push(last(row));
    }
    for row in HEADER.into_iter().chain(ENTRIES).flat_map(of_both) {
        let number = row.number;
        rows.push(first(row, number));
    }
    for row in BEHIND.into_iter().flat_map(of_both) {
        rows.push(first(row, TOO_LONG));
    }
    for row in LATER.into_iter().flat_map(of_both) {
        rows.push(first(row, TOO_LONG).and(Fault::Plan(two_entries)));
    }
    rows
}

pub fn rows() -> Vec<Row> {
    let mut rows = alone_rows();
    rows.extend(same_state_rows());
    rows
}
