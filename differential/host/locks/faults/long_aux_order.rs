//! The limit of an aux in a state beside the faults of other rows, before the states and behind them; in both states; and in
//! cells that the lock does not read.

use super::long_aux::{fill, first_aux, LONGEST, TOO_LONG};
use super::order::{beside, changing, earlier, later};
use super::parts::put_u16;
use super::states::FIRST;
use super::{on_scene, row, transition, Fault, OnCell, Part, Row, ALL, CHANGING, SPEND};
use crate::cell_hashes::Place;
use crate::formats::states as plain;
use crate::locks::assembly::{output, plain_cell};
use crate::prng::Prng;
use crate::true_hashes;
use ckb_std::Cell;

/// A row before the limit keeps its number, unless it passes.
fn kept(row: &Row) -> i8 {
    match row.number {
        0 => TOO_LONG,
        number => number,
    }
}

/// A row behind the limit is not met.
fn not_met(_: &Row) -> i8 {
    TOO_LONG
}

/// Whether a row has a fault of a state's bytes.
fn of_states(row: &Row) -> bool {
    let of_state = |fault: &Fault| matches!(fault, Fault::Bytes(Part::State | Part::Successor, _));
    row.faults.iter().any(of_state)
}

/// The rows, those of states aside, beside an aux above the limit in the current state or in its successor.
fn beside_each(rows: Vec<Row>, part: Part, number: fn(&Row) -> i8) -> Vec<Row> {
    let fault = Fault::Bytes(part, first_aux::<2_594>);
    let long = |row: Row, name| {
        let number = number(&row);
        beside(row, name, fault, number).long()
    };
    let rows = rows.into_iter().filter(|row| !of_states(row));
    rows.filter_map(|row| match part {
        Part::Successor => Some(long(changing(row)?, "an aux of 2,594 in the successor")),
        _ => Some(long(row, "an aux of 2,594 in the state")),
    })
    .collect()
}

/// The witness sequence is tested between the two states.
fn other_rows() -> Vec<Row> {
    let (state, successor) = (Part::State, Part::Successor);
    let mut rows = beside_each(earlier(), state, kept);
    rows.extend(beside_each(transition::witness_rows(), state, not_met));
    rows.extend(beside_each(later(), state, not_met));
    rows.extend(beside_each(earlier(), successor, kept));
    rows.extend(beside_each(transition::witness_rows(), successor, kept));
    rows.extend(beside_each(later(), successor, not_met));
    rows
}

/// Both states: each fault beside the limit in the other one.
fn both_states_rows() -> Vec<Row> {
    let long = |part| Fault::Bytes(part, first_aux::<2_594>);
    let unsupported = |part| Fault::Bytes(part, |state, _| put_u16(state, FIRST + 4, 0));
    let overfilled = Fault::Bytes(Part::Successor, fill::<{ LONGEST + 1 }>);
    let both = |number, name, fault| row(number, CHANGING, name, fault);
    let (state, successor) = (Part::State, Part::Successor);
    vec![
        both(33, "algorithm 0, then a long aux", unsupported(state)).and(long(successor)),
        both(TOO_LONG, "a long aux, then algorithm 0", long(state)).and(unsupported(successor)),
        both(TOO_LONG, "a long aux in each state", long(state)).and(long(successor)),
        both(21, "a long aux, then data of 16,385", long(state)).and(overfilled),
    ]
}

/// Gives a cell a state above the limit and this type script.
fn hold_long_aux(cell: &mut Cell, prng: &mut Prng, script: &[u8]) {
    let state = plain::with_aux(prng, &[2_594]);
    cell.type_script = Some(script.to_vec());
    cell.data = plain::layout(&state);
    true_hashes::of_cell(cell);
}

/// A state above the limit in a cell that the lock does not read, and one that is 33 in the cell that it reads.
fn unread_rows() -> Vec<Row> {
    let foreign: OnCell = |cell, prng| hold_long_aux(cell, prng, b"other");
    let unsupported = Fault::Bytes(Part::State, |state, _| put_u16(state, FIRST + 4, 0));
    let places = [
        Place::GroupInput,
        Place::ForeignInput,
        Place::Output,
        Place::Dep,
    ];
    let mut rows = Vec::new();
    for place in places {
        let fault = Fault::NewCell(place, foreign);
        rows.push(row(0, ALL, &format!("{place:?} with a long aux"), fault));
        let name = format!("{place:?} with a long aux, algorithm 0");
        rows.push(row(33, ALL, &name, fault).and(unsupported));
    }
    rows.push(on_scene(
        0,
        SPEND,
        "id among outputs, long aux",
        |scene, plan, prng| {
            let mut cell = plain_cell(prng);
            hold_long_aux(&mut cell, prng, &plan.type_script);
            scene.outputs.push(output(cell));
        },
    ));
    rows.push(on_scene(
        0,
        CHANGING,
        "id among deps, long aux",
        |scene, plan, prng| {
            let mut cell = plain_cell(prng);
            hold_long_aux(&mut cell, prng, &plan.type_script);
            scene.deps.push(cell);
        },
    ));
    rows
}

pub fn rows() -> Vec<Row> {
    let mut rows = both_states_rows();
    rows.extend(unread_rows());
    rows.extend(other_rows());
    rows
}
