//! A session in the successor beside the faults of other rows, before the successor and behind it; and in cells that the lock
//! does not read as a successor.

use super::long_aux::{first_aux, TOO_LONG};
use super::order::{beside, changing, earlier, later};
use super::parts::put_u16;
use super::session::{flag, in_first};
use super::states::{of_both, BEHIND, ENTRIES, FIRST, HEADER, SHORT};
use super::Made::AllBut;
use super::{on_scene, row, transition, Fault, OnBytes, OnCell, Part, Row, ALL, CHANGING, SPEND};
use crate::cell_hashes::Place;
use crate::formats::states as plain;
use crate::locks::assembly::{output, plain_cell};
use crate::prng::Prng;
use crate::session::{CAPABILITY, FLAG, SESSION_WITHDRAWN};
use crate::true_hashes;
use ckb_std::{Cell, Scene};

const SESSIONS: [(&str, OnBytes); 2] = [
    ("flag 2 in the successor", flag),
    ("capability 0x0008 in the successor", in_first),
];

/// A row before the successor keeps its number, unless it passes.
fn kept(row: &Row) -> i8 {
    match row.number {
        0 => SESSION_WITHDRAWN,
        number => number,
    }
}

/// A row behind the successor is not met. Among those of requests are some of a long aux in the current state, and among those
/// of the sequence is one of the successor's version: they keep their numbers.
fn not_met(row: &Row) -> i8 {
    match row.number {
        TOO_LONG | 32 => row.number,
        _ => SESSION_WITHDRAWN,
    }
}

/// The rows with each session.
fn beside_each(rows: fn() -> Vec<Row>, number: fn(&Row) -> i8) -> Vec<Row> {
    let mut all = Vec::new();
    for (name, change) in SESSIONS {
        let fault = Fault::Bytes(Part::Successor, change);
        let with = |row: Row| {
            let number = number(&row);
            beside(row, name, fault, number)
        };
        all.extend(rows().into_iter().filter_map(changing).map(with));
    }
    all
}

/// The current state's own checks.
pub fn current() -> Vec<Row> {
    let changes = HEADER.into_iter().chain(ENTRIES);
    let changes = changes.chain([SHORT]).chain(BEHIND);
    let mut rows: Vec<Row> = changes
        .map(|change| {
            let [row, _] = of_both(change);
            row
        })
        .collect();
    let long = Fault::Bytes(Part::State, first_aux::<2_594>);
    rows.push(row(TOO_LONG, ALL, "state has a long aux", long).long());
    rows
}

/// Gives a cell this type script and a state with a session.
fn hold_session(cell: &mut Cell, prng: &mut Prng, script: &[u8]) {
    let mut state = plain::valid(prng, 2);
    state.flags |= FLAG;
    state.authenticators[1].capabilities |= CAPABILITY;
    cell.type_script = Some(script.to_vec());
    cell.data = plain::layout(&state);
    true_hashes::of_cell(cell);
}

/// A further cell that does so.
fn holding(prng: &mut Prng, script: &[u8]) -> Cell {
    let mut cell = plain_cell(prng);
    hold_session(&mut cell, prng, script);
    cell
}

/// Data with a session in a cell of no type.
fn untyped(cell: &mut Cell, prng: &mut Prng) {
    hold_session(cell, prng, b"none");
    cell.type_script = None;
    true_hashes::of_cell(cell);
}

fn no_successor(scene: &mut Scene, id: [u8; 32]) {
    let own = |cell: &Cell| cell.type_hash == Some(id);
    scene.outputs.retain(|output| !own(&output.cell));
}

/// A session in a cell that the lock does not read, alone, beside a successor that is 33 and beside one whose sequence is the
/// current state's.
fn unread_rows() -> Vec<Row> {
    let foreign: OnCell = |cell, prng| hold_session(cell, prng, b"other");
    let unsupported = Fault::Bytes(Part::Successor, |state, _| put_u16(state, FIRST + 4, 0));
    let same = Fault::Plan(|plan, _| plan.successor.sequence = plan.state.sequence);
    let places = [
        Place::GroupInput,
        Place::ForeignInput,
        Place::Output,
        Place::Dep,
    ];
    let mut rows = Vec::new();
    for place in places {
        for (kind, change) in [("another account's", foreign), ("no", untyped)] {
            let name = format!("{place:?} of {kind} type with a session");
            let fault = Fault::NewCell(place, change);
            let with = |number, operations, more: &str| {
                row(number, operations, &format!("{name}{more}"), fault)
            };
            rows.push(with(0, ALL, "").made(AllBut(0)));
            rows.push(with(33, CHANGING, ", algorithm 0").and(unsupported));
            rows.push(with(27, CHANGING, ", same sequence").and(same));
        }
    }
    rows
}

/// A session in a cell of the account that is no successor, and in another output where there is none.
fn own_rows() -> Vec<Row> {
    vec![
        on_scene(
            0,
            SPEND,
            "id among outputs, session",
            |scene, plan, prng| {
                scene.outputs.push(output(holding(prng, &plan.type_script)));
            },
        )
        .made(AllBut(0)),
        on_scene(
            0,
            CHANGING,
            "id among deps, session",
            |scene, plan, prng| {
                scene.deps.push(holding(prng, &plan.type_script));
            },
        )
        .made(AllBut(0)),
        on_scene(
            26,
            CHANGING,
            "another's session alone",
            |scene, plan, prng| {
                no_successor(scene, plan.id());
                scene.outputs.push(output(holding(prng, b"other")));
            },
        ),
        on_scene(
            26,
            CHANGING,
            "a second output, session",
            |scene, plan, prng| {
                scene.outputs.push(output(holding(prng, &plan.type_script)));
            },
        ),
    ]
}

pub fn rows() -> Vec<Row> {
    let mut rows = own_rows();
    rows.extend(unread_rows());
    rows.extend(beside_each(earlier, kept));
    rows.extend(beside_each(current, kept));
    rows.extend(beside_each(transition::witness_rows, kept));
    rows.extend(beside_each(later, not_met));
    rows
}
