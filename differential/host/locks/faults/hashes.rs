//! The row of hashes: each cell's type hash, then its data hash where it has data. It comes before the script's.

use super::cells::{outputs, state_cells};
use super::hash_changes::{any_byte, of, OF_DATA, OF_TYPE, PASSING};
use super::parts::set;
use super::proofs::is_verifier;
use super::Made::AllBut;
use super::{on_plan, on_scene, row, Fault, OnCell, Part, Row, ALL, CHANGING};
use crate::cell_hashes::Place;
use crate::locks::plan::Plan;
use crate::measure::HASH_MISMATCH;
use crate::prng::Prng;
use blake2b::ckb_hash;
use ckb_std::{Cell, Scene};

const PLACES: [(&str, Place); 4] = [
    ("group input", Place::GroupInput),
    ("foreign input", Place::ForeignInput),
    ("output", Place::Output),
    ("dep", Place::Dep),
];

/// A hash that differs, in any cell.
pub fn any(prng: &mut Prng) -> Fault {
    let changes: Vec<OnCell> = OF_TYPE
        .iter()
        .chain(&OF_DATA)
        .map(|(_, change)| *change)
        .collect();
    let place = PLACES[prng.up_to(PLACES.len() - 1)].1;
    Fault::Cell(place, changes[prng.up_to(changes.len() - 1)])
}

/// One operation, another in each turn: the test of hashes is the same for all.
fn one(turn: usize) -> &'static [u8] {
    &ALL[turn % 3..][..1]
}

/// Each change in each kind of cell.
fn cell_rows() -> Vec<Row> {
    let mut rows = Vec::new();
    for (name, change) in OF_TYPE.iter().chain(&OF_DATA) {
        for (kind, place) in PLACES {
            let name = format!("{kind}: {name}");
            let fault = Fault::Cell(place, *change);
            rows.push(row(HASH_MISMATCH, one(rows.len()), &name, fault));
        }
    }
    rows
}

fn passing_rows() -> Vec<Row> {
    let mut rows = Vec::new();
    for (kind, place) in PLACES {
        for (name, change) in PASSING {
            let name = format!("{kind}: {name}");
            let fault = Fault::NewCell(place, change);
            rows.push(row(0, one(rows.len()), &name, fault).made(AllBut(0)));
        }
        let name = format!("{kind}: type script of 513, data of 20,000");
        let fault = Fault::NewCell(place, |cell, prng| {
            of(cell, prng.bytes(513), prng.bytes(20_000))
        });
        rows.push(row(0, ALL, &name, fault).made(AllBut(0)).long());
    }
    rows
}

/// Lets the first entry's verifier be found by this data hash, which is that of no program.
fn believe(plan: &mut Plan, data_hash: [u8; 32]) {
    let first = &mut plan.state.authenticators[0];
    first.verifier_hash_type = 0;
    first.verifier_code_hash = data_hash;
}

/// The deps that are the first entry's verifier.
fn verifiers<'a>(scene: &'a mut Scene, plan: &'a Plan) -> impl Iterator<Item = &'a mut Cell> {
    let deps = scene.deps.iter_mut();
    deps.filter(move |cell| is_verifier(cell, plan))
}

fn verifier_rows() -> Vec<Row> {
    vec![
        on_plan(0, ALL, "verifier without data", |plan, prng| {
            believe(plan, prng.bytes(32).try_into().expect("32 bytes"));
        })
        .made(AllBut(0)),
        on_plan(0, ALL, "verifier with the hash of no data", |plan, _| {
            believe(plan, ckb_hash(&[]))
        })
        .made(AllBut(0)),
        on_scene(0, ALL, "verifier's data emptied", |scene, plan, _| {
            verifiers(scene, plan).for_each(|cell| cell.data.clear());
        })
        .made(AllBut(0)),
        on_scene(
            HASH_MISMATCH,
            ALL,
            "verifier's program edited",
            |scene, plan, _| {
                let by_type = plan.state.authenticators[0].verifier_hash_type == 1;
                for cell in verifiers(scene, plan) {
                    let script = cell.type_script.as_mut().filter(|_| by_type);
                    script.unwrap_or(&mut cell.data).push(0);
                }
            },
        ),
    ]
}

/// Gives the output of the account another type script, the hash staying.
fn set_output(scene: &mut Scene, plan: &Plan, script: &[u8]) {
    for cell in outputs(scene, plan) {
        cell.type_script = Some(script.to_vec());
    }
}

/// Cells of the account whose hashes stay. With them the original would answer of no real cell.
fn state_rows() -> Vec<Row> {
    vec![
        on_scene(
            HASH_MISMATCH,
            ALL,
            "state's type script edited",
            |scene, plan, prng| {
                let cells = state_cells(scene, plan).into_iter().flatten();
                let scripts = cells.filter_map(|cell| cell.type_script.as_mut());
                scripts.for_each(|script| any_byte(script, prng));
            },
        ),
        on_scene(HASH_MISMATCH, ALL, "state edited", |scene, plan, prng| {
            let cells = state_cells(scene, plan).into_iter().flatten();
            let filled = cells.filter(|cell| !cell.data.is_empty());
            filled.for_each(|cell| any_byte(&mut cell.data, prng));
        }),
        on_scene(
            HASH_MISMATCH,
            CHANGING,
            "output's type script edited",
            |scene, plan, _| {
                let mut script = plan.type_script.clone();
                set(&mut script, 0, 8);
                set_output(scene, plan, &script);
            },
        ),
        on_plan(
            HASH_MISMATCH,
            CHANGING,
            "type scripts of 512 and 513, one hash",
            |plan, _| plan.type_script = vec![9; 512],
        )
        .and(Fault::Scene(|scene, plan, _| {
            set_output(scene, plan, &[9; 513])
        })),
        on_plan(
            HASH_MISMATCH,
            CHANGING,
            "type scripts of 513 and 512, one hash",
            |plan, _| plan.type_script = vec![9; 513],
        )
        .and(Fault::Scene(|scene, plan, _| {
            set_output(scene, plan, &[9; 512])
        })),
    ]
}

/// Faults of later rows.
const LATER: [(&str, Fault); 10] = [
    (
        "args of 32 bytes",
        Fault::Bytes(Part::Args, |args, _| args.truncate(32)),
    ),
    (
        "args starting 0x02",
        Fault::Bytes(Part::Args, |args, _| set(args, 0, 2)),
    ),
    (
        "no script",
        Fault::Bytes(Part::Script, |script, _| script.clear()),
    ),
    (
        "first group witness missing",
        Fault::Scene(|scene, _, _| scene.witnesses.clear()),
    ),
    (
        "no inputs",
        Fault::Scene(|scene, _, _| scene.inputs.clear()),
    ),
    (
        "lock's version 2",
        Fault::Bytes(Part::Lock, |lock, _| set(lock, 4, 2)),
    ),
    (
        "state of version 2",
        Fault::Bytes(Part::State, |state, _| set(state, 4, 2)),
    ),
    (
        "witness sequence differing",
        Fault::Plan(|plan, _| plan.lock.sequence ^= 1),
    ),
    ("no verdicts", Fault::Plan(|plan, _| plan.verdicts.clear())),
    ("no proofs", Fault::Plan(|plan, _| plan.lock.proofs.clear())),
];

/// A hash that differs beside a fault of a later row, and two that differ.
fn together_rows() -> Vec<Row> {
    let (of_type, of_data) = (OF_TYPE[0].1, OF_DATA[0].1);
    let hashes = [
        (
            "an output's type hash",
            Fault::NewCell(Place::Output, of_type),
        ),
        ("a dep's data hash", Fault::NewCell(Place::Dep, of_data)),
    ];
    let mut rows = Vec::new();
    for (later, fault) in LATER {
        for (name, hash) in hashes {
            let name = format!("{later}, and {name}");
            rows.push(row(HASH_MISMATCH, one(rows.len()), &name, fault).and(hash));
        }
    }
    let [(_, output), (_, dep)] = hashes;
    rows.push(row(HASH_MISMATCH, ALL, "two hashes", dep).and(output));
    rows
}

pub fn rows() -> Vec<Row> {
    let mut rows = state_rows();
    rows.extend(verifier_rows());
    rows.extend(together_rows());
    rows.extend(cell_rows());
    rows.extend(passing_rows());
    rows
}
