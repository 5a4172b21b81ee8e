//! The rows of a proof's layout, its slot, capability and verifier.

use super::parts::{add_u32, put_u32, set, shorten, u32_at};
use super::Made::{AllBut, Requests};
use super::{on_plan, on_scene, row, Fault, Part, Row, ALL, SPEND};
use crate::locks::assembly::{fill, output};
use crate::locks::plan::{capability, Plan};
use crate::true_hashes;
use ckb_account_host::Proof;
use ckb_std::{Cell, Scene};
use std::mem::take;

const NO_SLOT: u16 = 65_535;

/// Where the second proof stands in a lock.
pub fn second(lock: &[u8]) -> usize {
    24 + u32_at(lock, 20)
}

fn layout_rows() -> Vec<Row> {
    let on_lock = |change| Fault::Bytes(Part::Lock, change);
    vec![
        row(
            22,
            ALL,
            "first proof's zeros",
            on_lock(|lock, _| set(lock, 18, 1)),
        )
        .made(Requests(0)),
        row(
            22,
            ALL,
            "first proof's second zero",
            on_lock(|lock, _| set(lock, 19, 1)),
        )
        .made(Requests(0)),
        row(
            22,
            ALL,
            "first proof of length 0",
            on_lock(|lock, _| put_u32(lock, 20, 0)),
        )
        .made(Requests(0)),
        row(
            22,
            ALL,
            "first proof of length 2^32-1",
            on_lock(|lock, _| {
                put_u32(lock, 20, u32::MAX as usize);
            }),
        )
        .made(Requests(0)),
        row(
            22,
            ALL,
            "second proof's zeros",
            on_lock(|lock, _| {
                let at = second(lock);
                set(lock, at + 2, 1);
            }),
        )
        .made(Requests(1)),
        row(
            22,
            ALL,
            "second proof of length 0",
            on_lock(|lock, _| {
                let at = second(lock);
                put_u32(lock, at + 4, 0);
            }),
        )
        .made(Requests(1)),
        row(
            22,
            ALL,
            "second proof past the end",
            on_lock(|lock, _| {
                let at = second(lock);
                let length = lock.len();
                put_u32(lock, at + 4, length);
            }),
        )
        .made(Requests(1)),
        row(
            22,
            ALL,
            "a proof more counted",
            on_lock(|lock, _| {
                let count = lock.get(6).map_or(0, |count| count + 1);
                set(lock, 6, count);
            }),
        )
        .made(AllBut(0)),
        row(
            22,
            ALL,
            "lock one byte short",
            on_lock(|lock, _| shorten(lock)),
        )
        .made(AllBut(1)),
        row(
            22,
            ALL,
            "first proof one longer",
            on_lock(|lock, _| add_u32(lock, 20, 1)),
        ),
    ]
}

fn slot_rows() -> Vec<Row> {
    vec![
        on_plan(22, ALL, "a slot twice", |plan, _| {
            if let [first, second, ..] = &mut plan.lock.proofs[..] {
                second.slot = first.slot;
            }
        })
        .made(Requests(1)),
        on_plan(22, ALL, "slots that fall", |plan, _| {
            plan.lock.proofs.reverse()
        })
        .made(Requests(1)),
        on_plan(22, ALL, "last slot unknown", |plan, _| {
            if let Some(last) = plan.lock.proofs.last_mut() {
                last.slot = NO_SLOT;
            }
        })
        .made(AllBut(1)),
        on_plan(22, ALL, "only slot unknown", |plan, _| {
            plan.lock.proofs = vec![Proof {
                slot: NO_SLOT,
                bytes: vec![1],
            }];
        })
        .made(Requests(0)),
    ]
}

/// Whether a dep is the first entry's verifier.
pub fn is_verifier(cell: &Cell, plan: &Plan) -> bool {
    let auth = &plan.state.authenticators[0];
    match auth.verifier_hash_type {
        0 => cell.data_hash == auth.verifier_code_hash,
        _ => cell.type_hash == Some(auth.verifier_code_hash),
    }
}

fn verifier(scene: &Scene, plan: &Plan) -> Option<Cell> {
    let cell = scene.deps.iter().find(|cell| is_verifier(cell, plan));
    cell.cloned()
}

/// The first entry's verifier, named by the other hash: its type script becomes its data, and its data its type script.
fn swap_parts(scene: &mut Scene, plan: &Plan) {
    for cell in scene.deps.iter_mut().filter(|cell| is_verifier(cell, plan)) {
        let data = take(&mut cell.data);
        cell.data = cell.type_script.take().unwrap_or_default();
        cell.type_script = (!data.is_empty()).then_some(data);
        cell.data_hash = [0xdd; 32];
        true_hashes::of_cell(cell);
    }
}

fn verifier_rows() -> Vec<Row> {
    vec![
        on_plan(29, ALL, "capability missing", |plan, _| {
            let bit = capability(plan.lock.operation);
            if let [_, .., last] = &mut plan.state.authenticators[..] {
                last.capabilities &= !bit;
            }
        })
        .made(AllBut(1)),
        on_scene(30, ALL, "no verifier", |scene, plan, _| {
            scene.deps.retain(|cell| !is_verifier(cell, plan));
        })
        .made(Requests(0)),
        on_scene(
            30,
            ALL,
            "verifier named by the other hash",
            |scene, plan, _| {
                swap_parts(scene, plan);
            },
        )
        .made(Requests(0)),
        on_scene(30, ALL, "verifier twice", |scene, plan, prng| {
            let cells = verifier(scene, plan);
            let place = prng.up_to(scene.deps.len());
            cells
                .into_iter()
                .for_each(|cell| scene.deps.insert(place, cell));
        })
        .made(Requests(0)),
        on_scene(
            30,
            ALL,
            "64 of each kind, verifier twice",
            |scene, plan, prng| {
                let cell = verifier(scene, plan);
                fill(scene, prng);
                scene.deps.pop();
                scene.deps.extend(cell);
            },
        )
        .made(Requests(0))
        .long(),
        on_scene(0, ALL, "verifier among outputs too", |scene, plan, _| {
            let cells = verifier(scene, plan);
            scene.outputs.extend(cells.map(output));
        })
        .made(AllBut(0)),
        on_plan(0, SPEND, "the state's cell is its verifier", |plan, _| {
            let id = plan.id();
            for auth in &mut plan.state.authenticators {
                auth.verifier_hash_type = 1;
                auth.verifier_code_hash = id;
            }
        })
        .made(AllBut(0)),
    ]
}

pub fn rows() -> Vec<Row> {
    let mut rows = layout_rows();
    rows.extend(slot_rows());
    rows.extend(verifier_rows());
    rows
}
