//! The row of the first group witness, and that of other hashed witnesses.

use super::parts::{add_u32, lengthen, put_u32, set, u32_at, TABLE};
use super::{on_plan, on_scene, row, Fault, Part, Row, ALL};
use crate::locks::assembly::{first_group, plain_input};
use crate::locks::plan::Plan;
use crate::prng::Prng;
use ckb_std::Scene;

const LONGEST: usize = 132_096;

/// Gives the first field other bytes, the table staying right.
fn replace_lock_field(witness: &mut Vec<u8>, field: &[u8]) {
    let second = u32_at(witness, 8).clamp(16, witness.len().max(16));
    let less = second - 16;
    witness.splice(
        16.min(witness.len())..second.min(witness.len()),
        field.iter().copied(),
    );
    let length = witness.len();
    put_u32(witness, 0, length);
    for at in [8, 12] {
        let offset = u32_at(witness, at) + field.len();
        put_u32(witness, at, offset.saturating_sub(less));
    }
}

/// Two proofs that make the lock this long.
fn lock_of(plan: &mut Plan, prng: &mut Prng, length: usize) {
    let proofs = &mut plan.lock.proofs;
    proofs.truncate(2);
    if let [first, second] = &mut proofs[..] {
        first.bytes = prng.bytes(65_536);
        second.bytes = prng.bytes(length - 16 - 8 - 65_536 - 8);
    }
}

/// A witness of this length at `place`, the ones missing before it being empty.
fn place_witness(scene: &mut Scene, place: usize, length: usize) {
    if scene.witnesses.len() <= place {
        scene.witnesses.resize(place + 1, vec![]);
    }
    scene.witnesses[place] = vec![0x77; length];
}

/// A further input, of the group or not, with a witness of this length.
fn input_with_witness(scene: &mut Scene, prng: &mut Prng, group: bool, length: usize) {
    place_witness(scene, scene.inputs.len(), length);
    scene.inputs.push(plain_input(prng, group));
}

fn header_rows() -> Vec<Row> {
    let on_lock = |change| Fault::Bytes(Part::Lock, change);
    vec![
        row(
            22,
            ALL,
            "lock without bytes",
            on_lock(|lock, _| lock.clear()),
        ),
        row(
            22,
            ALL,
            "lock of 15 bytes",
            on_lock(|lock, _| lock.truncate(15)),
        ),
        row(
            22,
            ALL,
            "lock's magic",
            on_lock(|lock, _| set(lock, 3, b'S')),
        ),
        row(
            22,
            ALL,
            "lock's version 0",
            on_lock(|lock, _| set(lock, 4, 0)),
        ),
        row(
            22,
            ALL,
            "lock's version 2",
            on_lock(|lock, _| set(lock, 4, 2)),
        ),
        row(22, ALL, "operation 0", on_lock(|lock, _| set(lock, 5, 0))),
        row(22, ALL, "operation 4", on_lock(|lock, _| set(lock, 5, 4))),
        row(22, ALL, "17 proofs", on_lock(|lock, _| set(lock, 6, 17))),
        row(22, ALL, "255 proofs", on_lock(|lock, _| set(lock, 6, 255))),
        row(
            22,
            ALL,
            "lock's zero byte",
            on_lock(|lock, _| set(lock, 7, 1)),
        ),
        on_plan(0, ALL, "lock of 131,072 bytes", |plan, prng| {
            lock_of(plan, prng, 131_072)
        })
        .long(),
        on_plan(22, ALL, "lock of 131,073 bytes", |plan, prng| {
            lock_of(plan, prng, 131_073)
        })
        .long(),
    ]
}

fn missing_rows() -> Vec<Row> {
    vec![
        on_scene(22, ALL, "no witnesses", |scene, _, _| {
            scene.witnesses.clear()
        }),
        on_scene(22, ALL, "first group witness missing", |scene, _, _| {
            scene.witnesses.truncate(first_group(&scene.inputs));
        }),
        on_scene(22, ALL, "no inputs", |scene, _, _| scene.inputs.clear()),
        on_scene(22, ALL, "no input of the group", |scene, _, _| {
            scene
                .inputs
                .iter_mut()
                .for_each(|input| input.group = false);
        }),
    ]
}

fn table_rows() -> Vec<Row> {
    let on_witness = |change| Fault::Bytes(Part::Witness, change);
    let mut rows: Vec<Row> = TABLE
        .iter()
        .map(|(name, change)| row(22, ALL, &format!("witness {name}"), on_witness(*change)))
        .collect();
    rows.extend([
        row(
            0,
            ALL,
            "witness of 132,096 bytes",
            on_witness(|bytes, _| lengthen(bytes, LONGEST)),
        )
        .long(),
        row(
            22,
            ALL,
            "witness of 132,097 bytes",
            on_witness(|bytes, _| lengthen(bytes, LONGEST + 1)),
        )
        .long(),
        row(
            22,
            ALL,
            "empty lock field",
            on_witness(|bytes, _| replace_lock_field(bytes, &[])),
        ),
        row(
            22,
            ALL,
            "lock field of three bytes",
            on_witness(|bytes, _| {
                replace_lock_field(bytes, &[0; 3]);
            }),
        ),
        row(
            22,
            ALL,
            "lock one shorter than said",
            on_witness(|bytes, _| add_u32(bytes, 16, 1)),
        ),
        row(
            22,
            ALL,
            "lock one longer than said",
            on_witness(|bytes, _| add_u32(bytes, 16, -1)),
        ),
    ]);
    rows
}

/// Witnesses that are hashed, and those of foreign inputs, which are not.
pub fn hashed_rows() -> Vec<Row> {
    vec![
        on_scene(
            0,
            ALL,
            "group witness of 132,096 bytes",
            |scene, _, prng| {
                input_with_witness(scene, prng, true, LONGEST);
            },
        )
        .long(),
        on_scene(
            22,
            ALL,
            "group witness of 132,097 bytes",
            |scene, _, prng| {
                input_with_witness(scene, prng, true, LONGEST + 1);
            },
        )
        .long(),
        on_scene(0, ALL, "extra witness of 132,096 bytes", |scene, _, _| {
            place_witness(scene, scene.inputs.len(), LONGEST);
        })
        .long(),
        on_scene(22, ALL, "extra witness of 132,097 bytes", |scene, _, _| {
            place_witness(scene, scene.inputs.len(), LONGEST + 1);
        })
        .long(),
        on_scene(
            0,
            ALL,
            "foreign witness of 132,097 bytes",
            |scene, _, prng| {
                input_with_witness(scene, prng, false, LONGEST + 1);
            },
        )
        .long(),
    ]
}

/// The rows of the first group witness.
pub fn first_rows() -> Vec<Row> {
    let mut rows = missing_rows();
    rows.extend(table_rows());
    rows.extend(header_rows());
    rows
}

pub fn rows() -> Vec<Row> {
    let mut rows = first_rows();
    rows.extend(hashed_rows());
    rows
}
