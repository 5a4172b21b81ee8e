//! The row of the script.

use super::parts::{add_u32, lengthen, set, u32_at, TABLE};
use super::{on_scene, row, Fault, Part, Row, ALL};
use ckb_types::molecule::{byte_vector, table};

/// A script of this length whose args are right: the first field is not opened.
fn of_length(length: usize, id: &[u8; 32]) -> Vec<u8> {
    let args = byte_vector(&[&[1], &id[..]].concat());
    table(&[&vec![0x44; length - 17 - args.len()], &[1], &args])
}

pub fn rows() -> Vec<Row> {
    let on_script = |change| Fault::Bytes(Part::Script, change);
    let on_args = |change| Fault::Bytes(Part::Args, change);
    let mut rows: Vec<Row> = TABLE
        .iter()
        .map(|(name, change)| row(20, ALL, &format!("script {name}"), on_script(*change)))
        .collect();
    rows.extend([
        on_scene(0, ALL, "script of 512 bytes", |scene, plan, _| {
            scene.script = of_length(512, &plan.id());
        }),
        on_scene(20, ALL, "script of 513 bytes", |scene, plan, _| {
            scene.script = of_length(513, &plan.id());
        }),
        on_scene(0, ALL, "script with two empty fields", |scene, plan, _| {
            let args = byte_vector(&[&[1], &plan.id()[..]].concat());
            scene.script = table(&[&[], &[], &args]);
        }),
        on_scene(20, ALL, "args field of three bytes", |scene, _, _| {
            scene.script = table(&[&[], &[], &[0; 3]]);
        }),
        row(
            20,
            ALL,
            "args one longer than said",
            on_script(|script, _| {
                let at = u32_at(script, 12);
                add_u32(script, at, -1);
            }),
        ),
        row(
            20,
            ALL,
            "args one shorter than said",
            on_script(|script, _| {
                let at = u32_at(script, 12);
                add_u32(script, at, 1);
            }),
        ),
        row(
            20,
            ALL,
            "a byte behind the args",
            on_script(|script, _| {
                let length = script.len();
                lengthen(script, length + 1);
            }),
        ),
        row(
            20,
            ALL,
            "args of 32 bytes",
            on_args(|args, _| args.truncate(32)),
        ),
        row(20, ALL, "args of 34 bytes", on_args(|args, _| args.push(0))),
        row(20, ALL, "no args", on_args(|args, _| args.clear())),
        row(
            32,
            ALL,
            "args starting 0x02",
            on_args(|args, _| set(args, 0, 2)),
        ),
        row(
            32,
            ALL,
            "args starting 0x00",
            on_args(|args, _| set(args, 0, 0)),
        ),
        row(
            20,
            ALL,
            "34 bytes starting 0x02",
            on_args(|args, _| args.push(0)),
        )
        .and(on_args(|args, _| set(args, 0, 2))),
    ]);
    rows
}
