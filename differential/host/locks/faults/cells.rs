//! The rows that look for the state's cells, and those of type scripts and data.

use super::parts::set;
use super::{on_plan, on_scene, row, Fault, Part, Row, ALL, CHANGING, SPEND};
use crate::formats::states;
use crate::locks::assembly::{fill, output, plain_input, typed_cell};
use crate::locks::plan::Plan;
use crate::prng::Prng;
use crate::true_hashes;
use ckb_std::{Cell, Input, Scene};

/// A type script of another account.
const OTHER: [u8; 5] = [0xee; 5];

fn is_state(cell: &Cell, plan: &Plan) -> bool {
    cell.type_hash == Some(plan.id())
}

/// The cells with the account's type hash, among inputs, outputs and deps.
pub fn state_cells<'a>(scene: &'a mut Scene, plan: &Plan) -> [Vec<&'a mut Cell>; 3] {
    let inputs = scene.inputs.iter_mut().map(|input| &mut input.cell);
    let outputs = scene.outputs.iter_mut().map(|output| &mut output.cell);
    let keep = |cell: &&mut Cell| is_state(cell, plan);
    [
        inputs.filter(keep).collect(),
        outputs.filter(keep).collect(),
        scene.deps.iter_mut().filter(keep).collect(),
    ]
}

/// Those among outputs.
pub fn outputs<'a>(scene: &'a mut Scene, plan: &Plan) -> Vec<&'a mut Cell> {
    let [_, outputs, _] = state_cells(scene, plan);
    outputs
}

fn state_cell(plan: &Plan, prng: &mut Prng) -> Cell {
    typed_cell(prng, &plan.type_script, states::layout(&plan.state))
}

fn push_input(scene: &mut Scene, plan: &Plan, prng: &mut Prng, group: bool) {
    let cell = state_cell(plan, prng);
    let input = plain_input(prng, group);
    scene.inputs.push(Input { cell, ..input });
}

/// Other type scripts with their own hashes, so that the cells have not the account's.
fn set_type_scripts(cells: Vec<&mut Cell>, script: &[u8]) {
    for cell in cells {
        cell.type_script = Some(script.to_vec());
        true_hashes::of_cell(cell);
    }
}

/// A type script of this length.
fn script_of(plan: &mut Plan, length: usize) {
    plan.type_script = vec![9; length];
}

fn spend_rows() -> Vec<Row> {
    vec![
        on_scene(
            25,
            SPEND,
            "id among the group's inputs",
            |scene, plan, prng| {
                push_input(scene, plan, prng, true);
            },
        ),
        on_scene(25, SPEND, "id among foreign inputs", |scene, plan, prng| {
            push_input(scene, plan, prng, false);
        }),
        on_scene(
            25,
            SPEND,
            "id among inputs and not among deps",
            |scene, plan, prng| {
                push_input(scene, plan, prng, false);
                scene.deps.retain(|cell| !is_state(cell, plan));
            },
        ),
        on_scene(23, SPEND, "no state among deps", |scene, plan, _| {
            scene.deps.retain(|cell| !is_state(cell, plan));
        }),
        on_scene(23, SPEND, "another account's dep", |scene, plan, _| {
            let [_, _, deps] = state_cells(scene, plan);
            set_type_scripts(deps, &OTHER);
        }),
        on_scene(24, SPEND, "two states among deps", |scene, plan, prng| {
            scene.deps.push(state_cell(plan, prng));
        }),
        on_scene(0, SPEND, "id among outputs", |scene, plan, prng| {
            scene.outputs.push(output(state_cell(plan, prng)));
        }),
    ]
}

fn changing_rows() -> Vec<Row> {
    vec![
        on_scene(23, CHANGING, "no state among inputs", |scene, plan, _| {
            let [inputs, _, _] = state_cells(scene, plan);
            set_type_scripts(inputs, &OTHER);
        }),
        on_scene(
            24,
            CHANGING,
            "two states among inputs",
            |scene, plan, prng| {
                push_input(scene, plan, prng, false);
            },
        ),
        on_scene(26, CHANGING, "no state among outputs", |scene, plan, _| {
            scene.outputs.retain(|output| !is_state(&output.cell, plan));
        }),
        on_scene(
            26,
            CHANGING,
            "two states among outputs",
            |scene, plan, prng| {
                scene.outputs.push(output(state_cell(plan, prng)));
            },
        ),
        on_plan(
            26,
            CHANGING,
            "no output, input's type script of 513",
            |plan, _| script_of(plan, 513),
        )
        .and(Fault::Scene(|scene, plan, _| {
            scene.outputs.retain(|output| !is_state(&output.cell, plan));
        })),
        on_scene(0, CHANGING, "id among deps", |scene, plan, prng| {
            scene.deps.push(state_cell(plan, prng));
        }),
    ]
}

/// Another type script of the output is that of another account, whatever its length.
fn type_script_rows() -> Vec<Row> {
    vec![
        on_plan(0, CHANGING, "type scripts of 512", |plan, _| {
            script_of(plan, 512)
        }),
        on_plan(21, CHANGING, "type scripts of 513", |plan, _| {
            script_of(plan, 513)
        }),
        on_plan(26, CHANGING, "type scripts of 513 and 512", |plan, _| {
            script_of(plan, 513)
        })
        .and(Fault::Scene(|scene, plan, _| {
            set_type_scripts(outputs(scene, plan), &[9; 512]);
        })),
        on_plan(26, CHANGING, "type scripts of 512 and 513", |plan, _| {
            script_of(plan, 512)
        })
        .and(Fault::Scene(|scene, plan, _| {
            set_type_scripts(outputs(scene, plan), &[9; 513]);
        })),
        on_scene(
            26,
            CHANGING,
            "type scripts differing in a byte",
            |scene, plan, _| {
                let mut script = plan.type_script.clone();
                set(&mut script, 0, 8);
                set_type_scripts(outputs(scene, plan), &script);
            },
        ),
    ]
}

/// The longest state: 16 entries.
fn longest(plan: &mut Plan, prng: &mut Prng) {
    *plan = Plan::with_aux(prng, plan.lock.operation, &[942; 16]);
}

fn data_rows() -> Vec<Row> {
    let on_state = |change| Fault::Bytes(Part::State, change);
    let on_successor = |change| Fault::Bytes(Part::Successor, change);
    vec![
        on_plan(0, ALL, "state of 16,384 bytes", longest).long(),
        on_plan(21, ALL, "state of 16,385 bytes", longest)
            .and(on_state(|state, _| state.push(0)))
            .long(),
        row(
            21,
            ALL,
            "data of 16,385 bytes of version 2",
            on_state(|state, _| {
                set(state, 4, 2);
                state.resize(16_385, 0);
            }),
        )
        .long(),
        row(
            21,
            CHANGING,
            "successor of 16,385 bytes",
            on_successor(|state, _| state.resize(16_385, 0)),
        )
        .long(),
        row(
            21,
            CHANGING,
            "state of version 2, successor of 16,385",
            on_state(|state, _| {
                set(state, 4, 2);
            }),
        )
        .and(on_successor(|state, _| state.resize(16_385, 0)))
        .long(),
    ]
}

/// The rows before the states' data.
pub fn search_rows() -> Vec<Row> {
    let mut rows = spend_rows();
    rows.extend(changing_rows());
    rows.extend(type_script_rows());
    rows
}

pub fn rows() -> Vec<Row> {
    let mut rows = search_rows();
    rows.extend(data_rows());
    rows.push(
        on_scene(0, ALL, "64 of each kind", |scene, _, prng| {
            fill(scene, prng)
        })
        .long(),
    );
    rows
}
