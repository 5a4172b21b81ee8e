//! Scenes around a plan. Inputs and outputs are given their capacities once a scene is whole.

use super::plan::Plan;
use crate::formats::{states, witnesses};
use crate::prng::Prng;
use crate::true_hashes;
use blake2b::ckb_hash;
use ckb_std::{Cell, Input, Output, Scene};
use ckb_types::molecule::{byte_vector, table};

/// The most lines of a kind.
const MOST: usize = 64;

/// The parts of a plan as bytes.
pub struct Bytes {
    pub args: Vec<u8>,
    pub lock: Vec<u8>,
    pub state: Vec<u8>,
    pub successor: Vec<u8>,
}

pub fn bytes(plan: &Plan) -> Bytes {
    Bytes {
        args: [&[1], &plan.id()[..]].concat(),
        lock: witnesses::layout(&plan.lock),
        state: states::layout(&plan.state),
        successor: states::layout(&plan.successor),
    }
}

fn hash(prng: &mut Prng) -> [u8; 32] {
    prng.bytes(32).try_into().expect("32 bytes")
}

fn some_bytes(prng: &mut Prng) -> Vec<u8> {
    let length = prng.up_to(12);
    prng.bytes(length)
}

/// A cell that plays no part, with a type script or without.
pub fn plain_cell(prng: &mut Prng) -> Cell {
    let typed = prng.up_to(3) == 0;
    let script = typed.then(|| prng.bytes(3));
    let data = some_bytes(prng);
    cell(prng, script, data)
}

/// A cell with true hashes; without data, with any data hash.
fn cell(prng: &mut Prng, type_script: Option<Vec<u8>>, data: Vec<u8>) -> Cell {
    let mut cell = Cell {
        type_hash: None,
        data_hash: hash(prng),
        type_script,
        data,
    };
    true_hashes::of_cell(&mut cell);
    cell
}

pub fn typed_cell(prng: &mut Prng, script: &[u8], data: Vec<u8>) -> Cell {
    cell(prng, Some(script.to_vec()), data)
}

pub fn plain_input(prng: &mut Prng, group: bool) -> Input {
    Input {
        group,
        since: [0, 1, prng.next()][prng.up_to(2)],
        cell: plain_cell(prng),
        capacity: 0,
    }
}

pub fn output(cell: Cell) -> Output {
    Output { cell, capacity: 0 }
}

fn insert<T>(prng: &mut Prng, list: &mut Vec<T>, item: T) {
    let place = prng.up_to(list.len());
    list.insert(place, item);
}

fn script(args: &[u8]) -> Vec<u8> {
    table(&[&[0x44; 32], &[1], &byte_vector(args)])
}

/// The dep that a name of a verifier finds: its program is the data, or the type script. A data hash of no program is that of
/// a dep without data; a type hash of no program finds nothing.
fn verifier(prng: &mut Prng, plan: &Plan, hash_type: u8, code_hash: [u8; 32]) -> Option<Cell> {
    let mut programs = plan.programs.iter().chain([&plan.type_script]);
    let program = programs.find(|program| ckb_hash(program) == code_hash);
    if hash_type == 1 {
        return program.map(|program| typed_cell(prng, program, vec![]));
    }
    let mut cell = Cell {
        data_hash: code_hash,
        data: program.cloned().unwrap_or_default(),
        ..plain_cell(prng)
    };
    true_hashes::of_cell(&mut cell);
    Some(cell)
}

/// A dep for each verifier that the state names, except its own cell.
fn verifiers(prng: &mut Prng, plan: &Plan) -> Vec<Cell> {
    let entries = plan.state.authenticators.iter();
    let mut named: Vec<(u8, [u8; 32])> = entries
        .map(|auth| (auth.verifier_hash_type, auth.verifier_code_hash))
        .collect();
    named.sort();
    named.dedup();
    named.retain(|name| plan.lock.operation != 1 || *name != (1, plan.id()));
    let cell = |(hash_type, code_hash)| verifier(prng, plan, hash_type, code_hash);
    named.into_iter().filter_map(cell).collect()
}

/// An input of the group, and up to `most` others around it.
fn inputs(prng: &mut Prng, most: usize) -> Vec<Input> {
    let mut inputs = vec![plain_input(prng, true)];
    for _ in 0..prng.up_to(most) {
        let group = prng.up_to(1) == 1;
        let input = plain_input(prng, group);
        insert(prng, &mut inputs, input);
    }
    inputs
}

/// A witness for each input, the first of the group holding the lock, and up to `most` behind them.
fn witnesses(prng: &mut Prng, most: usize, inputs: &[Input], lock: &[u8]) -> Vec<Vec<u8>> {
    let first = first_group(inputs);
    let mut witnesses: Vec<Vec<u8>> = inputs.iter().map(|_| some_bytes(prng)).collect();
    witnesses[first] = table(&[&byte_vector(lock), &some_bytes(prng), &some_bytes(prng)]);
    for _ in 0..prng.up_to(most) {
        witnesses.push(some_bytes(prng));
    }
    if prng.up_to(9) == 0 {
        witnesses.truncate(first + 1 + prng.up_to(1));
    }
    witnesses
}

/// The place of the first input of the group, or 0.
pub fn first_group(inputs: &[Input]) -> usize {
    inputs.iter().position(|input| input.group).unwrap_or(0)
}

/// A scene with the plan's parts, and up to three other inputs, outputs, deps and witnesses.
pub fn scene(prng: &mut Prng, plan: &Plan, bytes: Bytes) -> Scene {
    let most = [0, 0, 2, 3][prng.up_to(3)];
    let mut inputs = inputs(prng, most);
    let count = prng.up_to(most);
    let mut outputs: Vec<Output> = (0..count).map(|_| output(plain_cell(prng))).collect();
    let mut deps = verifiers(prng, plan);
    let state = typed_cell(prng, &plan.type_script, bytes.state);
    if plan.lock.operation == 1 {
        insert(prng, &mut deps, state);
    } else {
        let place = prng.up_to(inputs.len() - 1);
        inputs[place].cell = state;
        inputs[place].since = plan.since;
        let successor = typed_cell(prng, &plan.type_script, bytes.successor);
        insert(prng, &mut outputs, output(successor));
    }
    for _ in 0..prng.up_to(most) {
        let cell = plain_cell(prng);
        insert(prng, &mut deps, cell);
    }
    Scene {
        script: script(&bytes.args),
        tx_hash: hash(prng),
        witnesses: witnesses(prng, most, &inputs, &bytes.lock),
        inputs,
        outputs,
        deps,
        verdicts: plan.verdicts.clone(),
    }
}

/// As many lines of each kind as a scene may have.
pub fn fill(scene: &mut Scene, prng: &mut Prng) {
    while scene.inputs.len() < MOST {
        let group = prng.up_to(1) == 1;
        scene.inputs.push(plain_input(prng, group));
    }
    scene.outputs.resize_with(MOST, || output(plain_cell(prng)));
    scene.deps.resize_with(MOST, || plain_cell(prng));
    scene.witnesses.resize(MOST, vec![7; 3]);
}
