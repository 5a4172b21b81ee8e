//! The scenes on which the lock is timed. The hashes that it tests are true.

use crate::formats::{state, AUX, PROOF};
use blake2b::ckb_hash;
use ckb_account_host::{account_lock_args, encode_state, encode_witness, Proof};
use ckb_account_protocol::OP_SPEND;
use ckb_std::{Cell, Input, Output, Scene};
use ckb_types::molecule::{byte_vector, table};

/// The type script of the cells that hold the account's states; its hash is the account's id.
const TYPE_SCRIPT: [u8; 53] = [0x55; 53];
/// The code hash of the states' entries: that of a cell without data, which nothing tests.
const VERIFIER: [u8; 32] = [0x22; 32];
/// A cell's data where there is much.
const MUCH: usize = 16_384;
/// What an output has; an input has some more, so that there is a fee.
const CAPACITY: u64 = 100_000_000_000;
const FEE: u64 = 1_234;

fn cell(type_script: Option<Vec<u8>>, data: Vec<u8>) -> Cell {
    let data_hash = if data.is_empty() {
        VERIFIER
    } else {
        ckb_hash(&data)
    };
    Cell {
        type_hash: type_script.as_deref().map(ckb_hash),
        data_hash,
        type_script,
        data,
    }
}

fn input(group: bool, cell: &Cell) -> Input {
    Input {
        group,
        since: 0,
        cell: cell.clone(),
        capacity: CAPACITY + FEE,
    }
}

fn output(cell: &Cell) -> Output {
    Output {
        cell: cell.clone(),
        capacity: CAPACITY,
    }
}

fn state_cell(state: Vec<u8>) -> Cell {
    cell(Some(TYPE_SCRIPT.to_vec()), state)
}

fn witness(operation: u8, sequence: u64, proofs: u16) -> Vec<u8> {
    let proof = |slot| Proof {
        slot,
        bytes: vec![2; PROOF],
    };
    let proofs: Vec<Proof> = (0..proofs).map(proof).collect();
    let lock = encode_witness(operation, sequence, &proofs).expect("a valid witness lock");
    table(&[&byte_vector(&lock), &[], &[]])
}

/// A spend or a rotation in which every entry gives a proof.
pub fn scene_of(operation: u8, proofs: u16, aux_len: usize) -> Scene {
    let mut account = state(proofs, aux_len);
    let current = encode_state(&account).expect("a valid state");
    let witnesses = vec![witness(operation, account.sequence, proofs)];
    account.sequence += 1;
    let successor = encode_state(&account).expect("a valid state");
    let (held, left) = (state_cell(current), state_cell(successor));
    let (verifier, plain) = (cell(None, vec![]), cell(None, vec![]));
    let spend = operation == OP_SPEND;
    let (spent, made) = if spend {
        (&plain, &plain)
    } else {
        (&held, &left)
    };
    let state_dep = if spend { vec![held.clone()] } else { vec![] };
    Scene {
        script: table(&[
            &[0x44; 32],
            &[1],
            &byte_vector(&account_lock_args(&ckb_hash(&TYPE_SCRIPT))),
        ]),
        tx_hash: [0x66; 32],
        inputs: vec![input(true, spent)],
        outputs: vec![output(made)],
        deps: [state_dep, vec![verifier]].concat(),
        witnesses,
        verdicts: vec![0; usize::from(proofs)],
    }
}

/// A spend with one proof among 64 cells with much data, in inputs, outputs and deps.
pub fn scene_of_64_cells() -> Scene {
    let mut scene = scene_of(OP_SPEND, 1, AUX);
    let cell = cell(None, vec![0x77; MUCH]);
    scene.inputs.extend(vec![input(false, &cell); 16]);
    scene.outputs.extend(vec![output(&cell); 16]);
    scene.deps.extend(vec![cell; 32]);
    scene
}
