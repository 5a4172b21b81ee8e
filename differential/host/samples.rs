//! A small account, and scenes in which one proof spends from it and recovers it; and the smallest accepted spend.

use crate::true_hashes;
use blake2b::ckb_hash;
use ckb_account_host::{
    account_lock_args, encode_state, encode_witness, AccountState, Authenticator, Proof,
};
use ckb_account_protocol::{
    ALG_P256_WEBAUTHN, CAP_RECOVERY, CAP_ROTATE, CAP_SPEND, OP_RECOVERY, OP_SPEND, PROFILE_V1,
    STATE_FLAG_RECOVERY_ENABLED, VERIFIER_ABI_V1,
};
use ckb_std::{Cell, Input, Output, Scene};
use ckb_types::molecule::{byte_vector, table};

pub const SEQUENCE: u64 = 7;
pub const RECOVERY_SINCE: u64 = 1000;
pub const PROOF: &[u8] = b"proof";
/// What an output has.
const CAPACITY: u64 = 6_100_000_000;
/// The data of the verifier's cell.
const VERIFIER: &[u8] = b"verifier";
/// The type script of the smallest spend's account, and its proof.
const SMALLEST_TYPE_SCRIPT: &[u8] = &[0x44];
const SMALLEST_PROOF: &[u8] = &[0xaa];

fn type_script() -> Vec<u8> {
    table(&[&[0x55; 32], &[1], &byte_vector(&[])])
}

pub fn account_id() -> [u8; 32] {
    ckb_hash(&type_script())
}

/// Its aux makes the state too long for the lock's first try to load it.
pub fn authenticator() -> Authenticator {
    Authenticator {
        slot: 5,
        algorithm_id: ALG_P256_WEBAUTHN,
        capabilities: CAP_SPEND | CAP_ROTATE | CAP_RECOVERY,
        weight: 1,
        verifier_hash_type: 0,
        verifier_abi: VERIFIER_ABI_V1,
        verifier_code_hash: ckb_hash(VERIFIER),
        key_id: [0x33; 32],
        aux: vec![1; 300],
    }
}

/// The state's bytes: one authenticator that suffices alone.
pub fn state(sequence: u64) -> Vec<u8> {
    let state = AccountState {
        flags: STATE_FLAG_RECOVERY_ENABLED,
        sequence,
        spend_threshold: 1,
        rotate_threshold: 1,
        recovery_threshold: 1,
        recovery_since: RECOVERY_SINCE,
        authenticators: vec![authenticator()],
    };
    encode_state(&state).expect("a valid state")
}

fn script() -> Vec<u8> {
    let args = byte_vector(&account_lock_args(&account_id()));
    table(&[&[0x44; 32], &[1], &args])
}

fn witness(operation: u8) -> Vec<u8> {
    let proof = Proof {
        slot: authenticator().slot,
        bytes: PROOF.to_vec(),
    };
    let lock = encode_witness(operation, SEQUENCE, &[proof]).expect("a valid witness lock");
    table(&[&byte_vector(&lock), &[], &byte_vector(b"output type")])
}

fn plain_cell() -> Cell {
    Cell {
        type_hash: None,
        data_hash: [0; 32],
        type_script: None,
        data: Vec::new(),
    }
}

fn cell(type_script: Option<Vec<u8>>, data: Vec<u8>) -> Cell {
    let mut cell = Cell {
        type_script,
        data,
        ..plain_cell()
    };
    true_hashes::of_cell(&mut cell);
    cell
}

/// The cell that holds the account's state.
pub fn state_cell(sequence: u64) -> Cell {
    cell(Some(type_script()), state(sequence))
}

fn verifier_cell() -> Cell {
    cell(None, VERIFIER.to_vec())
}

/// Each input has as much as two outputs.
pub fn input(group: bool, since: u64, cell: Cell) -> Input {
    Input {
        group,
        since,
        cell,
        capacity: 2 * CAPACITY,
    }
}

fn output(cell: Cell) -> Output {
    let capacity = CAPACITY;
    Output { cell, capacity }
}

/// Two inputs, the second of them the account's, and one witness behind those of the inputs.
pub fn spend() -> Scene {
    Scene {
        script: script(),
        tx_hash: [0x66; 32],
        inputs: vec![input(false, 0, plain_cell()), input(true, 0, plain_cell())],
        outputs: vec![output(plain_cell())],
        deps: vec![state_cell(SEQUENCE), verifier_cell()],
        witnesses: vec![b"foreign".to_vec(), witness(OP_SPEND), b"extra".to_vec()],
        verdicts: vec![0],
    }
}

/// The second input holds the state, the second output its successor.
pub fn recovery(since: u64) -> Scene {
    let state_input = input(true, since, state_cell(SEQUENCE));
    Scene {
        inputs: vec![input(false, 0, plain_cell()), state_input],
        outputs: vec![output(plain_cell()), output(state_cell(SEQUENCE + 1))],
        deps: vec![plain_cell(), verifier_cell()],
        witnesses: vec![b"foreign".to_vec(), witness(OP_RECOVERY), b"extra".to_vec()],
        ..spend()
    }
}

/// A state of 113 bytes, the fewest, with this recovery_since or without recovery: one authenticator with an aux of one byte,
/// whose verifier is the cell with the account's id as its type hash.
fn smallest_state(sequence: u64, recovery_since: Option<u64>) -> Vec<u8> {
    let recovery = u8::from(recovery_since.is_some());
    let only = Authenticator {
        capabilities: CAP_SPEND | CAP_ROTATE | CAP_RECOVERY * u16::from(recovery),
        verifier_hash_type: 1,
        verifier_code_hash: ckb_hash(SMALLEST_TYPE_SCRIPT),
        aux: vec![PROFILE_V1],
        ..authenticator()
    };
    let state = AccountState {
        flags: STATE_FLAG_RECOVERY_ENABLED * recovery,
        sequence,
        spend_threshold: 1,
        rotate_threshold: 1,
        recovery_threshold: u16::from(recovery),
        recovery_since: recovery_since.unwrap_or(0),
        authenticators: vec![only],
    };
    encode_state(&state).expect("a valid state")
}

/// The smallest accepted spend: every field is as short as the reader and the lock allow, and the state's own dep is its
/// verifier. Fields of the tables that the lock does not open are empty.
pub fn smallest_spend() -> Scene {
    let args = account_lock_args(&ckb_hash(SMALLEST_TYPE_SCRIPT));
    Scene {
        script: table(&[&[], &[], &byte_vector(&args)]),
        inputs: vec![smallest_input(0, plain_cell())],
        outputs: Vec::new(),
        deps: vec![smallest_cell(smallest_state(SEQUENCE, None))],
        witnesses: smallest_witnesses(OP_SPEND, SMALLEST_PROOF),
        ..spend()
    }
}

/// The same with another proof.
pub fn spend_with_proof(proof: &[u8]) -> Scene {
    Scene {
        witnesses: smallest_witnesses(OP_SPEND, proof),
        ..smallest_spend()
    }
}

/// The smallest spend with these witnesses behind its first, so many of them those of further inputs of the group.
pub fn spend_with_row(row: &[Vec<u8>], group: usize) -> Scene {
    let mut scene = smallest_spend();
    let input = scene.inputs[0].clone();
    scene.inputs.resize(1 + group, input);
    scene.witnesses.extend_from_slice(row);
    scene
}

/// The smallest spend with another input, a foreign one, and two outputs.
pub fn two_by_two() -> Scene {
    Scene {
        inputs: [true, false]
            .map(|group| input(group, 0, plain_cell()))
            .into(),
        outputs: vec![output(plain_cell()); 2],
        ..smallest_spend()
    }
}

/// The smallest spend as a recovery: its only input holds the state, its only output the successor.
pub fn smallest_recovery(recovery_since: u64, since: u64) -> Scene {
    let state = |sequence| smallest_cell(smallest_state(sequence, Some(recovery_since)));
    Scene {
        inputs: vec![smallest_input(since, state(SEQUENCE))],
        outputs: vec![smallest_output(state(SEQUENCE + 1))],
        deps: vec![smallest_cell(Vec::new())],
        witnesses: smallest_witnesses(OP_RECOVERY, SMALLEST_PROOF),
        ..smallest_spend()
    }
}

/// The only input, with a fee of one digit.
fn smallest_input(since: u64, cell: Cell) -> Input {
    Input {
        capacity: 9,
        ..input(true, since, cell)
    }
}

fn smallest_output(cell: Cell) -> Output {
    let capacity = 1;
    Output { cell, capacity }
}

/// A cell of the smallest spend's account.
fn smallest_cell(data: Vec<u8>) -> Cell {
    cell(Some(SMALLEST_TYPE_SCRIPT.to_vec()), data)
}

/// One witness, with one proof.
fn smallest_witnesses(operation: u8, proof: &[u8]) -> Vec<Vec<u8>> {
    let proof = Proof {
        slot: authenticator().slot,
        bytes: proof.to_vec(),
    };
    let lock = encode_witness(operation, SEQUENCE, &[proof]).expect("a valid witness lock");
    vec![table(&[&byte_vector(&lock), &[], &[]])]
}
