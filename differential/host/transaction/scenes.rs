//! Scenes for the sighash: inputs of the group and foreign ones, and witnesses for some of them, for all, or for more.

use super::tables;
use crate::changes;
use crate::prng::Prng;
use crate::samples;
use ckb_std::{Input, Scene};

/// The longest witness that the lock loads.
const LONGEST: usize = 132_096;
/// Lengths about that of the lock's first try to load, the longest, and one more.
const LENGTHS: [usize; 7] = [0, 1, 255, 256, 257, LONGEST, LONGEST + 1];

/// No bytes, few, a length at a limit, or a table.
fn witness(prng: &mut Prng) -> Vec<u8> {
    match prng.up_to(9) {
        0 | 1 => Vec::new(),
        2 => {
            let last = if prng.up_to(20) == 0 { 6 } else { 4 };
            let length = LENGTHS[prng.up_to(last)];
            prng.bytes(length)
        }
        3 | 4 => tables::strict(prng, 60),
        _ => {
            let length = prng.up_to(300);
            prng.bytes(length)
        }
    }
}

/// Mostly a table that is read: strict, loose or damaged.
fn first_witness(prng: &mut Prng) -> Vec<u8> {
    let table = match prng.up_to(1) {
        0 => tables::strict(prng, 200),
        _ => tables::random(prng, 100),
    };
    match prng.up_to(7) {
        0 => changes::random(prng, &table),
        1 => tables::loose(prng, &table),
        2 => witness(prng),
        3 if prng.up_to(9) == 0 => long_table(prng),
        _ => table,
    }
}

/// A table of the longest length, or one longer: its third field has the bytes that are missing.
fn long_table(prng: &mut Prng) -> Vec<u8> {
    let length = LONGEST + prng.up_to(1);
    let mut table = tables::strict(prng, 200);
    let missing = length - table.len();
    table.extend(prng.bytes(missing));
    table[..4].copy_from_slice(&(length as u32).to_le_bytes());
    table
}

/// A scene whose first group input mostly has a witness; the group may have no input, or none with a witness.
pub fn random(prng: &mut Prng) -> Scene {
    let inputs = 1 + prng.up_to(6);
    let group = match prng.up_to(20) {
        0 => inputs,
        _ => prng.up_to(inputs - 1),
    };
    let input = |i: usize, prng: &mut Prng| Input {
        group: i == group || group < i && prng.up_to(1) == 0,
        ..samples::spend().inputs[0].clone()
    };
    let witnesses = match prng.up_to(2) {
        0 => prng.up_to(inputs),
        1 => inputs,
        _ => inputs + 1 + prng.up_to(4),
    };
    let mut scene = Scene {
        tx_hash: prng.bytes(32).try_into().unwrap(),
        inputs: (0..inputs).map(|i| input(i, prng)).collect(),
        witnesses: (0..witnesses).map(|_| witness(prng)).collect(),
        ..samples::spend()
    };
    if let Some(witness) = scene.witnesses.get_mut(group) {
        *witness = first_witness(prng);
    }
    scene
}
