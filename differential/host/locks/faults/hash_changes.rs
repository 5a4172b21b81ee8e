//! Changes of a cell after which one of its hashes differs, and changes that pass.

use super::OnCell;
use crate::prng::Prng;
use crate::true_hashes;
use blake2b::ckb_hash;
use ckb_std::Cell;

fn other_byte(byte: &mut u8, prng: &mut Prng) {
    *byte ^= 1 + prng.up_to(254) as u8;
}

pub fn any_byte(bytes: &mut [u8], prng: &mut Prng) {
    let place = prng.up_to(bytes.len() - 1);
    other_byte(&mut bytes[place], prng);
}

fn any_bit(hash: &mut [u8; 32], prng: &mut Prng) {
    hash[prng.up_to(31)] ^= 1 << prng.up_to(7);
}

/// Type script and type hash of the cell, which is given a type script where it has none.
fn typed<'a>(cell: &'a mut Cell, prng: &mut Prng) -> (&'a mut Vec<u8>, &'a mut [u8; 32]) {
    cell.type_script.get_or_insert_with(|| prng.bytes(3));
    true_hashes::of_cell(cell);
    let script = cell.type_script.as_mut().expect("a type script");
    (script, cell.type_hash.as_mut().expect("a type hash"))
}

/// Data and data hash of the cell, which is given data where it has none.
fn filled<'a>(cell: &'a mut Cell, prng: &mut Prng) -> (&'a mut Vec<u8>, &'a mut [u8; 32]) {
    if cell.data.is_empty() {
        cell.data = prng.bytes(3);
    }
    true_hashes::of_cell(cell);
    (&mut cell.data, &mut cell.data_hash)
}

/// The type hash differs.
pub const OF_TYPE: [(&str, OnCell); 8] = [
    ("type hash's first byte", |cell, prng| {
        other_byte(&mut typed(cell, prng).1[0], prng)
    }),
    ("type hash's last byte", |cell, prng| {
        other_byte(&mut typed(cell, prng).1[31], prng)
    }),
    ("a bit of the type hash", |cell, prng| {
        any_bit(typed(cell, prng).1, prng)
    }),
    ("type script edited", |cell, prng| {
        any_byte(typed(cell, prng).0, prng)
    }),
    ("a byte behind the type script", |cell, prng| {
        typed(cell, prng).0.push(0)
    }),
    ("type script a byte shorter", |cell, prng| {
        cell.type_script = Some(prng.bytes(4));
        typed(cell, prng).0.pop();
    }),
    ("hashes exchanged", |cell, prng| {
        filled(cell, prng);
        let type_hash = *typed(cell, prng).1;
        cell.type_hash = Some(cell.data_hash);
        cell.data_hash = type_hash;
    }),
    ("type hash of no bytes", |cell, prng| {
        *typed(cell, prng).1 = ckb_hash(&[])
    }),
];

/// The data hash differs, and the type hash does not.
pub const OF_DATA: [(&str, OnCell); 9] = [
    ("data hash's first byte", |cell, prng| {
        other_byte(&mut filled(cell, prng).1[0], prng)
    }),
    ("data hash's last byte", |cell, prng| {
        other_byte(&mut filled(cell, prng).1[31], prng)
    }),
    ("a bit of the data hash", |cell, prng| {
        any_bit(filled(cell, prng).1, prng)
    }),
    ("data edited", |cell, prng| {
        any_byte(filled(cell, prng).0, prng)
    }),
    ("a byte behind the data", |cell, prng| {
        filled(cell, prng).0.push(0)
    }),
    ("data a byte shorter", |cell, prng| {
        cell.data = prng.bytes(4);
        filled(cell, prng).0.pop();
    }),
    ("one byte of data with a hash of none", |cell, prng| {
        cell.data = prng.bytes(1);
        *filled(cell, prng).1 = ckb_hash(&[]);
    }),
    ("data with a hash of none", |cell, prng| {
        *filled(cell, prng).1 = ckb_hash(&[])
    }),
    ("data with the type hash", |cell, prng| {
        let type_hash = *typed(cell, prng).1;
        *filled(cell, prng).1 = type_hash;
    }),
];

/// What passes in a cell that plays no part.
pub const PASSING: [(&str, OnCell); 7] = [
    ("no data with any hash", |cell, prng| {
        cell.data.clear();
        any_byte(&mut cell.data_hash, prng);
    }),
    ("no data with its hash", |cell, _| {
        cell.data.clear();
        cell.data_hash = ckb_hash(&[]);
    }),
    ("data emptied, its hash left", |cell, prng| {
        filled(cell, prng).0.clear()
    }),
    ("one byte of data", |cell, prng| {
        of(cell, vec![8; 3], prng.bytes(1))
    }),
    ("one byte of type script", |cell, prng| {
        of(cell, vec![8], prng.bytes(3))
    }),
    ("a block of each", |cell, prng| {
        of(cell, prng.bytes(128), prng.bytes(128))
    }),
    ("a block and a byte of each", |cell, prng| {
        of(cell, prng.bytes(129), prng.bytes(129))
    }),
];

/// Type script and data with their hashes.
pub fn of(cell: &mut Cell, script: Vec<u8>, data: Vec<u8>) {
    cell.type_script = Some(script);
    cell.data = data;
    true_hashes::of_cell(cell);
}
