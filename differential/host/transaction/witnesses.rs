//! The lock of a witness, the args of a script, and the canonical witness.

use super::tables;
use crate::changes;
use crate::exports_transaction as exports;
use crate::formats::calls::{numbered, place, Calls, Words};
use crate::hex::{hex, Hex};
use ckb_account_lock::opened;

const RANDOM: usize = 3_000;

fn lock_words(witness: &[u8]) -> Words {
    let lock = opened::witness_lock(witness)?;
    Ok(vec![place(witness, lock), lock.len() as u64])
}

fn args_words(script: &[u8]) -> Words {
    let args = opened::script_args(script)?;
    Ok(vec![place(script, args), args.len() as u64])
}

/// Any bytes are a witness to two of the functions and a script to the third.
fn compare(calls: &mut Calls, bytes: &[u8]) {
    calls.read(
        "witness_lock",
        bytes,
        lock_words(bytes),
        exports::witness_lock,
    );
    calls.read(
        "script_args",
        bytes,
        args_words(bytes),
        exports::script_args,
    );
    let expected = numbered(opened::canonical_witness(bytes));
    let input = || format!("{:?}", Hex(bytes.to_vec()));
    calls.write("canonical_witness", &expected, input, |out, len| {
        exports::canonical_witness(bytes, out, len)
    });
}

/// Document 01's marked row and the smallest table, with each byte changed to every value.
fn changed_bytes(calls: &mut Calls) {
    let marked = hex("15000000 10000000 15000000 15000000 01000000 aa");
    let smallest = hex("10000000 10000000 10000000 10000000");
    for table in [marked.0, smallest.0] {
        compare(calls, &table);
        changes::one_byte(&table, changes::any_other, |bytes| compare(calls, bytes));
        changes::other_lengths(&table, |bytes| compare(calls, bytes));
        tables::limits(&table, |bytes| compare(calls, bytes));
    }
}

/// Fields of many bytes, which a canonical witness keeps or drops as a whole.
fn long_fields(calls: &mut Calls) {
    for most in [255, 256, 70_000] {
        for _ in 0..4 {
            let table = tables::strict(&mut calls.prng, most);
            compare(calls, &table);
            let table = tables::random(&mut calls.prng, most);
            compare(calls, &table);
        }
    }
}

pub fn run(calls: &mut Calls) {
    changed_bytes(calls);
    long_fields(calls);
    for i in 0..RANDOM {
        let table = match i % 4 {
            0 => tables::strict(&mut calls.prng, 30),
            1 => tables::headed(&mut calls.prng, 40),
            _ => tables::random(&mut calls.prng, 30),
        };
        compare(calls, &table);
        if 16 <= table.len() {
            let loose = tables::loose(&mut calls.prng, &table);
            compare(calls, &loose);
        }
        let other = changes::random(&mut calls.prng, &table);
        compare(calls, &other);
    }
}
