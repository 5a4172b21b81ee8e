//! The sighash beside the lock's own, over scenes and over any table.

use super::scenes;
use crate::exports_transaction as exports;
use crate::formats::calls::{numbered, Calls, DISAGREE};
use crate::lent::Lent;
use crate::scene_text::text;
use crate::scenes::tables::{any_counts, entries, other_values};
use crate::table;
use ckb_account_lock::opened;
use ckb_std::serve;

const RANDOM: usize = 6_000;
/// How many scenes have their tables damaged in every entry.
const TABLES: usize = 8;

/// 7 where no scene leaves the table, else what the original says of the scene that table and store hold.
fn compare(calls: &mut Calls, lent: &Lent) {
    let expected = match table::valid(&lent.table, lent.store.len()) {
        true => numbered(serve(&lent.scene(), opened::canonical_group_sighash).0),
        false => Err(DISAGREE),
    };
    let input = || format!("store of {}, table {:?}", lent.store.len(), lent.table);
    let size = lent.store.len();
    calls.hash("canonical_group_sighash", size, expected, input, |out| {
        exports::canonical_group_sighash(&lent.table, &lent.store, out)
    });
}

fn damaged(calls: &mut Calls, lent: &Lent) {
    let mut copy = lent.clone();
    copy.store.extend([0xcc; 70]);
    for i in entries(&lent.table, &mut calls.prng) {
        for value in other_values(lent.table[i], &mut calls.prng) {
            copy.table[i] = value;
            compare(calls, &copy);
        }
        copy.table[i] = lent.table[i];
    }
    for length in [0, lent.store.len() - 1] {
        let store = lent.store[..length].to_vec();
        let table = lent.table.clone();
        compare(calls, &Lent { store, table });
    }
}

pub fn run(calls: &mut Calls) {
    for (table, used) in any_counts() {
        let store = vec![0; used];
        compare(calls, &Lent { store, table });
    }
    for turn in 0..RANDOM {
        let scene = scenes::random(&mut calls.prng);
        let lent = Lent::read(&text(&scene));
        compare(calls, &lent);
        if turn < TABLES {
            damaged(calls, &lent);
        }
    }
}
