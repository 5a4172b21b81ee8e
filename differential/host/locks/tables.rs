//! The lock over damaged tables, short stores and other bytes, some of them with a hash that differs too.

use super::faults::{any_hash, build};
use super::plan::Plan;
use super::runs::Runs;
use crate::changes;
use crate::lent::Lent;
use crate::scene::ENTRIES;
use crate::scene_text::text;
use crate::scenes::tables::{any_counts, entries, other_values};
use crate::table;
use crate::true_hashes;

/// How many scenes have their tables damaged in every entry.
const TABLES: usize = 27;

fn damaged(runs: &mut Runs, lent: &Lent) {
    let mut copy = lent.clone();
    copy.store.extend([0xcc; 70]);
    for i in entries(&lent.table, &mut runs.prng) {
        for value in other_values(lent.table[i], &mut runs.prng) {
            copy.table[i] = value;
            runs.lent(&copy);
        }
        copy.table[i] = lent.table[i];
    }
}

/// Two entries that change against each other, as a length that moves from one field to the next.
fn shifted(runs: &mut Runs, lent: &Lent) {
    let entries = entries(&lent.table, &mut runs.prng);
    for _ in 0..400 {
        let [i, j] = [0, 1].map(|_| entries[runs.prng.up_to(entries.len() - 1)]);
        let mut copy = lent.clone();
        copy.table[i] = copy.table[i].wrapping_add(1);
        copy.table[j] = copy.table[j].wrapping_sub(1);
        runs.lent(&copy);
    }
}

/// Any bytes of the store changed, the hashes mostly being made true afterwards.
fn bytes(runs: &mut Runs, lent: &Lent) {
    for _ in 0..400 {
        let mut copy = lent.clone();
        copy.store = changes::random(&mut runs.prng, &lent.store);
        if runs.prng.up_to(7) > 0 {
            copy = with_true_hashes(&copy);
        }
        runs.lent(&copy);
    }
}

fn with_true_hashes(lent: &Lent) -> Lent {
    let mut scene = lent.scene();
    true_hashes::of_scene(&mut scene);
    Lent::read(&text(&scene))
}

fn lengths(runs: &mut Runs, lent: &Lent) {
    let used = lent.store.len();
    for store_len in [0, 1, used / 2, used - 1, used, used + 1, used + 500] {
        let mut copy = lent.clone();
        copy.store.resize(store_len, 0xcc);
        runs.lent(&copy);
    }
    for table_len in [0, 1, 7, 8, 20, 300, ENTRIES - 1, ENTRIES + 1, 3_000] {
        let mut copy = lent.clone();
        copy.table.resize(table_len, 0);
        runs.lent(&copy);
    }
}

pub fn run(runs: &mut Runs) {
    for (table, used) in any_counts() {
        let store = vec![0; used];
        let lent = Lent { store, table };
        runs.lent(&lent);
        if table::valid(&lent.table, used) {
            runs.lent(&with_true_hashes(&lent));
        }
    }
    for turn in 0..TABLES {
        let plan = Plan::random(&mut runs.prng);
        let hash = any_hash(&mut runs.prng);
        let faults = if turn % 5 == 0 { &[hash][..] } else { &[] };
        let scene = build(&mut runs.prng, plan, faults);
        let lent = Lent::read(&text(&scene));
        damaged(runs, &lent);
        shifted(runs, &lent);
        lengths(runs, &lent);
        bytes(runs, &lent);
    }
}
