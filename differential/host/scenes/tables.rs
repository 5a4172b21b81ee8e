//! Lent tables, whole and damaged.

use super::random::{scene, Most};
use super::readings::Readings;
use crate::lent::{filled, Lent};
use crate::prng::Prng;
use crate::scene::{DEP, ENTRIES, INPUT, OUTPUT, SCRIPT, TX, VERDICTS};
use crate::scene_text::text;

/// How many tables are damaged in every entry.
const TABLES: usize = 60;

/// Other values of an entry: its neighbours, limits, and any.
pub fn other_values(entry: u32, prng: &mut Prng) -> [u32; 12] {
    let near = [entry.wrapping_add(1), entry.wrapping_sub(1)];
    let limits = [0, 1, 2, 3, 16, 17, 64, 65, u32::MAX];
    let mut values = [prng.next() as u32; 12];
    values[..2].copy_from_slice(&near);
    values[2..11].copy_from_slice(&limits);
    values
}

/// Every entry up to one behind the last, and some behind that.
pub fn entries(table: &[u32], prng: &mut Prng) -> Vec<usize> {
    let last = filled(table).entries;
    let mut entries: Vec<usize> = (0..=last).collect();
    entries.extend([(last + 1 + prng.up_to(1_000)), ENTRIES - 1]);
    entries
}

fn damaged(readings: &mut Readings, lent: &Lent) {
    let mut table = lent.table.clone();
    let used = lent.store.len();
    for i in entries(&lent.table, &mut readings.prng) {
        for value in other_values(lent.table[i], &mut readings.prng) {
            table[i] = value;
            let spare = readings.prng.up_to(70);
            readings.table(&table, used + spare);
        }
        table[i] = lent.table[i];
    }
}

/// A length that moved from one field to the next, or grew, the places behind it with it.
fn shifted(readings: &mut Readings, lent: &Lent) {
    let last = filled(&lent.table).entries;
    for i in 8..last {
        for j in i + 1..last {
            let mut table = lent.table.clone();
            table[i] = table[i].wrapping_add(1);
            table[j] = table[j].wrapping_sub(1);
            readings.table(&table, lent.store.len());
        }
    }
}

fn lengths(readings: &mut Readings, lent: &Lent) {
    let used = lent.store.len();
    for store_len in [0, used.saturating_sub(1), used, used + 1, usize::MAX] {
        for table_len in [0, 1, 8, 100, ENTRIES - 1, ENTRIES, ENTRIES + 1, 5_000] {
            let mut table = lent.table.clone();
            table.resize(table_len, 0);
            readings.table(&table, store_len);
        }
    }
    let mut longer = lent.table.clone();
    longer.push(1);
    readings.table(&longer, used);
}

/// A table with rows as the reader lays them out, for any number of lines of each kind, and the bytes they name.
fn laid_out(counts: [u32; 7]) -> (Vec<u32>, usize) {
    let mut table = [&[0], &counts[..]].concat();
    let mut used = 0;
    for kind in SCRIPT..=VERDICTS {
        let (numbers, size): (&[u32], u32) = match kind {
            TX => (&[], 32),
            INPUT => (&[1, 7, 0, 2, 5, 9, 1], 71),
            OUTPUT => (&[0, 5, 3, 0], 37),
            DEP => (&[0, 5], 37),
            VERDICTS => (&[2, 0, 1], 0),
            _ => (&[3], 3),
        };
        for _ in 0..counts[kind - 1] {
            table.push(used);
            table.extend(numbers);
            used += size;
        }
    }
    table.resize(ENTRIES, 0);
    (table, used as usize)
}

/// Tables in which nothing but the number of lines of a kind may be wrong, with the bytes they name.
pub fn any_counts() -> Vec<(Vec<u32>, usize)> {
    let mut tables = Vec::new();
    for kind in SCRIPT..=VERDICTS {
        for count in [0, 1, 2, 3, 63, 64, 65, 66, 100] {
            for others in [0, 1, 64] {
                let mut counts = [1, 1, others, others, others, others, 1];
                counts[kind - 1] = count;
                tables.push(laid_out(counts));
            }
        }
    }
    tables
}

fn most(turn: usize) -> Most {
    match turn {
        0 => Most {
            lines: 64,
            bytes: 3,
        },
        1..=9 => Most {
            lines: 6,
            bytes: 20,
        },
        _ => Most { lines: 2, bytes: 4 },
    }
}

pub fn run(readings: &mut Readings) {
    readings.table(&[0; ENTRIES], 1_000);
    for (table, used) in any_counts() {
        readings.table(&table, used);
    }
    for turn in 0..TABLES {
        let lent = Lent::read(&text(&scene(&mut readings.prng, most(turn))));
        damaged(readings, &lent);
        lengths(readings, &lent);
        if turn >= 10 {
            shifted(readings, &lent);
        }
    }
}
