//! The lock beside what it is measured by, over scenes that the reader accepts.

pub mod answer;
mod assembly;
mod capacities;
mod coverage;
mod faults;
mod plan;
pub mod record;
mod recorded;
mod room;
mod runs;
pub mod sample_files;
mod sinces;
mod tables;
mod totals;
mod waits;

pub use capacities::any as any_capacities;
pub use faults::{about_limit, about_session};
pub use sinces::any as any_waits;

use crate::capacity_kinds;
use crate::cell_hashes::Difference;
use crate::prng::Prng;
use crate::report::Report;
use crate::session;
use crate::since;
use faults::{any_hash, any_totals, build, damage, rows, Fault, Row};
use plan::Plan;
use runs::Runs;
use std::collections::BTreeMap;

/// Scenes with random faults in one run, and in a long one.
const RANDOM: usize = 190_000;
const LONG: usize = 30 * RANDOM;
/// How often each row is met, for each operation: short scenes and long ones.
const TURNS: usize = 20;
const LONG_TURNS: usize = 7;
/// How often each number is met at least.
const LEAST: usize = 20;
/// The numbers that the lock can give.
const NUMBERS: [u32; 26] = [
    0, 5, 7, 20, 21, 22, 23, 24, 25, 26, 27, 28, 29, 30, 31, 32, 33, 34, 35, 38, 39, 40, 42, 44,
    48, 49,
];

/// Each row of the documents' table, on plans that are accepted without it.
fn each_row(runs: &mut Runs, rows: &[Row]) {
    for row in rows {
        let turns = if row.long { LONG_TURNS } else { TURNS };
        for operation in row.operations {
            for _ in 0..turns {
                let entries = 2 + runs.prng.up_to(1);
                let plan = Plan::full(&mut runs.prng, *operation, entries);
                let scene = build(&mut runs.prng, plan, &row.faults);
                let made = row.made.map(|made| made.of(entries));
                runs.expect(&row.name, &scene, row.number, made, row.fee);
            }
        }
    }
}

/// Plans of every size without a fault.
fn accepted(runs: &mut Runs) {
    for entries in 1..=16 {
        for operation in 1..=3 {
            for _ in 0..TURNS {
                let plan = Plan::valid(&mut runs.prng, operation, entries);
                let made = (plan.lock.proofs.len(), true);
                let scene = build(&mut runs.prng, plan, &[]);
                runs.expect("no fault", &scene, 0, Some(made), None);
            }
        }
    }
}

/// The rows with short scenes, by number, so that none is met more often for having more rows.
fn by_number(rows: &[Row]) -> Vec<Vec<&Row>> {
    let mut numbers: BTreeMap<i8, Vec<&Row>> = BTreeMap::new();
    for row in rows.iter().filter(|row| !row.long) {
        numbers.entry(row.number).or_default().push(row);
    }
    numbers.into_values().collect()
}

/// Up to three faults, of the rows or any.
fn random_faults(prng: &mut Prng, rows: &[Vec<&Row>]) -> Vec<Fault> {
    let mut faults = Vec::new();
    for _ in 0..[0, 1, 1, 2, 3][prng.up_to(4)] {
        if prng.up_to(5) == 0 {
            faults.push(damage(prng));
        } else {
            let rows = &rows[prng.up_to(rows.len() - 1)];
            faults.extend(&rows[prng.up_to(rows.len() - 1)].faults);
        }
    }
    faults
}

fn random(runs: &mut Runs, rows: &[Row], scenes: usize) {
    let rows = by_number(rows);
    for _ in 0..scenes {
        let plan = Plan::random(&mut runs.prng);
        let faults = random_faults(&mut runs.prng, &rows);
        let scene = build(&mut runs.prng, plan, &faults);
        runs.any(&scene);
    }
}

/// Every length of answer buffer at which something changes.
fn short_buffers(runs: &mut Runs) {
    for entries in 1..=16 {
        let operation = 1 + runs.prng.up_to(2) as u8;
        let plan = Plan::valid(&mut runs.prng, operation, entries);
        let scene = build(&mut runs.prng, plan, &[]);
        runs.every_buffer(&scene);
    }
    for _ in 0..100 {
        let plan = Plan::random(&mut runs.prng);
        let scene = build(&mut runs.prng, plan, &[]);
        runs.every_buffer(&scene);
        let plan = Plan::random(&mut runs.prng);
        let hash = any_hash(&mut runs.prng);
        let scene = build(&mut runs.prng, plan, &[hash]);
        runs.every_buffer(&scene);
        let plan = Plan::random(&mut runs.prng);
        let totals = any_totals(&mut runs.prng);
        let scene = build(&mut runs.prng, plan, &[totals]);
        runs.every_buffer(&scene);
    }
}

/// The longest answer: 16 heads of 96 bytes, all of a state's 16,384 bytes but its header and 80 of each entry, and all of a
/// witness lock's 131,072 but its header and 8 of each proof. Each entry more has 8 bytes more to it.
const LONGEST_ANSWER: usize = 16 * 96 + (16_384 - 32 - 16 * 80) + (131_072 - 16 - 16 * 8);

fn longest_answer(runs: &mut Runs) {
    for operation in 1..=3 {
        let plan = Plan::longest_answer(&mut runs.prng, operation);
        let scene = build(&mut runs.prng, plan, &[]);
        runs.expect("the longest answer", &scene, 0, Some((16, true)), None);
        runs.expect_length(&scene, LONGEST_ANSWER);
        runs.every_buffer(&scene);
    }
}

pub fn run(report: &mut Report, long: bool) {
    let prng = Prng::new(4);
    let mut runs = Runs { report, prng };
    let rows = rows();
    each_row(&mut runs, &rows);
    accepted(&mut runs);
    random(&mut runs, &rows, if long { LONG } else { RANDOM });
    short_buffers(&mut runs);
    longest_answer(&mut runs);
    tables::run(&mut runs);
    room::run(&mut runs);
    waits::run(&mut runs);
    totals::run(&mut runs);
    coverage::run(&mut runs);
    report.expect_each("lock", &NUMBERS, LEAST);
    let differences: Vec<&str> = Difference::all().map(Difference::name).collect();
    report.expect_met(&differences, LEAST);
    report.expect_met(&session::OPERATIONS, LEAST);
    report.expect_met(&session::KINDS, LEAST);
    report.expect_met(&since::kinds(), LEAST);
    report.expect_met(&since::CHANGED, LEAST);
    report.expect_met(&capacity_kinds::kinds(), LEAST);
}
