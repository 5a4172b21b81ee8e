//! Capacities about the ends of their halves, by the exported lock, over one spend with two inputs and two outputs: every four
//! of a list. The original has one answer to that spend: the model of totals says what becomes of it.

use super::answer::Answer;
use super::runs::Runs;
use super::LEAST;
use crate::capacity::{LENGTH_OVERFLOW, OUTPUTS_EXCEED_INPUTS};
use crate::lent::Lent;
use crate::measure::with_totals;
use crate::original;
use crate::samples::two_by_two;
use crate::scene::FIRST_ROW;
use crate::scene_text::text;
use ckb_std::Scene;

const NAME: &str = "lock, four capacities";
/// The answer buffer.
const BUFFER: usize = 100;
/// Where the low halves stand in a table: behind the rows of the script and of the transaction's hash, at the end of each row
/// of an input, which has eight entries, and of an output, which has five.
const INPUTS: usize = FIRST_ROW + 2 + 1;
const OUTPUTS: usize = INPUTS + 2 * 8;
const PLACES: [usize; 4] = [INPUTS + 6, INPUTS + 8 + 6, OUTPUTS + 3, OUTPUTS + 5 + 3];

const CAPACITIES: [u64; 12] = [
    0,
    1,
    2,
    (1 << 32) - 1,
    1 << 32,
    (1 << 32) + 1,
    (1 << 63) - 1,
    1 << 63,
    (1 << 63) + 1,
    u64::MAX - (1 << 32),
    u64::MAX - 1,
    u64::MAX,
];

/// The capacities of both inputs and of both outputs.
fn set(scene: &mut Scene, capacities: [u64; 4]) {
    let inputs = scene.inputs.iter_mut().map(|input| &mut input.capacity);
    let outputs = scene.outputs.iter_mut().map(|output| &mut output.capacity);
    for (capacity, given) in inputs.chain(outputs).zip(capacities) {
        *capacity = given;
    }
}

fn every_four(mut f: impl FnMut([u64; 4])) {
    for first in CAPACITIES {
        for second in CAPACITIES {
            for third in CAPACITIES {
                for fourth in CAPACITIES {
                    f([first, second, third, fourth]);
                }
            }
        }
    }
}

pub fn run(runs: &mut Runs) {
    let mut scene = two_by_two();
    let outcome = original::lock(&scene);
    let mut lent = Lent::read(&text(&scene));
    every_four(|capacities| {
        for (place, capacity) in PLACES.into_iter().zip(capacities) {
            lent.table[place] = capacity as u32;
            lent.table[place + 1] = (capacity >> 32) as u32;
        }
        set(&mut scene, capacities);
        let result = Answer::of_port(&lent, BUFFER);
        let expected = Answer::expected(&with_totals(&scene, outcome.clone()), BUFFER);
        let input = || format!("capacities {capacities:?}");
        runs.report.answered(NAME, result.number);
        runs.report.compare(NAME, 0, input, &result, &expected);
    });
    let numbers = [0, LENGTH_OVERFLOW as u32, OUTPUTS_EXCEED_INPUTS as u32];
    runs.report.expect_each(NAME, &numbers, LEAST);
}
