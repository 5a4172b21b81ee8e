//! Pairs of recovery_since and since by the exported lock, over the smallest recovery: every pair of a list, and random ones.
//! The original has one answer to that recovery where its plain comparison passes and one where it does not: the model of waits
//! chooses between them, and 42 is its own.

use super::answer::Answer;
use super::runs::Runs;
use super::sinces::{
    self, epoch_value, of_metric, LAST_LENGTH, LAST_NUMBER, LAST_VALUE, RELATIVE, RESERVED,
};
use super::LEAST;
use crate::lent::Lent;
use crate::measure::{refused, with_totals};
use crate::original;
use crate::samples::smallest_recovery;
use crate::scene::FIRST_ROW;
use crate::scene_text::text;
use crate::since::{self, INVALID_SINCE, RECOVERY_LOCKED};

const NAME: &str = "lock, pairs of sinces";
const RANDOM: usize = 30_000;
/// The answer buffer.
const BUFFER: usize = 100;
/// Where the halves of the first input's since stand in a table: behind the rows of the script and of the transaction's hash,
/// an offset and GROUP.
const SINCE: usize = FIRST_ROW + 2 + 1 + 2;

/// Values of every metric.
fn values() -> Vec<u64> {
    let near = |value: u64| [value - 1, value, value + 1];
    let mut values = vec![0, LAST_VALUE - 1, LAST_VALUE];
    values.extend(
        [1, 1_000, 1 << 24, 1 << 32, 1 << 40, 1 << 55]
            .map(near)
            .concat(),
    );
    let epochs = [
        (5, 333, 1_000),
        (5, 9, 10),
        (6, 1, 10),
        (255, 4_095, 4_096),
        (256, 0, 4_096),
        (65_537, 0, LAST_LENGTH),
        (65_538, 0, LAST_LENGTH),
        (1 << 23, 0, 1),
        (5, 1, 0),
        (5, 7, 7),
        (5, LAST_LENGTH, 0),
    ];
    values.extend(epochs.map(|(number, index, length)| epoch_value(number, index, length)));
    for number in [0, LAST_NUMBER - 1, LAST_NUMBER] {
        for (index, length) in [(0, 0), (0, 1), (2, 4), (2, 1), (1, 0)] {
            values.push(epoch_value(number, index, length));
        }
        for length in [LAST_LENGTH - 1, LAST_LENGTH] {
            let indices = [0, 1, length - 2, length - 1, length];
            values.extend(indices.map(|index| epoch_value(number, index, length)));
        }
    }
    values
}

/// All epochs of small numbers.
fn small_epochs() -> Vec<u64> {
    let mut list = Vec::new();
    for number in [4, 5] {
        for index in 0..5 {
            list.extend((0..5).map(|length| sinces::epochs(number, index, length)));
        }
    }
    list
}

/// Values beside a reserved bit.
const SOME: [u64; 6] = [
    0,
    1,
    LAST_VALUE,
    epoch_value(5, 0, 0),
    epoch_value(5, 1, 2),
    epoch_value(5, 7, 7),
];

/// Every relative flag and metric with every value; with each reserved bit and with all of them, some values; and some waits
/// with each of their bits turned.
fn list() -> Vec<u64> {
    let mut list = small_epochs();
    let reserved = RESERVED.map(|bit| 1 << bit);
    let all: u64 = reserved.iter().sum();
    for flag in [0, RELATIVE] {
        for metric in 0..4 {
            let of = |value| flag | of_metric(metric, value);
            list.extend(values().into_iter().map(of));
            for bits in reserved.into_iter().chain([all]) {
                list.extend(SOME.map(|value| bits | of(value)));
            }
        }
    }
    let epoch_wait = RELATIVE | sinces::epochs(1_000, 700, 1_800);
    for wait in [1_000, epoch_wait, sinces::seconds(1_000)] {
        list.extend((0..64).map(|bit| wait ^ 1 << bit));
    }
    list.sort();
    list.dedup();
    list
}

/// The smallest recovery with one recovery_since.
struct Recovery {
    recovery_since: u64,
    lent: Lent,
    passes: Answer,
    locked: Answer,
    malformed: Answer,
}

impl Recovery {
    fn new(recovery_since: u64) -> Self {
        let original = |since| {
            let scene = smallest_recovery(recovery_since, since);
            let outcome = with_totals(&scene, original::lock(&scene));
            Answer::expected(&outcome, BUFFER)
        };
        Recovery {
            recovery_since,
            lent: Lent::read(&text(&smallest_recovery(recovery_since, 0))),
            passes: original(u64::MAX),
            locked: original(0),
            malformed: Answer::expected(&refused(INVALID_SINCE), BUFFER),
        }
    }

    fn expected(&self, since: u64) -> &Answer {
        match since::test(self.recovery_since, since).number {
            RECOVERY_LOCKED => &self.locked,
            INVALID_SINCE => &self.malformed,
            _ => &self.passes,
        }
    }

    fn run(&mut self, runs: &mut Runs, since: u64) {
        self.lent.table[SINCE] = since as u32;
        self.lent.table[SINCE + 1] = (since >> 32) as u32;
        let result = Answer::of_port(&self.lent, BUFFER);
        let input = || {
            format!(
                "recovery_since {:#x}, since {since:#x}",
                self.recovery_since
            )
        };
        runs.report.answered(NAME, result.number);
        runs.report
            .compare(NAME, 0, input, &result, self.expected(since));
    }
}

pub fn run(runs: &mut Runs) {
    let list = list();
    for recovery_since in &list {
        let mut recovery = Recovery::new(*recovery_since);
        list.iter().for_each(|since| recovery.run(runs, *since));
    }
    for _ in 0..RANDOM {
        let [recovery_since, since] = sinces::any(&mut runs.prng);
        Recovery::new(recovery_since).run(runs, since);
    }
    let numbers = [0, RECOVERY_LOCKED as u32, INVALID_SINCE as u32];
    runs.report.expect_each(NAME, &numbers, LEAST);
}
