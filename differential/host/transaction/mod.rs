//! The molecule tables and the hashes of a transaction beside the original.

mod covered;
mod digest;
mod scenes;
mod sighash;
mod tables;
mod witnesses;

use crate::formats::calls::Calls;
use crate::prng::Prng;
use crate::report::Report;

/// The numbers that each function can answer; a run meets all of them.
const ANSWERS: [(&str, &[u32]); 5] = [
    ("witness_lock", &[0, 5, 22]),
    ("script_args", &[0, 5, 20]),
    ("canonical_witness", &[0, 5, 22]),
    ("authorization_digest", &[0, 5, 7, 37]),
    ("canonical_group_sighash", &[0, 5, 7, 22]),
];

pub fn run(report: &mut Report) {
    let prng = Prng::new(3);
    let mut calls = Calls { report, prng };
    witnesses::run(&mut calls);
    digest::run(&mut calls);
    sighash::run(&mut calls);
    covered::run(&mut calls);
    for (name, answers) in ANSWERS {
        report.expect_answers(name, answers);
    }
}
