//! Every reader and writer of the formats beside the original.

mod args;
pub mod calls;
mod held;
mod long_aux;
mod proof;
mod request;
mod session;
mod state;
mod state_faults;
mod state_walk;
pub mod states;
mod witness;
mod witness_walk;
pub mod witnesses;

use crate::prng::Prng;
use crate::report::Report;
use calls::Calls;

/// How often each number is met at least.
const LEAST: usize = 20;
/// The numbers that each function can answer.
const ANSWERS: [(&str, &[u32]); 21] = [
    ("is_supported_algorithm", &[0, 1]),
    ("capability_for_operation", &[0, 5, 37]),
    ("parse_args", &[0, 5, 20, 32]),
    ("account_lock_args", &[0, 5, 7]),
    ("parse_state_header", &[0, 5, 21, 32]),
    ("validate_state", &[0, 5, 21, 30, 32, 33, 38, 44]),
    ("next_entry", &[0, 5, 21, 30, 33, 44]),
    ("encode_state", &[0, 5, 7, 21, 30, 33, 38, 44]),
    ("parse_witness_header", &[0, 5, 22]),
    ("validate_witness", &[0, 5, 22]),
    ("next_proof", &[0, 5, 22]),
    ("encode_witness", &[0, 5, 7, 22, 37]),
    ("parse_verifier_request", &[0, 5, 32, 35, 37]),
    ("encode_verifier_request", &[0, 5, 7, 35, 37]),
    ("parse_public_key_proof", &[0, 5, 36]),
    ("encode_public_key_proof", &[0, 5, 36, 39]),
    ("request_numbers", &[0, 5, 32, 35, 37]),
    ("request_authorization_digest", &[0, 5, 32, 35, 37]),
    ("request_key_id", &[0, 5, 32, 35, 37]),
    ("request_aux", &[0, 5, 32, 35, 37]),
    ("request_proof", &[0, 5, 32, 35, 37]),
];

pub fn run(report: &mut Report) {
    let prng = Prng::new(2);
    let mut calls = Calls { report, prng };
    args::run(&mut calls);
    state::run(&mut calls);
    witness::run(&mut calls);
    request::run(&mut calls);
    proof::run(&mut calls);
    for (name, answers) in ANSWERS {
        report.expect_each(name, answers, LEAST);
    }
}
