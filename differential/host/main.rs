//! Runs the port beside the original and compares. A comparison is a module with a function `run`. The lock is measured by
//! document 02's test of hashes first, states by its limit of an aux, successors by its row of sessions, waiting periods by its
//! rows of them where these answer otherwise than the original, and what passes all of these by its totals of capacities.
//! `originals` is set where the original files are at hand; what needs none runs without them too.
//! Without arguments all is compared; `--long` takes many more random scenes of the lock. `--record FILE` writes scenes
//! with their answers into a file, and `--samples FOLDER` sample scenes into a folder. `--fuzz`, with limits
//! behind it, compares recorded scenes that are changed at random, and nothing else.

#[cfg(originals)]
mod account;
#[cfg(originals)]
mod aux_limit;
#[cfg(originals)]
mod capacity;
#[cfg(originals)]
mod capacity_kinds;
#[cfg(originals)]
mod cell_hashes;
#[cfg_attr(not(originals), allow(dead_code))]
mod changes;
#[cfg_attr(not(originals), allow(dead_code))]
mod exports;
#[cfg(originals)]
mod exports_request;
#[cfg(originals)]
mod exports_transaction;
#[cfg(originals)]
mod formats;
#[cfg_attr(not(originals), allow(dead_code))]
#[path = "../../include/fowlcredenza.rs"]
mod fowlcredenza;
#[cfg(originals)]
mod fuzz;
mod hash;
mod hex;
mod lent;
#[cfg(originals)]
mod lent_state;
#[cfg(originals)]
mod locks;
#[cfg(originals)]
mod measure;
#[cfg(originals)]
mod original;
mod prng;
mod report;
#[cfg(originals)]
mod samples;
mod scene;
#[cfg_attr(not(originals), allow(dead_code))]
mod scene_exports;
mod scene_text;
mod scenes;
#[cfg(originals)]
mod session;
#[cfg(originals)]
mod since;
#[cfg(originals)]
mod smoke;
mod table;
mod test_exports;
#[cfg(originals)]
mod transaction;
#[cfg(originals)]
mod true_hashes;
mod vectors;

use report::Report;
use std::process::ExitCode;

/// Prints what was compared.
fn print(report: &Report) -> ExitCode {
    if report.print() {
        ExitCode::SUCCESS
    } else {
        ExitCode::FAILURE
    }
}

fn compare(long: bool) -> ExitCode {
    let mut report = Report::new();
    vectors::run(&mut report);
    #[cfg(originals)]
    smoke::run(&mut report);
    hash::run(&mut report);
    #[cfg(originals)]
    formats::run(&mut report);
    #[cfg(originals)]
    transaction::run(&mut report);
    scenes::run(&mut report);
    #[cfg(originals)]
    locks::run(&mut report, long);
    #[cfg(originals)]
    fuzz::run(&mut report, &fuzz::Limits::counted());
    #[cfg(not(originals))]
    let _ = long;
    print(&report)
}

#[cfg(originals)]
fn only_fuzz(limits: &[&str]) -> ExitCode {
    let Some(limits) = fuzz::Limits::of(limits) else {
        eprintln!("host: --fuzz takes --seconds, --count and --seed, each with a number");
        return ExitCode::FAILURE;
    };
    let mut report = Report::new();
    fuzz::run(&mut report, &limits);
    print(&report)
}

/// Whether a file was written.
#[cfg(originals)]
fn written(result: std::io::Result<()>) -> ExitCode {
    match result {
        Ok(()) => ExitCode::SUCCESS,
        Err(error) => {
            eprintln!("host: {error}");
            ExitCode::FAILURE
        }
    }
}

fn main() -> ExitCode {
    let arguments: Vec<String> = std::env::args().skip(1).collect();
    let arguments: Vec<&str> = arguments.iter().map(String::as_str).collect();
    match arguments[..] {
        [] => compare(false),
        ["--long"] => compare(true),
        #[cfg(originals)]
        ["--record", file] => written(locks::record::record(file)),
        #[cfg(originals)]
        ["--samples", folder] => written(locks::sample_files::write(folder)),
        #[cfg(originals)]
        ["--fuzz", ref limits @ ..] => only_fuzz(limits),
        #[cfg(not(originals))]
        ["--record" | "--samples" | "--fuzz", ..] => {
            eprintln!("host: --record, --samples and --fuzz need the original files (ORIGINAL names their folder)");
            ExitCode::FAILURE
        }
        _ => {
            eprintln!("host: takes nothing, --long, --record FILE, --samples FOLDER or --fuzz");
            ExitCode::FAILURE
        }
    }
}
