//! Kinds of totals that scenes have, to count how often the lock meets each.

use crate::capacity::{Totals, LAST, LENGTH_OVERFLOW, OUTPUTS_EXCEED_INPUTS};
use ckb_std::Scene;

/// Kinds that the lock comes to, and which totals are of each.
const TOTALS: [(&str, fn(Totals) -> bool); 15] = [
    ("capacity: inputs' total alone above 2^64-1", |t| {
        t.inputs > LAST && t.outputs <= LAST
    }),
    ("capacity: outputs' total alone above 2^64-1", |t| {
        t.inputs <= LAST && t.outputs > LAST
    }),
    ("capacity: both totals above 2^64-1", |t| {
        t.inputs > LAST && t.outputs > LAST
    }),
    ("capacity: inputs' total 2^64", |t| t.inputs == LAST + 1),
    ("capacity: outputs' total 2^64", |t| t.outputs == LAST + 1),
    ("capacity: inputs' total 2^64-1", |t| t.inputs == LAST),
    ("capacity: outputs' total 2^64-1", |t| t.outputs == LAST),
    ("capacity: outputs one above inputs", |t| {
        t.fee() == Err(OUTPUTS_EXCEED_INPUTS) && t.outputs == t.inputs + 1
    }),
    ("capacity: outputs more above inputs", |t| {
        t.fee() == Err(OUTPUTS_EXCEED_INPUTS) && t.outputs > t.inputs + 1
    }),
    ("capacity: fee 0", |t| t.fee() == Ok(0)),
    ("capacity: fee 1", |t| t.fee() == Ok(1)),
    ("capacity: a greater fee", |t| {
        t.fee().is_ok_and(|fee| fee > 1)
    }),
    ("capacity: fee 2^64-1", |t| t.fee() == Ok(u64::MAX)),
    ("capacity: 39 that passes by sums that wrap", |t| {
        t.fee() == Err(LENGTH_OVERFLOW) && wrapped(t).fee().is_ok()
    }),
    ("capacity: 39 that is 48 by sums that wrap", |t| {
        t.fee() == Err(LENGTH_OVERFLOW) && wrapped(t).fee().is_err()
    }),
];

/// What sums of 64 bits would be.
fn wrapped(totals: Totals) -> Totals {
    Totals {
        inputs: totals.inputs & LAST,
        outputs: totals.outputs & LAST,
    }
}

const NO_OUTPUT: &str = "capacity: accepted without an output";
const FOREIGN_REFUSED: &str = "capacity: refused for a foreign input's";
const FOREIGN_ACCEPTED: &str = "capacity: accepted for a foreign input's";
/// Totals that fail behind a refusal of an earlier row.
const BEHIND: [&str; 3] = [
    "capacity: totals that fail, behind 28",
    "capacity: totals that fail, behind 31",
    "capacity: totals that fail, behind another number",
];

pub fn kinds() -> Vec<&'static str> {
    let others = [NO_OUTPUT, FOREIGN_REFUSED, FOREIGN_ACCEPTED];
    let totals = TOTALS.iter().map(|(name, _)| *name);
    totals.chain(others).chain(BEHIND).collect()
}

/// The totals without foreign inputs.
fn of_group(scene: &Scene) -> Totals {
    let mut scene = scene.clone();
    scene.inputs.retain(|input| input.group);
    Totals::of(&scene)
}

/// The kinds of a scene that the lock answers with this number.
pub fn met(scene: &Scene, number: i8) -> Vec<&'static str> {
    let totals = Totals::of(scene);
    if ![0, LENGTH_OVERFLOW, OUTPUTS_EXCEED_INPUTS].contains(&number) {
        let behind = match number {
            28 => BEHIND[0],
            31 => BEHIND[1],
            _ => BEHIND[2],
        };
        let fails = totals.fee().is_err();
        return fails.then_some(behind).into_iter().collect();
    }
    let kinds = TOTALS.iter().filter(|(_, is)| is(totals));
    let mut kinds: Vec<&str> = kinds.map(|(name, _)| *name).collect();
    match (totals.fee(), of_group(scene).fee()) {
        (Ok(_), Err(_)) => kinds.push(FOREIGN_ACCEPTED),
        (Err(_), Ok(_)) => kinds.push(FOREIGN_REFUSED),
        _ => {}
    }
    if number == 0 && scene.outputs.is_empty() {
        kinds.push(NO_OUTPUT);
    }
    kinds
}
