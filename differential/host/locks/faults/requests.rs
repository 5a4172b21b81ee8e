//! The rows of requests, verdicts and thresholds.

use super::parts::{set, shorten};
use super::proofs::second;
use super::Made::{AllBut, Nothing, Requests};
use super::{on_plan, row, Fault, Part, Row, ALL};
use crate::locks::plan::Plan;
use crate::prng::Prng;

/// An aux for the first entry and a proof of it, of these lengths.
fn lengths(plan: &mut Plan, prng: &mut Prng, aux: usize, proof: usize) {
    plan.state.authenticators[0].aux = prng.bytes(aux);
    if let Some(first) = plan.lock.proofs.first_mut() {
        first.bytes = prng.bytes(proof);
    }
}

/// An aux about the limit of a state, and above that of a request: the state is refused.
fn aux_rows() -> Vec<Row> {
    let aux = |number, name, change| on_plan(number, ALL, name, change);
    vec![
        aux(0, "aux 2,593", |plan, prng| lengths(plan, prng, 2_593, 9)).made(AllBut(0)),
        aux(44, "aux 2,594", |plan, prng| lengths(plan, prng, 2_594, 9)).made(Nothing),
        aux(44, "aux 4,096", |plan, prng| lengths(plan, prng, 4_096, 9)).made(Nothing),
        aux(44, "aux 4,097", |plan, prng| lengths(plan, prng, 4_097, 9)).made(Nothing),
    ]
}

/// Proofs as long as a request takes and longer. With the longest aux of a state the longest request has 68,225 bytes.
fn proof_rows() -> Vec<Row> {
    let long = |number, name, change| on_plan(number, ALL, name, change).long();
    vec![
        long(0, "proof 65,536", |plan, prng| {
            lengths(plan, prng, 9, 65_536)
        })
        .made(AllBut(0)),
        long(35, "proof 65,537", |plan, prng| {
            lengths(plan, prng, 9, 65_537)
        })
        .made(Requests(0)),
        long(35, "last proof 65,537", |plan, prng| {
            if let [_, .., last] = &mut plan.lock.proofs[..] {
                last.bytes = prng.bytes(65_537);
            }
        })
        .made(AllBut(1)),
        long(35, "one proof that fills the lock", |plan, prng| {
            lengths(plan, prng, 9, 131_048);
            plan.lock.proofs.truncate(1);
        })
        .made(Requests(0)),
        long(0, "request of 68,225", |plan, prng| {
            lengths(plan, prng, 2_593, 65_536)
        })
        .made(AllBut(0)),
        long(35, "aux 2,593, proof 65,537", |plan, prng| {
            lengths(plan, prng, 2_593, 65_537)
        })
        .made(Requests(0)),
    ]
}

/// Both: the aux comes first, with its state.
fn aux_and_proof_rows() -> Vec<Row> {
    let long = |name, change| on_plan(44, ALL, name, change).made(Nothing).long();
    vec![
        long("aux 2,594, proof 65,536", |plan, prng| {
            lengths(plan, prng, 2_594, 65_536)
        }),
        long("aux 4,096, proof 65,536", |plan, prng| {
            lengths(plan, prng, 4_096, 65_536)
        }),
        long("aux 4,097, proof 65,535", |plan, prng| {
            lengths(plan, prng, 4_097, 65_535)
        }),
        long("aux 4,097, proof 65,536", |plan, prng| {
            lengths(plan, prng, 4_097, 65_536)
        }),
        long("aux 5,000, proof 65,536", |plan, prng| {
            lengths(plan, prng, 5_000, 65_536)
        }),
        long("aux 5,000, proof 65,537", |plan, prng| {
            lengths(plan, prng, 5_000, 65_537)
        }),
    ]
}

fn verdict_rows() -> Vec<Row> {
    let failed = Fault::Plan(|plan, _| set(&mut plan.verdicts, 0, 2));
    let on_lock = |change| Fault::Bytes(Part::Lock, change);
    vec![
        row(31, ALL, "first verdict 2", failed).made(Requests(1)),
        on_plan(31, ALL, "last verdict 2", |plan, _| {
            plan.verdicts
                .iter_mut()
                .last()
                .into_iter()
                .for_each(|digit| *digit = 2);
        })
        .made(AllBut(0)),
        on_plan(31, ALL, "no verdicts", |plan, _| plan.verdicts.clear()).made(Requests(1)),
        on_plan(31, ALL, "a verdict short", |plan, _| {
            shorten(&mut plan.verdicts)
        })
        .made(AllBut(0)),
        on_plan(0, ALL, "spare verdicts", |plan, _| {
            plan.verdicts.resize(16, 2)
        })
        .made(AllBut(0)),
        row(31, ALL, "verdict 2 before a proof's zeros", failed)
            .made(Requests(1))
            .and(on_lock(|lock, _| {
                let at = second(lock);
                set(lock, at + 2, 1);
            })),
        row(
            22,
            ALL,
            "a byte behind the last proof",
            on_lock(|lock, _| lock.push(0)),
        )
        .made(AllBut(0)),
        row(
            22,
            ALL,
            "a proof less counted",
            on_lock(|lock, _| {
                let count = lock.get(6).map_or(0, |count| count.saturating_sub(1));
                set(lock, 6, count);
            }),
        )
        .made(AllBut(1)),
        on_plan(22, ALL, "refused, with a byte behind", |plan, _| {
            plan.verdicts.fill(1)
        })
        .made(AllBut(0))
        .and(on_lock(|lock, _| lock.push(0))),
    ]
}

/// Every threshold as high as the whole weight.
fn demand_all(plan: &mut Plan) {
    let weights = plan.state.authenticators.iter().map(|auth| auth.weight);
    let sum = weights.fold(0u16, u16::saturating_add);
    plan.state.spend_threshold = sum;
    plan.state.rotate_threshold = sum;
    if plan.state.flags & 1 == 1 {
        plan.state.recovery_threshold = sum;
    }
}

fn threshold_rows() -> Vec<Row> {
    vec![
        on_plan(28, ALL, "no proofs", |plan, _| plan.lock.proofs.clear()).made(Requests(0)),
        on_plan(28, ALL, "every verdict 1", |plan, _| plan.verdicts.fill(1)).made(AllBut(0)),
        on_plan(0, ALL, "the whole weight", |plan, _| demand_all(plan)).made(AllBut(0)),
        on_plan(
            28,
            ALL,
            "one verdict 1 of the whole weight",
            |plan, prng| {
                demand_all(plan);
                let refused = prng.up_to(plan.verdicts.len().max(1) - 1);
                plan.verdicts
                    .iter_mut()
                    .skip(refused)
                    .take(1)
                    .for_each(|digit| *digit = 1);
            },
        )
        .made(AllBut(0)),
        on_plan(28, ALL, "one proof short of the whole weight", |plan, _| {
            demand_all(plan);
            plan.lock.proofs.pop();
        })
        .made(AllBut(1)),
    ]
}

pub fn rows() -> Vec<Row> {
    let mut rows = aux_rows();
    rows.extend(proof_rows());
    rows.extend(aux_and_proof_rows());
    rows.extend(verdict_rows());
    rows.extend(threshold_rows());
    rows
}
