//! Faults, and what document 01 says of each, row by row of its table "Where each refusal is raised", with the rows that
//! changes 1, 4, 9 and 10 of document 02 put into it and the limit that change 6 puts into a state's checks. A row with number
//! 0 is a limit that still passes.

mod build;
mod capacity;
mod capacity_order;
mod cells;
mod hash_changes;
mod hashes;
mod long_aux;
mod long_aux_order;
mod order;
mod parts;
mod proofs;
mod requests;
mod script;
mod session;
mod session_order;
mod session_own;
mod states;
mod transition;
mod waits;
mod waits_order;
mod witness;

use super::capacities::Wanted;
use super::plan::Plan;
use crate::cell_hashes::Place;
use crate::prng::Prng;
use ckb_std::{Cell, Scene};

pub use build::build;
pub use capacity_order::any as any_totals;
pub use hashes::any as any_hash;
pub use long_aux::about_limit;
pub use parts::damage;
pub use session::about_session;

/// A part of the scene that has bytes of its own.
#[derive(Clone, Copy)]
pub enum Part {
    Args,
    Script,
    Lock,
    Witness,
    State,
    Successor,
}

type OnPlan = fn(&mut Plan, &mut Prng);
type OnBytes = fn(&mut Vec<u8>, &mut Prng);
type OnScene = fn(&mut Scene, &Plan, &mut Prng);
type OnCell = fn(&mut Cell, &mut Prng);

#[derive(Clone, Copy)]
pub enum Fault {
    Plan(OnPlan),
    /// A recovery_since, if the state has one, and the since of the input that holds the state. Made behind those of a plan.
    Waits(u64, u64),
    Bytes(Part, OnBytes),
    Scene(OnScene),
    /// Of any cell that stands there; a plain one is added where there is none.
    Cell(Place, OnCell),
    /// Of a plain cell that is added there.
    NewCell(Place, OnCell),
    /// Totals of capacities, the last ones counting. Lines for them are added before the faults of a scene, and the capacities
    /// are given behind those. Without this fault they are such that pass.
    Totals(Wanted),
}

/// Faults that are made together, and the lock's number for them.
pub struct Row {
    pub name: String,
    pub operations: &'static [u8],
    pub number: i8,
    pub faults: Vec<Fault>,
    /// Whether the scene is long.
    pub long: bool,
    /// What document 01 says of requests and digest, where that is checked too.
    pub made: Option<Made>,
    /// The fee, where that is checked too.
    pub fee: Option<u64>,
}

/// The requests that are made, of a plan in which every entry gives a proof.
#[derive(Clone, Copy)]
pub enum Made {
    /// None, and no digest is reached.
    Nothing,
    /// So many, the digest being reached.
    Requests(usize),
    /// All but so many.
    AllBut(usize),
}

impl Made {
    /// The number of requests, and whether there is a digest.
    pub fn of(self, proofs: usize) -> (usize, bool) {
        match self {
            Made::Nothing => (0, false),
            Made::Requests(count) => (count, true),
            Made::AllBut(count) => (proofs - count, true),
        }
    }
}

const ALL: &[u8] = &[1, 2, 3];
const SPEND: &[u8] = &[1];
/// Operations with a successor.
const CHANGING: &[u8] = &[2, 3];
const RECOVERY: &[u8] = &[3];

fn row(number: i8, operations: &'static [u8], name: &str, fault: Fault) -> Row {
    Row {
        name: name.into(),
        operations,
        number,
        faults: vec![fault],
        long: false,
        made: None,
        fee: None,
    }
}

fn on_plan(number: i8, operations: &'static [u8], name: &str, change: OnPlan) -> Row {
    row(number, operations, name, Fault::Plan(change))
}

fn on_scene(number: i8, operations: &'static [u8], name: &str, change: OnScene) -> Row {
    row(number, operations, name, Fault::Scene(change))
}

impl Row {
    fn and(mut self, fault: Fault) -> Self {
        self.faults.push(fault);
        self
    }

    fn long(mut self) -> Self {
        self.long = true;
        self
    }

    fn made(mut self, made: Made) -> Self {
        self.made = Some(made);
        self
    }

    /// The fee of these totals, where they are accepted.
    fn fee(mut self, wanted: Wanted) -> Self {
        let accepted = self.number == 0;
        self.fee = accepted.then(|| (wanted.inputs - wanted.outputs) as u64);
        self
    }
}

pub fn rows() -> Vec<Row> {
    let mut rows = Vec::new();
    rows.extend(script::rows());
    rows.extend(witness::rows());
    rows.extend(cells::rows());
    rows.extend(states::rows());
    rows.extend(session::rows());
    rows.extend(transition::rows());
    rows.extend(waits::rows());
    rows.extend(hashes::rows());
    rows.extend(long_aux::rows());
    rows.extend(long_aux_order::rows());
    rows.extend(session_own::rows());
    rows.extend(session_order::rows());
    rows.extend(waits_order::rows());
    // These come before the digest.
    for row in rows.iter_mut().filter(|row| row.number != 0) {
        row.made = Some(Made::Nothing);
    }
    rows.extend(proofs::rows());
    rows.extend(requests::rows());
    rows.extend(capacity::rows());
    rows.extend(capacity_order::rows());
    rows
}
