//! Scenes that differ only inside the lock field of the first group witness: one digest with one operation, and another with
//! another.

use super::{set_field, Base};
use crate::formats::witnesses::{layout, Witness};
use crate::locks::assembly::first_group;
use crate::locks::faults::build;
use crate::locks::plan::Plan;
use crate::locks::runs::Runs;
use crate::prng::Prng;
use crate::samples::{self, smallest_recovery, smallest_spend, spend_with_proof};
use ckb_account_host::Proof;
use ckb_account_protocol::{parse_proofs, parse_witness_header, OP_RECOVERY, OP_ROTATE};
use ckb_std::Scene;
use ckb_types::molecule::{byte_vector, table_fields};

const FIELD: &str = "digest, other lock field";
const OPERATION: &str = "digest, operation";
const SPEND: &str = "lock field: of a spend";
const ROTATION: &str = "lock field: of a rotation";
const RECOVERY: &str = "lock field: of a recovery";
const OPERATIONS: [&str; 3] = [SPEND, ROTATION, RECOVERY];
pub const NAMES: [&str; 5] = [FIELD, OPERATION, SPEND, ROTATION, RECOVERY];
/// Random plans of each change and operation.
const TURNS: usize = 100;
const HEADER: usize = 16;

/// Another lock with the same operation and sequence.
struct Change {
    name: &'static str,
    /// Where the change settles it.
    number: Option<i8>,
    lock: fn(&Witness, &mut Prng) -> Vec<u8>,
}

const CHANGES: [Change; 7] = [
    Change {
        name: "lock field: other proof bytes",
        number: Some(0),
        lock: |lock, prng| {
            let mut other = |byte: &mut u8| *byte ^= 1 + prng.up_to(254) as u8;
            with_proofs(lock, |bytes| bytes.iter_mut().for_each(&mut other))
        },
    },
    Change {
        name: "lock field: longer proofs",
        number: Some(0),
        lock: |lock, prng| {
            with_proofs(lock, |bytes| {
                let more = 1 + prng.up_to(30);
                bytes.extend(prng.bytes(more));
            })
        },
    },
    Change {
        name: "lock field: shorter proofs",
        number: Some(0),
        lock: |lock, _| with_proofs(lock, |bytes| bytes.truncate(bytes.len().div_ceil(2))),
    },
    Change {
        name: "lock field: proofs of no bytes",
        number: Some(22),
        lock: |lock, _| with_proofs(lock, Vec::clear),
    },
    Change {
        name: "lock field: no proof",
        number: Some(28),
        lock: |lock, _| {
            let proofs = Vec::new();
            layout(&Witness {
                proofs,
                ..lock.clone()
            })
        },
    },
    Change {
        name: "lock field: a byte behind the proofs",
        number: Some(22),
        lock: |lock, prng| [layout(lock), prng.bytes(1)].concat(),
    },
    Change {
        name: "lock field: any bytes behind the header",
        number: None,
        lock: |lock, prng| {
            let mut bytes = layout(lock)[..HEADER].to_vec();
            bytes[6] = prng.up_to(16) as u8;
            let length = prng.up_to(60);
            bytes.extend(prng.bytes(length));
            bytes
        },
    },
];

pub fn kinds() -> [&'static str; 7] {
    CHANGES.map(|change| change.name)
}

fn with_proofs(lock: &Witness, mut change: impl FnMut(&mut Vec<u8>)) -> Vec<u8> {
    let mut lock = lock.clone();
    let proofs = lock.proofs.iter_mut();
    proofs.for_each(|proof| change(&mut proof.bytes));
    layout(&lock)
}

/// The witness lock of an accepted scene.
fn witness_lock(scene: &Scene) -> Witness {
    let witness = &scene.witnesses[first_group(&scene.inputs)];
    let [field, _, _] = table_fields(witness).expect("a table of three fields");
    let (lock, mut proofs) = (&field[4..], Vec::new());
    let header = parse_witness_header(lock).expect("a header");
    let walk = parse_proofs(lock, &header, |slot, bytes| {
        let bytes = bytes.to_vec();
        proofs.push(Proof { slot, bytes });
        Ok(())
    });
    walk.expect("proofs");
    Witness {
        operation: header.operation,
        sequence: header.state_sequence,
        proofs,
    }
}

fn with_lock(scene: &Scene, lock: &[u8]) -> Scene {
    let mut scene = scene.clone();
    set_field(&mut scene, 0, &byte_vector(lock));
    scene
}

/// One digest with a changed lock. Proofs of one byte are not made shorter.
fn changed(runs: &mut Runs, base: &Base, change: &Change) {
    let lock = witness_lock(&base.scene);
    let other = (change.lock)(&lock, &mut runs.prng);
    if other != layout(&lock) {
        let other = with_lock(&base.scene, &other);
        runs.report.meet(change.name);
        base.same(runs, FIELD, &other, change.number);
    }
}

/// A recovery with the operation of a rotation, which it passes as well.
fn as_rotation(scene: &Scene) -> Scene {
    let lock = Witness {
        operation: OP_ROTATE,
        ..witness_lock(scene)
    };
    with_lock(scene, &layout(&lock))
}

fn random(runs: &mut Runs, operation: u8) -> Base {
    let entries = 1 + runs.prng.up_to(2);
    let plan = Plan::full(&mut runs.prng, operation, entries);
    let scene = build(&mut runs.prng, plan, &[]);
    Base::new(runs, scene)
}

fn one_operation(runs: &mut Runs) {
    let recovery = smallest_recovery(1_000, 1_000);
    for scene in [
        smallest_spend(),
        spend_with_proof(&[0xaa, 0xbb]),
        samples::spend(),
        as_rotation(&recovery),
        recovery,
    ] {
        let base = Base::new(runs, scene);
        for change in &CHANGES {
            changed(runs, &base, change);
        }
    }
    for (operation, kind) in (1..).zip(OPERATIONS) {
        for change in &CHANGES {
            for _ in 0..TURNS {
                let base = random(runs, operation);
                runs.report.meet(kind);
                changed(runs, &base, change);
            }
        }
    }
}

fn other_operation(runs: &mut Runs) {
    let mut bases = vec![Base::new(runs, smallest_recovery(1_000, 1_000))];
    bases.extend((0..TURNS).map(|_| random(runs, OP_RECOVERY)));
    for base in bases {
        base.differs(runs, OPERATION, &as_rotation(&base.scene), 0);
    }
}

pub fn run(runs: &mut Runs) {
    one_operation(runs);
    other_operation(runs);
}
