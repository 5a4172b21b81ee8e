//! What a digest covers besides the row of the other witnesses and the operation: any other byte in it gives another digest.

use super::{set_field, Base};
use crate::changes::{one_byte, some_different};
use crate::locks::runs::Runs;
use crate::samples::{self, smallest_recovery, smallest_spend};
use crate::true_hashes;
use blake2b::ckb_hash;
use ckb_std::Scene;
use std::ops::Range;

const TRANSACTION: &str = "digest, transaction hash";
const FIELD_2: &str = "digest, field 2 of the first witness";
const FIELD_3: &str = "digest, field 3 of the first witness";
const FIELDS: &str = "digest, border of fields 2 and 3";
const ACCOUNT: &str = "digest, account";
const SEQUENCE: &str = "digest, sequence";
const STATE: &str = "digest, state";
pub const NAMES: [&str; 7] = [
    TRANSACTION,
    FIELD_2,
    FIELD_3,
    FIELDS,
    ACCOUNT,
    SEQUENCE,
    STATE,
];

/// Where the sequence stands in a state and in a witness lock, and where a witness lock stands in its witness.
const SEQUENCE_AT: usize = 8;
const LOCK_AT: usize = 20;
/// The code hash of a state's first entry.
const CODE_HASH: Range<usize> = 44..76;
/// Bytes that the checks of a state with recovery and one entry leave free: recovery_since, which a spend does not look at, the
/// slot, the code hash, the key and the aux, with the number of the smallest spend from it. An unknown slot is 22, a verifier
/// that is not there 30, both behind the digest.
const FREE: [(Range<usize>, i8); 5] = [
    (24..32, 0),
    (34..36, 22),
    (CODE_HASH, 30),
    (80..112, 0),
    (112..113, 0),
];

/// Another digest, and this number, with each byte of a part changed to some others. `put` gives a scene the part.
pub fn each_byte(
    runs: &mut Runs,
    name: &'static str,
    scene: Scene,
    part: &[u8],
    number: i8,
    put: impl Fn(&mut Scene, &[u8]),
) {
    let base = Base::new(runs, scene);
    one_byte(part, some_different, |bytes| {
        let mut other = base.scene.clone();
        put(&mut other, bytes);
        true_hashes::of_scene(&mut other);
        base.differs(runs, name, &other, number);
    });
}

fn transaction_hash(runs: &mut Runs) {
    let scene = smallest_spend();
    let hash = scene.tx_hash;
    each_byte(runs, TRANSACTION, scene, &hash, 0, |scene, bytes| {
        scene.tx_hash.copy_from_slice(bytes);
    });
}

fn with_fields([second, third]: [&[u8]; 2]) -> Scene {
    let mut scene = smallest_spend();
    set_field(&mut scene, 1, second);
    set_field(&mut scene, 2, third);
    scene
}

/// Each byte of both fields, and the same bytes split elsewhere.
fn fields(runs: &mut Runs) {
    let (second, third) = (b"second", b"third");
    for (name, place, field) in [(FIELD_2, 1, &second[..]), (FIELD_3, 2, third)] {
        let scene = with_fields([second, third]);
        each_byte(runs, name, scene, field, 0, |scene, bytes| {
            set_field(scene, place, bytes);
        });
    }
    let split = |at| with_fields(b"fields".split_at(at).into());
    for at in 0..6 {
        let base = Base::new(runs, split(at));
        for other in at + 1..=6 {
            base.differs(runs, FIELDS, &split(other), 0);
        }
    }
}

/// The id in the args, which end the script, is the hash of the type script of the state's cell.
fn account(runs: &mut Runs) {
    let scene = samples::spend();
    let type_script = scene.deps[0].type_script.clone().expect("a type script");
    each_byte(runs, ACCOUNT, scene, &type_script, 0, |scene, bytes| {
        let id = scene.script.len() - 32;
        scene.script[id..].copy_from_slice(&ckb_hash(bytes));
        scene.deps[0].type_script = Some(bytes.to_vec());
    });
}

/// The sequence of the state and, as it has to be the same, of the witness lock.
fn sequence(runs: &mut Runs) {
    let part = samples::SEQUENCE.to_le_bytes();
    let scene = smallest_spend();
    each_byte(runs, SEQUENCE, scene, &part, 0, |scene, bytes| {
        scene.deps[0].data[SEQUENCE_AT..][..8].copy_from_slice(bytes);
        scene.witnesses[0][LOCK_AT + SEQUENCE_AT..][..8].copy_from_slice(bytes);
    });
}

/// The smallest spend from a state with recovery.
fn spend_with_recovery() -> Scene {
    let recovery = smallest_recovery(1_000, 1_000);
    Scene {
        deps: vec![recovery.inputs[0].cell.clone()],
        ..smallest_spend()
    }
}

fn state(runs: &mut Runs) {
    for (range, number) in FREE {
        let scene = spend_with_recovery();
        let part = scene.deps[0].data[range.clone()].to_vec();
        each_byte(runs, STATE, scene, &part, number, |scene, bytes| {
            scene.deps[0].data[range.clone()].copy_from_slice(bytes);
        });
    }
    let scene = samples::spend();
    let verifier = scene.deps[1].data.clone();
    each_byte(runs, STATE, scene, &verifier, 0, |scene, bytes| {
        scene.deps[0].data[CODE_HASH].copy_from_slice(&ckb_hash(bytes));
        scene.deps[1].data = bytes.to_vec();
    });
}

pub fn run(runs: &mut Runs) {
    transaction_hash(runs);
    fields(runs);
    account(runs);
    sequence(runs);
    state(runs);
}
