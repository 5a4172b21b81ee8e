//! "The border between group and extra witnesses isn't marked": inputs of the group, put behind the inputs of a scene, make
//! extra witnesses the group's, and sighash and digest stay. Foreign inputs there take them out of the row.

use super::Base;
use crate::exports_transaction::canonical_group_sighash;
use crate::hex::Hex;
use crate::lent::Lent;
use crate::locks::assembly::plain_input;
use crate::locks::faults::build;
use crate::locks::plan::Plan;
use crate::locks::runs::Runs;
use crate::prng::Prng;
use crate::samples::spend_with_row;
use crate::scene_text::text;
use ckb_std::Scene;

const GROUP: &str = "digest, extra witnesses or the group's";
const FOREIGN: &str = "digest, extra witnesses or foreign ones";
const SIGHASH: &str = "sighash, extra witnesses or the group's";
const SPEND: &str = "border: in a spend";
const ROTATION: &str = "border: in a rotation";
const RECOVERY: &str = "border: in a recovery";
const LACKING: &str = "border: more inputs than witnesses";
const OPERATIONS: [&str; 3] = [SPEND, ROTATION, RECOVERY];
pub const NAMES: [&str; 6] = [GROUP, FOREIGN, SPEND, ROTATION, RECOVERY, LACKING];
/// Random plans of each operation and number of inputs.
const TURNS: usize = 100;
/// The most inputs that are added.
const MOST: usize = 3;

/// The sighash by the exported function, with its number.
fn sighash(scene: &Scene) -> (u32, Hex) {
    let lent = Lent::read(&text(scene));
    let mut out = vec![0; 32];
    let number = canonical_group_sighash(&lent.table, &lent.store, &mut out);
    (number, Hex(out))
}

/// One sighash and one digest.
fn same(runs: &mut Runs, base: &Base, other: &Scene) {
    let [(first, hash), second] = [&base.scene, other].map(sighash);
    let input = || format!("{:?}", String::from_utf8_lossy(&text(other)));
    runs.report
        .compare(SIGHASH, 0, input, &(first, second), &(0, (0, hash)));
    base.same(runs, GROUP, other, Some(0));
}

/// The scene with inputs behind its own that have no type script, so that the account's state is found as before.
fn with_inputs(prng: &mut Prng, scene: &Scene, count: usize, group: bool) -> Scene {
    let mut scene = scene.clone();
    for _ in 0..count {
        let mut input = plain_input(prng, group);
        (input.cell.type_hash, input.cell.type_script) = (None, None);
        scene.inputs.push(input);
    }
    scene
}

/// Rows of empty, short and long witnesses, with every border.
fn small(runs: &mut Runs) {
    for witness in [vec![], vec![1], vec![2; 300]] {
        for length in 1..=MOST {
            let mut row = vec![vec![3, 4]; length];
            row[0] = witness.clone();
            let base = Base::new(runs, spend_with_row(&row, 0));
            for group in 1..=length {
                same(runs, &base, &spend_with_row(&row, group));
                let foreign = with_inputs(&mut runs.prng, &base.scene, group, false);
                base.differs(runs, FOREIGN, &foreign, 0);
            }
        }
    }
}

/// A scene with one to four extra witnesses.
fn random(runs: &mut Runs, operation: u8) -> Base {
    let prng = &mut runs.prng;
    let entries = 1 + prng.up_to(1);
    let plan = Plan::full(prng, operation, entries);
    let mut scene = build(prng, plan, &[]);
    scene.witnesses.resize(scene.inputs.len(), vec![]);
    for _ in 0..=prng.up_to(3) {
        let length = prng.up_to(20);
        scene.witnesses.push(prng.bytes(length));
    }
    Base::new(runs, scene)
}

pub fn run(runs: &mut Runs) {
    small(runs);
    for (operation, kind) in (1..).zip(OPERATIONS) {
        for count in 1..=MOST {
            for _ in 0..TURNS {
                let base = random(runs, operation);
                let group = with_inputs(&mut runs.prng, &base.scene, count, true);
                runs.report.meet(kind);
                if group.witnesses.len() < group.inputs.len() {
                    runs.report.meet(LACKING);
                }
                same(runs, &base, &group);
                let foreign = with_inputs(&mut runs.prng, &base.scene, count, false);
                base.differs(runs, FOREIGN, &foreign, 0);
            }
        }
    }
}
