//! The row of the witnesses behind the first: those of the group, then the extra ones. Other bytes in it, the same bytes split
//! elsewhere, or an empty witness more give another digest.

use super::parts::each_byte;
use super::Base;
use crate::locks::runs::Runs;
use crate::samples::spend_with_row;
use ckb_std::Scene;

const GROUP: &str = "digest, another group witness";
const EXTRA: &str = "digest, an extra witness";
const SPLIT: &str = "digest, border of two witnesses";
const MORE: &str = "digest, an empty witness more";
pub const NAMES: [&str; 4] = [GROUP, EXTRA, SPLIT, MORE];
/// The most witnesses of a row.
const MOST: usize = 3;

/// Each byte of a witness behind the first.
fn bytes(runs: &mut Runs) {
    for (name, group) in [(GROUP, 1), (EXTRA, 0)] {
        let witness = b"witness";
        let scene = spend_with_row(&[witness.to_vec()], group);
        each_byte(runs, name, scene, witness, 0, |scene, bytes| {
            scene.witnesses[1] = bytes.to_vec();
        });
    }
}

/// Two witnesses of the same bytes, of the group, one of them, or extra ones.
fn splits(runs: &mut Runs) {
    let split = |at, group| {
        let (first, second) = b"bytes".split_at(at);
        spend_with_row(&[first.to_vec(), second.to_vec()], group)
    };
    for group in 0..=2 {
        for at in 0..5 {
            let base = Base::new(runs, split(at, group));
            for other in at + 1..=5 {
                base.differs(runs, SPLIT, &split(other, group), 0);
            }
        }
    }
}

/// A row with an empty witness more at each place.
fn more(runs: &mut Runs) {
    for length in 0..=MOST {
        let row: Vec<Vec<u8>> = (0..length).map(|place| vec![place as u8]).collect();
        for group in 0..=length {
            let base = Base::new(runs, spend_with_row(&row, group));
            for place in 0..=length {
                let mut other = row.clone();
                other.insert(place, vec![]);
                base.differs(runs, MORE, &spend_with_row(&other, group), 0);
            }
        }
    }
}

/// An input of the group without a witness, and with an empty one.
fn missing(runs: &mut Runs) {
    let with = spend_with_row(&[vec![]], 1);
    let without = Scene {
        witnesses: with.witnesses[..1].to_vec(),
        ..with.clone()
    };
    let base = Base::new(runs, without);
    base.differs(runs, MORE, &with, 0);
}

pub fn run(runs: &mut Runs) {
    bytes(runs);
    splits(runs);
    more(runs);
    missing(runs);
}
