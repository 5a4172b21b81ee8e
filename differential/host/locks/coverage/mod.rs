//! What a digest covers, by pairs of scenes that both reach it. Change 12 of document 02: "Equal sighash inputs mean equal
//! transaction hash, equal canonical first witness and equal joined row of the other witnesses. The border between group and
//! extra witnesses isn't marked, and the statement names that. Equal digest inputs mean equal operation, account, sequence,
//! state hash and sighash. Two scenes that differ only inside the lock field of the first group witness, with one operation,
//! give one digest where both reach it."
//!
//! A digest is compared by each way to it: the lock over what it is lent, the text, and what both are measured by, which their
//! whole answers are compared with too.

mod border;
mod lock_field;
mod parts;
mod row;

use super::assembly::first_group;
use super::runs::Runs;
use super::LEAST;
use crate::hex::Hex;
use crate::scene_text::text;
use ckb_std::Scene;
use ckb_types::molecule::{table, table_fields};

/// An accepted scene that others are paired with.
struct Base {
    scene: Scene,
    digests: [Option<Hex>; 3],
}

/// What a pair shows: whether the texts differ, the second scene's number where it is wanted, and of each way to a digest, where
/// both scenes reach it, whether it is one.
#[derive(Debug, PartialEq)]
struct Shown {
    differ: bool,
    number: Option<i8>,
    one_digest: [Option<bool>; 3],
}

impl Base {
    fn new(runs: &mut Runs, scene: Scene) -> Self {
        let (number, digests) = runs.digests(&scene);
        let input = || format!("{:?}", String::from_utf8_lossy(&text(&scene)));
        runs.report
            .compare("digest, first of a pair", 0, input, &number, &0);
        Base { scene, digests }
    }

    /// Both scenes have one digest. The second has this number, or any.
    fn same(&self, runs: &mut Runs, name: &'static str, other: &Scene, number: Option<i8>) {
        self.pair(runs, name, other, number, true);
    }

    /// The digests differ. The second scene has this number.
    fn differs(&self, runs: &mut Runs, name: &'static str, other: &Scene, number: i8) {
        self.pair(runs, name, other, Some(number), false);
    }

    fn pair(
        &self,
        runs: &mut Runs,
        name: &'static str,
        other: &Scene,
        wanted: Option<i8>,
        one: bool,
    ) {
        let (number, digests) = runs.digests(other);
        let texts = [&self.scene, other].map(text);
        let compared = |way: usize| match (&self.digests[way], &digests[way]) {
            (Some(first), Some(second)) => Some(first == second),
            _ => None,
        };
        let result = Shown {
            differ: texts[0] != texts[1],
            number: wanted.map(|_| number),
            one_digest: [0, 1, 2].map(compared),
        };
        let expected = Shown {
            differ: true,
            number: wanted,
            one_digest: [Some(one); 3],
        };
        let input = || first_lines(&texts);
        runs.report.meet(name);
        runs.report
            .compare(name, texts[1].len(), input, &result, &expected);
    }
}

/// The first lines in which two texts differ.
fn first_lines(texts: &[Vec<u8>; 2]) -> String {
    let [first, second] = texts.each_ref().map(|text| String::from_utf8_lossy(text));
    let mut lines = first.lines().zip(second.lines());
    let lines = lines.find(|(line, other)| line != other);
    format!("lines that differ first {lines:?}")
}

/// Gives a field of the first group witness other bytes. The field at place 0 is the lock field.
fn set_field(scene: &mut Scene, place: usize, field: &[u8]) {
    let witness = &mut scene.witnesses[first_group(&scene.inputs)];
    let mut fields: [&[u8]; 3] = table_fields(witness).expect("a table of three fields");
    fields[place] = field;
    *witness = table(&fields);
}

pub fn run(runs: &mut Runs) {
    lock_field::run(runs);
    parts::run(runs);
    row::run(runs);
    border::run(runs);
    for names in [
        &lock_field::NAMES[..],
        &lock_field::kinds(),
        &parts::NAMES,
        &row::NAMES,
        &border::NAMES,
    ] {
        runs.report.expect_met(names, LEAST);
    }
}
