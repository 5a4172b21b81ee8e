//! A sample of scenes with the answers that the lock is measured by, for a program that replays them with no Rust at hand.
//! Each record is the scene's length in decimal on a line of its own, the scene, and the answer line.

use super::faults::{build, rows, Fault, Row};
use super::plan::Plan;
use super::recorded::{CAPACITIES, MARKED, SEVERAL_ENTRIES, WAITED};
use super::{by_number, random_faults};
use crate::measure;
use crate::original::Outcome;
use crate::prng::Prng;
use crate::scene_text::text;
use ckb_std::Scene;
use std::collections::BTreeMap;
use std::io;

const SCENES: usize = 1_850;
/// The length of a scene that counts as short.
const SHORT: usize = 1_440;
/// Numbers that need a long proof or a long aux, and how many scenes with them there are.
const NEED_LONG: [(i8, usize); 2] = [(35, 2), (44, 16)];

/// The line that the program prints.
pub fn answer_line(outcome: &Outcome) -> String {
    let length: usize = outcome.requests.iter().map(|request| request.0.len()).sum();
    let digits = |byte: &u8| format!("{byte:02x}");
    let digest = outcome.digest.iter().flat_map(|digest| &digest.0);
    format!(
        "answer,{},{},{length},{},{}\n",
        outcome.number,
        outcome.requests.len(),
        digest.map(digits).collect::<String>(),
        outcome.fee.map_or(String::new(), |fee| fee.to_string())
    )
}

/// A scene, and the number and the line of its answer.
pub struct Record {
    pub text: Vec<u8>,
    pub number: i8,
    line: String,
}

impl Record {
    fn new(scene: &Scene) -> Record {
        let outcome = measure::lock(scene);
        Record {
            text: text(scene),
            number: outcome.number,
            line: answer_line(&outcome),
        }
    }
}

struct Recorder {
    prng: Prng,
    /// How many scenes of each number are still wanted.
    wanted: BTreeMap<i8, usize>,
    records: Vec<Record>,
}

impl Recorder {
    fn wants(&self, number: i8) -> bool {
        self.wanted.get(&number).is_some_and(|left| *left > 0)
    }

    /// Takes the scene where one with its number is wanted.
    fn offer(&mut self, scene: &Scene, longest: usize) {
        let record = Record::new(scene);
        if record.text.len() > longest || !self.wants(record.number) {
            return;
        }
        *self.wanted.get_mut(&record.number).expect("wanted") -= 1;
        self.records.push(record);
    }

    /// A scene with just these faults.
    fn with(&mut self, operation: u8, faults: &[Fault]) -> Scene {
        let plan = Plan::full(&mut self.prng, operation, 2);
        build(&mut self.prng, plan, faults)
    }

    /// Every row once for each operation.
    fn each_row(&mut self, rows: &[Row]) {
        let needs_long = |row: &&Row| NEED_LONG.iter().any(|(number, _)| *number == row.number);
        let short = rows.iter().filter(|row| !row.long);
        for row in short.filter(|row| !needs_long(row)) {
            for operation in row.operations {
                let scene = self.with(*operation, &row.faults);
                self.offer(&scene, SHORT);
            }
        }
    }

    /// Rather short scenes for the numbers that need long ones, of one row after the other.
    fn long(&mut self, rows: &[Row]) {
        for (number, count) in NEED_LONG {
            let mut rows: Vec<&Row> = rows.iter().filter(|row| row.number == number).collect();
            rows.sort_by_key(|row| row.long);
            for (turn, row) in rows.iter().take(count).enumerate() {
                let operation = row.operations[turn % row.operations.len()];
                let scene = self.with(operation, &row.faults);
                self.offer(&scene, usize::MAX);
            }
        }
    }

    /// Rows by their names.
    fn named(&mut self, rows: &[Row], names: &[(&str, u8)]) {
        for (name, operation) in names {
            let scene = self.with(*operation, &named(rows, name).faults);
            self.offer(&scene, usize::MAX);
        }
    }

    /// Accepted scenes with many proofs.
    fn many_proofs(&mut self) {
        for entries in [4, 8, 16] {
            for operation in 1..=3 {
                let plan = Plan::full(&mut self.prng, operation, entries);
                let scene = build(&mut self.prng, plan, &[]);
                self.offer(&scene, usize::MAX);
            }
        }
    }

    /// Scenes with random faults, until none is wanted.
    fn random(&mut self, rows: &[Row]) {
        let rows = by_number(rows);
        while self.wanted.values().any(|left| *left > 0) {
            let plan = Plan::random(&mut self.prng);
            let faults = random_faults(&mut self.prng, &rows);
            let scene = build(&mut self.prng, plan, &faults);
            self.offer(&scene, SHORT);
        }
    }
}

fn named<'a>(rows: &'a [Row], name: &str) -> &'a Row {
    rows.iter().find(|row| row.name == name).expect("a row")
}

/// How many scenes of each number there are: as many of one as of another where short scenes give it.
fn shares(rows: &[Row]) -> BTreeMap<i8, usize> {
    let mut shares: BTreeMap<i8, usize> = rows.iter().map(|row| (row.number, 0)).collect();
    let long: usize = NEED_LONG.iter().map(|(_, count)| count).sum();
    let (short, numbers) = (SCENES - long, shares.len() - NEED_LONG.len());
    shares
        .values_mut()
        .for_each(|share| *share = short / numbers);
    *shares.get_mut(&0).expect("accepted scenes") += short % numbers;
    shares.extend(NEED_LONG);
    shares
}

pub fn records() -> Vec<Record> {
    let rows = rows();
    let mut recorder = Recorder {
        prng: Prng::new(5),
        wanted: shares(&rows),
        records: Vec::new(),
    };
    recorder.long(&rows);
    recorder.many_proofs();
    recorder.named(&rows, &SEVERAL_ENTRIES);
    recorder.named(&rows, &WAITED.map(|name| (name, 3)));
    recorder.named(&rows, &CAPACITIES);
    recorder.each_row(&rows);
    recorder.random(&rows);
    recorder.records
}

fn marked() -> Vec<Record> {
    let (rows, mut prng) = (rows(), Prng::new(6));
    let mut scene = |row: &Row| {
        let plan = Plan::full(&mut prng, row.operations[0], 2);
        build(&mut prng, plan, &row.faults)
    };
    MARKED
        .map(|name| Record::new(&scene(named(&rows, name))))
        .into()
}

pub fn record(file: &str) -> io::Result<()> {
    let mut out = Vec::new();
    let records: Vec<Record> = records().into_iter().chain(marked()).collect();
    let scenes = records.len();
    for record in records {
        out.extend(format!("{}\n", record.text.len()).bytes());
        out.extend(record.text);
        out.extend(record.line.bytes());
    }
    println!("{scenes} scenes, {} bytes", out.len());
    std::fs::write(file, out)
}
