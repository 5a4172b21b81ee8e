//! Sample scenes as files: the smallest spend, a spend, a rotation and two recoveries with two proofs each, one for each
//! number of the reader and of the lock that a scene of up to 65,536 bytes gives, a spend of just that many bytes, and spends
//! that share a digest, with the answer to each in `answers.txt`.

use super::capacities::Wanted;
use super::faults::{build, rows, Fault, Row};
use super::plan::Plan;
use super::record::answer_line;
use crate::hex::Hex;
use crate::prng::Prng;
use crate::samples::{smallest_spend, spend_with_proof, spend_with_row};
use crate::scene::{self, ENTRIES};
use crate::{measure, scene_text, true_hashes};
use ckb_std::{Cell, Scene};
use std::{fs, io};

const LONGEST: usize = 65_536;

/// Half of the longest scene in hexadecimal digits, less room for its other lines.
const LONG_PROOF: usize = 31_000;

/// The capacities of samples that are not about them: a fee of 1,000.
const USUAL: Fault = Fault::Totals(Wanted {
    inputs: 61_000_001_000,
    outputs: 61_000_000_000,
    lines: 0,
    foreign: None,
});

/// Names, operations and rows.
const ACCEPTED: [(&str, u8, Option<&str>); 4] = [
    ("spend_two_proofs", 1, None),
    ("rotation", 2, None),
    ("recovery", 3, Some("absolute blocks, 1000 for 999")),
    (
        "recovery_epochs",
        3,
        Some("relative epochs, 0 2/4 for 0 1/2"),
    ),
];
const REFUSED: [(&str, u8, &str); 22] = [
    ("20_invalid_args", 1, "args of 32 bytes"),
    ("21_invalid_state", 1, "state has weight 0"),
    ("22_invalid_witness", 1, "second proof's zeros"),
    ("23_state_not_found", 1, "no state among deps"),
    ("24_duplicate_state", 1, "two states among deps"),
    ("25_state_consumed_on_spend", 1, "id among foreign inputs"),
    ("26_invalid_transition", 2, "no state among outputs"),
    ("27_invalid_sequence", 2, "successor's sequence the same"),
    ("28_threshold_unsatisfied", 1, "every verdict 1"),
    ("29_invalid_capability", 1, "capability missing"),
    ("30_invalid_verifier_ref", 1, "no verifier"),
    ("31_verifier_failure", 1, "first verdict 2"),
    ("32_unsupported_version", 1, "args starting 0x02"),
    ("33_unsupported_algorithm", 1, "state has algorithm 0"),
    ("34_recovery_locked", 3, "relative epochs, 5 1/3 for 5 1/2"),
    (
        "38_unsatisfiable_threshold",
        1,
        "state has spend threshold 0",
    ),
    (
        "39_length_overflow",
        1,
        "inputs 2^64, outputs 1, 2 lines or more",
    ),
    ("40_hash_mismatch", 1, "state's type script edited"),
    (
        "42_invalid_since",
        3,
        "relative epochs with bit 56 for relative epochs",
    ),
    ("44_aux_too_long", 1, "aux 2,594"),
    (
        "48_outputs_exceed_inputs",
        1,
        "outputs one above inputs, 2 lines or more",
    ),
    (
        "49_session_withdrawn",
        2,
        "successor has capabilities 0x000f in its last entry of 2",
    ),
];

/// Makes the text just as long as the program reads, by the data of a dep that plays no part. A spend does not test the
/// since of an input: two digits for one make an odd difference even.
fn fill(scene: &mut Scene) {
    let filler = Cell {
        type_hash: None,
        data_hash: [0; 32],
        type_script: None,
        data: Vec::new(),
    };
    scene.deps.push(filler);
    scene.inputs[0].since = 0;
    if (LONGEST - scene_text::text(scene).len()) % 2 == 1 {
        scene.inputs[0].since = 10;
    }
    let rest = LONGEST - scene_text::text(scene).len();
    scene.deps.last_mut().expect("a dep").data = vec![0; rest / 2];
    true_hashes::of_scene(scene);
}

fn digest(scene: &Scene) -> Hex {
    measure::lock(scene).digest.expect("a digest")
}

struct Samples<'a> {
    folder: &'a str,
    prng: Prng,
    answers: String,
}

impl Samples<'_> {
    fn write(&mut self, name: &str, text: &[u8], answer: &str) -> io::Result<()> {
        assert!(text.len() <= LONGEST, "{name} is too long for the program");
        self.answers.push_str(&format!("{name}.scene {answer}"));
        fs::write(format!("{}/{name}.scene", self.folder), text)
    }

    /// A scene and its answer, which has this number.
    fn scene(&mut self, name: &str, scene: &Scene, number: i8) -> io::Result<()> {
        let outcome = measure::lock(scene);
        assert_eq!(outcome.number, number, "{name}");
        self.write(name, &scene_text::text(scene), &answer_line(&outcome))
    }

    /// A scene of two entries with the faults of a row.
    fn lock(&mut self, name: &str, operation: u8, row: Option<&Row>) -> io::Result<()> {
        let plan = Plan::full(&mut self.prng, operation, 2);
        let mut faults = vec![USUAL];
        faults.extend(row.iter().flat_map(|row| &row.faults));
        let scene = build(&mut self.prng, plan, &faults);
        self.scene(name, &scene, row.map_or(0, |row| row.number))
    }

    /// A spend with a long proof that is as long as the program reads, and its answer.
    fn longest(&mut self) -> io::Result<()> {
        let mut plan = Plan::full(&mut self.prng, 1, 1);
        plan.lock.proofs[0].bytes = self.prng.bytes(LONG_PROOF);
        let mut scene = build(&mut self.prng, plan, &[USUAL]);
        fill(&mut scene);
        assert_eq!(scene_text::text(&scene).len(), LONGEST);
        self.scene("longest", &scene, 0)
    }

    /// A spend that differs from the smallest inside the lock field alone; and two with the same witnesses, the second of them
    /// an extra one or that of another input of the group.
    fn one_digest(&mut self) -> io::Result<()> {
        let other = spend_with_proof(&[0xaa, 0xbb, 0xcc, 0xdd]);
        assert_eq!(digest(&other), digest(&smallest_spend()));
        self.scene("spend_other_lock_field", &other, 0)?;
        let [extra, group] = [0, 1].map(|group| spend_with_row(&[vec![]], group));
        assert_eq!(digest(&extra), digest(&group));
        self.scene("spend_extra_witness", &extra, 0)?;
        self.scene("spend_group_witness", &group, 0)
    }

    /// A text that the reader refuses with this number.
    fn refused(&mut self, name: &str, text: &[u8], number: u32) -> io::Result<()> {
        let (mut store, mut table) = (vec![0; text.len()], vec![0; ENTRIES]);
        assert_eq!(scene::read(text, &mut store, &mut table), number, "{name}");
        self.write(name, text, &format!("answer,{number},0,0,,\n"))
    }

    /// What the reader refuses, made of an accepted scene.
    fn reader(&mut self, accepted: &[u8]) -> io::Result<()> {
        let lines: Vec<&[u8]> = accepted.split_inclusive(|byte| *byte == 10).collect();
        let (first, rest) = lines.split_first().expect("a scene has lines");
        self.refused("02_invalid_line", &rest.concat(), 2)?;
        let field = [b"script,0\n", &rest.concat()[..]].concat();
        self.refused("03_invalid_field", &field, 3)?;
        let tx_hash = rest.first().expect("a scene has a transaction hash");
        let witnesses = b"witness,\n".repeat(65);
        let many = [first, tx_hash, &witnesses[..], b"verdicts,\n"].concat();
        self.refused("04_too_many_lines", &many, 4)
    }
}

pub fn write(folder: &str) -> io::Result<()> {
    let rows = rows();
    let named = |name: &str| rows.iter().find(|row| row.name == name).expect("a row");
    let mut samples = Samples {
        folder,
        prng: Prng::new(6),
        answers: String::new(),
    };
    fs::create_dir_all(folder)?;
    let smallest = smallest_spend();
    samples.scene("spend", &smallest, 0)?;
    samples.reader(&scene_text::text(&smallest))?;
    for (name, operation, row) in ACCEPTED {
        samples.lock(name, operation, row.map(named))?;
    }
    for (name, operation, row) in REFUSED {
        samples.lock(name, operation, Some(named(row)))?;
    }
    samples.longest()?;
    samples.one_digest()?;
    fs::write(format!("{folder}/answers.txt"), samples.answers)
}
