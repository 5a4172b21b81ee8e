//! Runs of the port's lock, compared with what it is measured by.

use super::answer::{Answer, ENOUGH};
use crate::aux_limit::state_number;
use crate::capacity_kinds;
use crate::cell_hashes::first_difference;
use crate::hex::Hex;
use crate::lent::Lent;
use crate::measure::{self, cells, Waits};
use crate::original::{self, Outcome};
use crate::prng::Prng;
use crate::report::Report;
use crate::scene::ENTRIES;
use crate::scene_exports;
use crate::scene_text::text;
use crate::session::{self, SESSION_WITHDRAWN};
use crate::since::{self, RECOVERY_LOCKED};
use crate::table;
use ckb_account_protocol::validate_state;
use ckb_std::{Cell, Scene};

/// The answer buffer of runs over any table.
const LENT: usize = 2_000;

pub struct Runs<'a> {
    pub report: &'a mut Report,
    pub prng: Prng,
}

/// What a mismatch prints of its input.
fn describe(text: &[u8], buffer_len: usize) -> String {
    let text = String::from_utf8_lossy(text);
    format!("answer buffer of {buffer_len}, {text:?}")
}

fn total(outcome: &Outcome) -> usize {
    outcome.requests.iter().map(|request| request.0.len()).sum()
}

impl Runs<'_> {
    /// Runs the port's lock over what it is lent. `size` and `input` are the report's.
    fn run(
        &mut self,
        lent: &Lent,
        expected: &Answer,
        size: usize,
        input: impl FnOnce() -> String,
    ) -> Answer {
        let result = Answer::of_port(lent, expected.buffer.0.len());
        self.report.answered("lock", result.number);
        self.report.compare("lock", size, input, &result, expected);
        result
    }

    /// The lock over a scene, with an answer buffer of this length.
    fn compare(
        &mut self,
        text: &[u8],
        lent: &Lent,
        outcome: &Outcome,
        buffer_len: usize,
    ) -> Answer {
        let expected = Answer::expected(outcome, buffer_len);
        let input = || describe(text, buffer_len);
        self.run(lent, &expected, text.len(), input)
    }

    /// The port's reader leaves what the plain one does.
    fn read(&mut self, text: &[u8]) -> Lent {
        let lent = Lent::read(text);
        let (mut store, mut table) = (vec![0; lent.store.len()], vec![0; ENTRIES]);
        let number = scene_exports::read_scene(text, &mut store, &mut table);
        let same = (number, &store == &lent.store, table == lent.table);
        let input = || String::from_utf8_lossy(text).into();
        let expected = (0, true, true);
        self.report
            .compare("lock's scene read", text.len(), input, &same, &expected);
        lent
    }

    /// The model of a state's checks, without the limit, says of every cell's data what the original says.
    fn check_model(&mut self, scene: &Scene) {
        let original = |cell: &Cell| validate_state(&cell.data).map_or_else(|e| e as u32, |_| 0);
        let expected: Vec<u32> = cells(scene).map(original).collect();
        let model = |cell: &Cell| state_number(&cell.data, None);
        let result: Vec<u32> = cells(scene).map(model).collect();
        let (name, input) = ("model of a state's checks", || format!("{scene:?}"));
        self.report.compare(name, 0, input, &result, &expected);
    }

    /// The waits are those that the original compares: it gives 34 for a since of their input that is one below their
    /// recovery_since, whatever the others have, and does not for one that equals it.
    fn check_waits(&mut self, scene: &Scene, waits: &Waits) {
        let locked = |since, others| {
            let mut scene = scene.clone();
            for (place, input) in scene.inputs.iter_mut().enumerate() {
                input.since = if place == waits.place { since } else { others };
            }
            original::lock(&scene).number == RECOVERY_LOCKED
        };
        let first = waits.recovery_since;
        let result = (locked(first - 1, u64::MAX), locked(first, 0));
        let (name, input) = ("waits by the original", || format!("{scene:?}"));
        self.report.compare(name, 0, input, &result, &(true, false));
    }

    /// What the lock has to answer. A hash that differs is counted by its place, a session by who left it and how, waits and
    /// capacities by what comes of them.
    fn measure(&mut self, scene: &Scene) -> Outcome {
        self.check_model(scene);
        if let Some(difference) = first_difference(scene) {
            self.report.meet(difference.name());
        }
        let (outcome, waits) = measure::lock_and_waits(scene);
        if outcome.number == SESSION_WITHDRAWN {
            for kind in session::met(scene) {
                self.report.meet(kind);
            }
        }
        if let Some(waits) = waits {
            self.check_waits(scene, &waits);
            let (recovery_since, since) = (waits.recovery_since, waits.since);
            self.report.meet(since::test(recovery_since, since).kind);
            let changed = since::changed(recovery_since, since);
            changed.into_iter().for_each(|kind| self.report.meet(kind));
        }
        for kind in capacity_kinds::met(scene, outcome.number) {
            self.report.meet(kind);
        }
        outcome
    }

    /// A scene of which the documents say the number, and maybe how many requests were made and whether there is a digest, and
    /// the fee.
    pub fn expect(
        &mut self,
        name: &str,
        scene: &Scene,
        number: i8,
        made: Option<(usize, bool)>,
        fee: Option<u64>,
    ) {
        let outcome = self.measure(scene);
        let text = text(scene);
        let found = (outcome.requests.len(), outcome.digest.is_some());
        let (given, wanted) = (fee.map(|_| outcome.fee), fee.map(Some));
        let result = (outcome.number, made.map(|_| found), given);
        let input = || format!("{name}, {}", describe(&text, ENOUGH));
        let rows = "measure by the documents' rows";
        self.report
            .compare(rows, text.len(), input, &result, &(number, made, wanted));
        let lent = self.read(&text);
        self.compare(&text, &lent, &outcome, ENOUGH);
        self.decide(&text, &lent, &outcome);
    }

    /// A scene whose requests have so many bytes in all.
    pub fn expect_length(&mut self, scene: &Scene, length: usize) {
        let result = total(&self.measure(scene));
        let input = || describe(&text(scene), ENOUGH);
        self.report
            .compare("longest answer", 0, input, &result, &length);
    }

    /// The text, read and decided in one call.
    fn decide(&mut self, text: &[u8], lent: &Lent, outcome: &Outcome) -> Answer {
        let expected = Answer::expected(outcome, ENOUGH);
        let result = Answer::of_text(text, lent, ENOUGH);
        let input = || describe(text, ENOUGH);
        self.report
            .compare("decide_scene", text.len(), input, &result, &expected);
        result
    }

    /// A scene's number, and its digest where that is reached: by the lock over what it is lent, by the text, and by what both
    /// are measured by.
    pub fn digests(&mut self, scene: &Scene) -> (i8, [Option<Hex>; 3]) {
        let outcome = self.measure(scene);
        let text = text(scene);
        let lent = self.read(&text);
        let locked = self.compare(&text, &lent, &outcome, ENOUGH);
        let decided = self.decide(&text, &lent, &outcome);
        let digests = [locked.reached(), decided.reached(), outcome.digest];
        (outcome.number, digests)
    }

    /// A length of answer buffer: one too short, the total, some more, or enough for any scene.
    fn buffer_len(&mut self, total: usize) -> usize {
        match self.prng.up_to(7) {
            0 => self.prng.up_to(total),
            1 => total,
            2 => ENOUGH,
            _ => (total + self.prng.up_to(200)).min(ENOUGH),
        }
    }

    /// A scene, with some answer buffer, and a store that may be longer than the scene's bytes.
    pub fn any(&mut self, scene: &Scene) {
        let outcome = self.measure(scene);
        let text = text(scene);
        let mut lent = self.read(&text);
        let spare = [0, 0, 0, 40][self.prng.up_to(3)];
        lent.store.extend(self.prng.bytes(spare));
        let buffer_len = self.buffer_len(total(&outcome));
        self.compare(&text, &lent, &outcome, buffer_len);
    }

    /// A scene, with answer buffers at and around the end of each request.
    pub fn every_buffer(&mut self, scene: &Scene) {
        let outcome = self.measure(scene);
        let text = text(scene);
        let lent = self.read(&text);
        let mut end = 0;
        let mut lengths = vec![0, 1];
        for Hex(request) in &outcome.requests {
            end += request.len();
            lengths.extend([end - request.len() / 2, end - 1, end, end + 1]);
        }
        for buffer_len in lengths {
            self.compare(&text, &lent, &outcome, buffer_len);
        }
    }

    /// Any table and store: 7, or the answer to the scene that they hold.
    pub fn lent(&mut self, lent: &Lent) {
        let expected = match table::valid(&lent.table, lent.store.len()) {
            true => Answer::expected(&self.measure(&lent.scene()), LENT),
            false => Answer::no_table(LENT),
        };
        let input = || format!("store of {}, table {:?}", lent.store.len(), lent.table);
        self.run(lent, &expected, lent.table.len(), input);
    }
}
