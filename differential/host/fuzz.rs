//! Recorded scenes, changed at random: the port beside what it is measured by, for some time. The smallest scene on which
//! they differ is made as small as it can be and saved.

use crate::changes;
use crate::lent::Lent;
use crate::locks::answer::{Answer, ENOUGH};
use crate::locks::record::{records, Record};
use crate::locks::{about_limit, about_session, any_capacities, any_waits};
use crate::prng::Prng;
use crate::report::Report;
use crate::scene::{self, ENTRIES};
use crate::scene_text;
use crate::scenes::damage;
use crate::scenes::readings::{read, Reading};
use crate::{measure, scene_exports, true_hashes};
use ckb_std::{Cell, Input, Scene};
use std::time::{Instant, SystemTime, UNIX_EPOCH};
use std::{fs, io, panic};

const FOLDER: &str = "target/fuzz";
/// How many scenes are changed and compared beside everything else.
const SCENES: u64 = 250_000;

/// When a run ends, and what it starts from.
pub struct Limits {
    pub seconds: u64,
    pub count: u64,
    pub seed: u64,
}

impl Limits {
    /// Some seconds, and another seed each time.
    pub fn usual() -> Self {
        let now = SystemTime::now().duration_since(UNIX_EPOCH);
        Limits {
            seconds: 60,
            count: u64::MAX,
            seed: now.map_or(0, |now| now.as_millis() as u64),
        }
    }

    /// A number of scenes, however long they take: a busy machine compares no fewer.
    pub fn counted() -> Self {
        Limits {
            seconds: u64::MAX,
            count: SCENES,
            ..Limits::usual()
        }
    }

    /// The usual ones, but for those named.
    pub fn of(arguments: &[&str]) -> Option<Self> {
        let mut limits = Limits::usual();
        for pair in arguments.chunks(2) {
            let [name, value] = pair else { return None };
            let limit = match *name {
                "--seconds" => &mut limits.seconds,
                "--count" => &mut limits.count,
                "--seed" => &mut limits.seed,
                _ => return None,
            };
            *limit = value.parse().ok()?;
        }
        Some(limits)
    }
}

/// What can be seen of a text: what the lock answers where the reader accepts, and what the reader leaves.
#[derive(Debug, PartialEq)]
struct Seen {
    answer: Option<Answer>,
    reading: Reading,
}

impl Seen {
    fn number(&self) -> u32 {
        let answer = self.answer.as_ref();
        answer.map_or(self.reading.number, |answer| answer.number)
    }
}

fn of_port(text: &[u8]) -> Seen {
    let reader = scene_exports::read_scene;
    let reading = read(reader, text, text.len() / 2, ENTRIES, 0xa5);
    let lent = || Lent {
        store: reading.store.clone(),
        table: reading.table.clone(),
    };
    let answer = (reading.number == 0).then(|| Answer::of_port(&lent(), ENOUGH));
    Seen { answer, reading }
}

fn expected(text: &[u8]) -> Seen {
    let reading = read(scene::read, text, text.len() / 2, ENTRIES, 0x5a);
    let outcome = || measure::lock(&Lent::read(text).scene());
    let answer = (reading.number == 0).then(|| Answer::expected(&outcome(), ENOUGH));
    Seen { answer, reading }
}

/// Both sides. The original's is none where it panics.
fn run_both(text: &[u8]) -> [Option<Seen>; 2] {
    let original = panic::catch_unwind(|| expected(text));
    [Some(of_port(text)), original.ok()]
}

fn differ(text: &[u8]) -> bool {
    let [port, original] = run_both(text);
    port != original
}

/// The text without those parts of this length that a difference does not need.
fn without_parts(mut text: Vec<u8>, length: usize) -> Vec<u8> {
    let mut at = 0;
    while at < text.len() {
        let end = text.len().min(at + length);
        let less = [&text[..at], &text[end..]].concat();
        if differ(&less) {
            text = less;
        } else {
            at = end;
        }
    }
    text
}

/// Leaves out long parts first. Two digits are a byte, so lengths are powers of two.
fn smallest(text: Vec<u8>) -> Vec<u8> {
    let lengths = (0..=text.len().ilog2()).rev().map(|power| 1 << power);
    lengths.fold(text, without_parts)
}

struct Fuzz<'a> {
    report: &'a mut Report,
    prng: Prng,
    recorded: Vec<Record>,
    /// The places of those that are accepted.
    accepted: Vec<usize>,
    /// The shortest text so far on which both sides differ.
    failing: Option<Vec<u8>>,
}

/// Other bytes in hexadecimal fields. The scene stays one that the reader accepts.
fn change_bytes(prng: &mut Prng, text: &mut Vec<u8>) {
    if read(scene::read, text, text.len() / 2, ENTRIES, 0).number == 0 {
        let mut lent = Lent::read(text);
        lent.store = changes::random(prng, &lent.store);
        *text = scene_text::text(&lent.scene());
    }
}

/// Changes a scene that the reader accepts.
fn change_scene(text: &mut Vec<u8>, change: impl FnOnce(&mut Scene)) {
    if read(scene::read, text, text.len() / 2, ENTRIES, 0).number == 0 {
        let mut scene = Lent::read(text).scene();
        change(&mut scene);
        *text = scene_text::text(&scene);
    }
}

/// An aux about its limit or a session in a cell, if its data is a state.
fn change_state(prng: &mut Prng, text: &mut Vec<u8>) {
    change_scene(text, |scene| {
        let typed = |cell: &&mut Cell| cell.type_script.is_some();
        let mut cells: Vec<&mut Cell> = true_hashes::cells_mut(scene).filter(typed).collect();
        if !cells.is_empty() {
            let place = prng.up_to(cells.len() - 1);
            let change = [about_limit, about_session][prng.up_to(1)];
            change(&mut cells[place].data, prng);
        }
    });
}

/// Any waits: in the data of an input, if that is a state, and in the input's since.
fn change_waits(prng: &mut Prng, text: &mut Vec<u8>) {
    change_scene(text, |scene| {
        let typed = |input: &&mut Input| input.cell.type_script.is_some();
        for input in scene.inputs.iter_mut().filter(typed) {
            let waits = any_waits(prng);
            if let Some(recovery_since) = input.cell.data.get_mut(24..32) {
                recovery_since.copy_from_slice(&waits[0].to_le_bytes());
            }
            input.since = waits[1];
        }
    });
}

fn kind(line: &[u8]) -> &[u8] {
    let end = line.iter().position(|byte| *byte == b',');
    &line[..end.unwrap_or(0)]
}

/// A line of another scene, in place of one of its kind or in front of it.
fn take_line(prng: &mut Prng, text: &mut Vec<u8>, other: &[u8]) {
    let others: Vec<&[u8]> = other.split_inclusive(|byte| *byte == 10).collect();
    let line = others[prng.up_to(others.len() - 1)];
    let mut lines: Vec<&[u8]> = text.split_inclusive(|byte| *byte == 10).collect();
    let same = (0..lines.len()).filter(|place| kind(lines[*place]) == kind(line));
    let same: Vec<usize> = same.collect();
    if !same.is_empty() {
        let place = same[prng.up_to(same.len() - 1)];
        lines.splice(place..place + prng.up_to(1), [line]);
    }
    *text = lines.concat();
}

impl<'a> Fuzz<'a> {
    fn new(report: &'a mut Report, seed: u64) -> Self {
        let recorded = records();
        let places = 0..recorded.len();
        Fuzz {
            report,
            prng: Prng::new(seed),
            accepted: places.filter(|i| recorded[*i].number == 0).collect(),
            recorded,
            failing: None,
        }
    }

    /// The place of a recorded scene, in half of the cases of an accepted one: changed, it meets every row.
    fn any(&mut self) -> usize {
        match self.prng.up_to(1) {
            0 => self.prng.up_to(self.recorded.len() - 1),
            _ => self.accepted[self.prng.up_to(self.accepted.len() - 1)],
        }
    }

    /// A recorded scene with up to three changes. In most the hashes are then made true, so that later rows are met.
    fn text(&mut self) -> Vec<u8> {
        let place = self.any();
        let mut text = self.recorded[place].text.clone();
        for _ in 0..[1, 1, 2, 3][self.prng.up_to(3)] {
            let other = self.any();
            match self.prng.up_to(9) {
                0 => damage::change(&mut text, &mut self.prng),
                1 => take_line(&mut self.prng, &mut text, &self.recorded[other].text),
                2 => change_state(&mut self.prng, &mut text),
                3 => change_waits(&mut self.prng, &mut text),
                4 => change_scene(&mut text, |scene| any_capacities(scene, &mut self.prng)),
                _ => change_bytes(&mut self.prng, &mut text),
            }
        }
        if self.prng.up_to(7) > 0 {
            change_scene(&mut text, true_hashes::of_scene);
        }
        text
    }

    fn once(&mut self) {
        let text = self.text();
        let [port, original] = run_both(&text);
        let number = port.as_ref().map_or(0, Seen::number);
        self.report.answered("fuzz", number);
        let input = || String::from_utf8_lossy(&text).into();
        self.report
            .compare("fuzz", text.len(), input, &port, &original);
        let shorter = |other: &Vec<u8>| text.len() < other.len();
        if port != original && self.failing.as_ref().is_none_or(shorter) {
            self.failing = Some(text);
        }
    }
}

fn save(text: Vec<u8>, seed: u64) -> io::Result<()> {
    let file = format!("{FOLDER}/{seed}.scene");
    fs::create_dir_all(FOLDER)?;
    fs::write(&file, smallest(text))?;
    println!("fuzz: the smallest scene with a difference is {file}");
    Ok(())
}

pub fn run(report: &mut Report, limits: &Limits) {
    println!("fuzz: seed {}", limits.seed);
    let mut fuzz = Fuzz::new(report, limits.seed);
    let start = Instant::now();
    let mut count = 0;
    while count < limits.count && start.elapsed().as_secs() < limits.seconds {
        fuzz.once();
        count += 1;
    }
    let saved = fuzz.failing.map(|text| save(text, limits.seed));
    if let Some(Err(error)) = saved {
        eprintln!("fuzz: {FOLDER}: {error}");
    }
}
