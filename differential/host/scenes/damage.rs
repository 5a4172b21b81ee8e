//! Scenes with damaged text.

use super::random::{one_of_each, scene, Most};
use super::readings::Readings;
use crate::changes;
use crate::prng::Prng;
use crate::scene_text::text;

/// How many random scenes there are, each whole and damaged.
const RANDOM: usize = 15_000;
/// Bytes that have a place in the text, and neighbours of those.
const TELLING: &[u8] = b"\n,0123456789:/abcdefgwxyz`ABF\r\0 \x7f\x80\xff";

/// A text with one thing in it changed.
type Change = fn(&mut Vec<u8>, &mut Prng);

fn telling(_: u8) -> Vec<u8> {
    TELLING.to_vec()
}

/// Every change of one byte: to any other in the smallest scene, to telling ones in scenes with all kinds of line.
fn one_byte(readings: &mut Readings) {
    let none = Most { lines: 0, bytes: 0 };
    let smallest = text(&scene(&mut readings.prng, none));
    changes::one_byte(&smallest, changes::any_other, |text| readings.scene(text));
    changes::other_lengths(&smallest, |text| readings.scene(text));
    for typed in [true, false] {
        let whole = text(&one_of_each(&mut readings.prng, typed));
        changes::one_byte(&whole, telling, |text| readings.scene(text));
        changes::other_lengths(&whole, |text| readings.scene(text));
    }
}

/// Changes the list of lines.
fn of_lines(text: &mut Vec<u8>, f: impl FnOnce(&mut Vec<&[u8]>)) {
    let copy = text.clone();
    let mut lines: Vec<&[u8]> = copy.split_inclusive(|byte| *byte == 10).collect();
    if !lines.is_empty() {
        f(&mut lines);
    }
    *text = lines.concat();
}

/// Every line dropped and doubled, and every pair swapped.
fn lines(readings: &mut Readings) {
    let most = Most { lines: 2, bytes: 2 };
    for _ in 0..20 {
        let whole = text(&scene(&mut readings.prng, most));
        let count = whole.iter().filter(|byte| **byte == 10).count();
        for i in 0..count {
            let mut changed = |f: &dyn Fn(&mut Vec<&[u8]>)| {
                let mut copy = whole.clone();
                of_lines(&mut copy, |lines| f(lines));
                readings.scene(&copy);
            };
            changed(&|lines| {
                lines.remove(i);
            });
            changed(&|lines| lines.insert(i, lines[i]));
            for j in 0..i {
                changed(&|lines| lines.swap(i, j));
            }
        }
    }
}

fn place(text: &[u8], prng: &mut Prng) -> usize {
    prng.up_to(text.len().max(1) - 1)
}

const CHANGES: [Change; 10] = [
    |text, prng| {
        let i = place(text, prng);
        let value = TELLING[prng.up_to(TELLING.len() - 1)];
        text.splice(i..(i + 1).min(text.len()), [value]);
    },
    |text, prng| {
        let i = place(text, prng);
        let value = prng.next() as u8;
        text.splice(i..(i + 1).min(text.len()), [value]);
    },
    |text, prng| {
        let i = place(text, prng);
        text.insert(i, TELLING[prng.up_to(TELLING.len() - 1)]);
    },
    |text, prng| {
        let i = place(text, prng);
        text.splice(i..(i + 1).min(text.len()), []);
    },
    |text, prng| {
        let i = place(text, prng);
        text.splice(i..(i + 2).min(text.len()), []);
    },
    |text, prng| text.truncate(prng.up_to(text.len())),
    |text, prng| {
        let i = place(text, prng);
        text[i..]
            .iter_mut()
            .take(8)
            .for_each(u8::make_ascii_uppercase);
    },
    |text, prng| {
        of_lines(text, |lines| {
            lines.remove(prng.up_to(lines.len() - 1));
        })
    },
    |text, prng| {
        of_lines(text, |lines| {
            let i = prng.up_to(lines.len() - 1);
            lines.insert(i, lines[i]);
        })
    },
    |text, prng| {
        of_lines(text, |lines| {
            let (i, j) = (prng.up_to(lines.len() - 1), prng.up_to(lines.len() - 1));
            lines.swap(i, j);
        })
    },
];

/// Changes one thing.
pub fn change(text: &mut Vec<u8>, prng: &mut Prng) {
    let change = CHANGES[prng.up_to(CHANGES.len() - 1)];
    change(text, prng);
}

fn most(prng: &mut Prng) -> Most {
    match prng.up_to(99) {
        0 => Most {
            lines: 80,
            bytes: 3,
        },
        1 => Most {
            lines: 3,
            bytes: 3_000,
        },
        2..=19 => Most {
            lines: 8,
            bytes: 40,
        },
        _ => Most { lines: 2, bytes: 6 },
    }
}

fn random(readings: &mut Readings) {
    for _ in 0..RANDOM {
        let most = most(&mut readings.prng);
        let whole = text(&scene(&mut readings.prng, most));
        readings.scene(&whole);
        for damages in 1..=3 {
            let mut copy = whole.clone();
            for _ in 0..damages {
                change(&mut copy, &mut readings.prng);
            }
            readings.scene(&copy);
        }
        if most.lines <= 64 {
            readings.round_trip(&whole);
        }
    }
}

pub fn run(readings: &mut Readings) {
    one_byte(readings);
    lines(readings);
    random(readings);
}
