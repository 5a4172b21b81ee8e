//! The buffer for the lock's answer: too short for it, just as long, and longer.

use super::answer::{Answer, ENOUGH};
use super::faults::{any_hash, build};
use super::plan::Plan;
use super::runs::Runs;
use crate::hex::Hex;
use crate::lent::Lent;
use crate::prng::Prng;
use crate::scene_exports;
use crate::scene_text::text;

/// Three words, a digest and the fee.
const STORED: usize = 64;
/// Lengths of the buffer.
const OUT: [usize; 10] = [0, 1, 8, 24, 55, 56, 63, 64, 65, 200];
/// The number of a buffer that is too short.
const DISAGREE: u32 = 7;
const SCENES: usize = 30;

/// All that can be seen of a call.
#[derive(Clone, Debug, Eq, PartialEq)]
struct Seen {
    number: u32,
    store: Hex,
    table: Vec<u32>,
    answer: Hex,
    out: Hex,
}

/// Any bytes in everything that is lent.
fn any(prng: &mut Prng, lent: &Lent, out_len: usize) -> Seen {
    Seen {
        number: DISAGREE,
        store: Hex(prng.bytes(lent.store.len())),
        table: lent.table.iter().map(|_| prng.next() as u32).collect(),
        answer: Hex(prng.bytes(ENOUGH)),
        out: Hex(prng.bytes(out_len)),
    }
}

/// Nothing changes where the buffer is too short; else the answer is at its front, as in one that it fills.
fn expected(mut before: Seen, lent: &Lent, whole: &Answer) -> Seen {
    if before.out.0.len() < STORED {
        return before;
    }
    let length = whole.length as usize;
    before.answer.0[..length].copy_from_slice(&whole.buffer.0[..length]);
    let words = [whole.count, whole.length, whole.digest.0].map(u64::to_le_bytes);
    let fee = whole.fee.to_le_bytes();
    let stored = [&words.concat()[..], &whole.digest.1 .0, &fee].concat();
    before.out.0[..STORED].copy_from_slice(&stored);
    Seen {
        number: whole.number,
        store: Hex(lent.store.clone()),
        table: lent.table.clone(),
        ..before
    }
}

fn lock(lent: &Lent, mut seen: Seen) -> Seen {
    seen.store = Hex(lent.store.clone());
    seen.table = lent.table.clone();
    seen.number = scene_exports::lock(
        &lent.table,
        &lent.store,
        &mut seen.answer.0,
        &mut seen.out.0,
    );
    seen
}

fn decide(text: &[u8], mut seen: Seen) -> Seen {
    seen.number = scene_exports::decide_scene(
        text,
        &mut seen.store.0,
        &mut seen.table,
        &mut seen.answer.0,
        &mut seen.out.0,
    );
    seen
}

fn every_length(runs: &mut Runs, text: &[u8]) {
    let lent = Lent::read(text);
    let whole = Answer::of_port(&lent, ENOUGH);
    for out_len in OUT {
        let before = any(&mut runs.prng, &lent, out_len);
        let input = || format!("out of {out_len}, {:?}", String::from_utf8_lossy(text));
        let decided = decide(text, before.clone());
        let wanted = expected(before.clone(), &lent, &whole);
        runs.report
            .compare("decide_scene, out", out_len, input, &decided, &wanted);
        let locked = lock(&lent, before.clone());
        let lent_once = Seen {
            store: Hex(lent.store.clone()),
            table: lent.table.clone(),
            ..before
        };
        let wanted = expected(lent_once, &lent, &whole);
        runs.report
            .compare("lock, out", out_len, input, &locked, &wanted);
    }
}

pub fn run(runs: &mut Runs) {
    for turn in 0..SCENES {
        let plan = Plan::random(&mut runs.prng);
        let hash = any_hash(&mut runs.prng);
        let faults = if turn % 5 == 0 { &[hash][..] } else { &[] };
        let scene = build(&mut runs.prng, plan, faults);
        every_length(runs, &text(&scene));
    }
}
