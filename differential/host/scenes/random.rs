//! Scenes of any bytes: what they mean plays no part.

use crate::prng::Prng;
use ckb_std::{Cell, Input, Output, Scene};

/// How many lines of a kind and how many bytes in a field there are at most.
#[derive(Clone, Copy)]
pub struct Most {
    pub lines: usize,
    pub bytes: usize,
}

fn bytes(prng: &mut Prng, most: usize) -> Vec<u8> {
    let length = prng.up_to(most);
    prng.bytes(length)
}

fn hash(prng: &mut Prng) -> [u8; 32] {
    prng.bytes(32).try_into().expect("32 bytes")
}

fn cell(prng: &mut Prng, most: Most) -> Cell {
    let typed = prng.up_to(1) == 1;
    let length = 1 + prng.up_to(most.bytes);
    Cell {
        type_hash: typed.then(|| hash(prng)),
        data_hash: hash(prng),
        type_script: typed.then(|| prng.bytes(length)),
        data: bytes(prng, most.bytes),
    }
}

/// A number of any count of digits.
fn number(prng: &mut Prng) -> u64 {
    let any = prng.next();
    let digits = prng.up_to(19) as u32;
    [0, 10, u64::MAX, 1 << 32, any, any % 10u64.pow(digits)][prng.up_to(5)]
}

fn input(prng: &mut Prng, most: Most) -> Input {
    Input {
        group: prng.up_to(1) == 1,
        since: number(prng),
        cell: cell(prng, most),
        capacity: number(prng),
    }
}

fn output(prng: &mut Prng, most: Most) -> Output {
    Output {
        cell: cell(prng, most),
        capacity: number(prng),
    }
}

fn list<T>(prng: &mut Prng, most: usize, item: impl Fn(&mut Prng) -> T) -> Vec<T> {
    let count = prng.up_to(most);
    (0..count).map(|_| item(prng)).collect()
}

pub fn scene(prng: &mut Prng, most: Most) -> Scene {
    Scene {
        script: bytes(prng, most.bytes),
        tx_hash: hash(prng),
        inputs: list(prng, most.lines, |prng| input(prng, most)),
        outputs: list(prng, most.lines, |prng| output(prng, most)),
        deps: list(prng, most.lines, |prng| cell(prng, most)),
        witnesses: list(prng, most.lines, |prng| bytes(prng, most.bytes)),
        verdicts: list(prng, 16, |prng| prng.up_to(2) as u8),
    }
}

/// A scene with one line of each kind, its cells with type script or without.
pub fn one_of_each(prng: &mut Prng, typed: bool) -> Scene {
    let most = Most { lines: 0, bytes: 3 };
    let mut plain = cell(prng, most);
    plain.type_hash = typed.then(|| hash(prng));
    plain.type_script = typed.then(|| prng.bytes(2));
    let input = Input {
        group: true,
        since: 12,
        cell: plain.clone(),
        capacity: 34,
    };
    let output = Output {
        cell: plain.clone(),
        capacity: 56,
    };
    Scene {
        inputs: vec![input],
        outputs: vec![output],
        deps: vec![plain],
        witnesses: vec![prng.bytes(2)],
        ..scene(prng, most)
    }
}
