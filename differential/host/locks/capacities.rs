//! Capacities of a scene's inputs and outputs, by their totals.

use super::assembly::{output, plain_cell, plain_input};
use crate::capacity::LAST;
use crate::prng::Prng;
use ckb_std::{Input, Scene};

/// What inputs and outputs have in all.
#[derive(Clone, Copy)]
pub struct Wanted {
    pub inputs: u128,
    pub outputs: u128,
    /// How many lines of each there are at least.
    pub lines: usize,
    /// What foreign inputs have of it; any part where there is none.
    pub foreign: Option<u128>,
}

/// The fewest lines with this total.
fn needed(total: u128) -> usize {
    total.div_ceil(LAST) as usize
}

/// Any capacities with this total, which is within what so many lines can have.
fn split(prng: &mut Prng, total: u128, lines: usize) -> Vec<u64> {
    let (mut rest, mut parts) = (total, Vec::new());
    for behind in (0..lines as u128).rev() {
        let (least, most) = (rest.saturating_sub(behind * LAST), rest.min(LAST));
        let even = (rest / (behind + 1)).clamp(least, most);
        let any = least + u128::from(prng.next()) % (most - least + 1);
        let part = [least, most, even, any, any][prng.up_to(4)];
        rest -= part;
        parts.insert(prng.up_to(parts.len()), part as u64);
    }
    assert_eq!(rest, 0, "a total that the lines can have");
    parts
}

fn give<'a>(prng: &mut Prng, total: u128, capacities: impl Iterator<Item = &'a mut u64>) {
    let capacities: Vec<&mut u64> = capacities.collect();
    let parts = split(prng, total, capacities.len());
    for (capacity, part) in capacities.into_iter().zip(parts) {
        *capacity = part;
    }
}

/// Adds inputs of the group or foreign ones, so that there are enough for this total.
fn add_inputs(scene: &mut Scene, prng: &mut Prng, group: bool, total: u128) {
    let held = |input: &&Input| input.group == group;
    let there = scene.inputs.iter().filter(held).count();
    for _ in there..needed(total) {
        scene.inputs.push(plain_input(prng, group));
    }
}

impl Wanted {
    /// Puts lines that are missing behind the others, inputs as foreign ones.
    pub fn add_lines(self, scene: &mut Scene, prng: &mut Prng) {
        if let Some(foreign) = self.foreign {
            add_inputs(scene, prng, true, self.inputs - foreign);
            add_inputs(scene, prng, false, foreign);
        }
        while scene.inputs.len() < self.lines.max(needed(self.inputs)) {
            scene.inputs.push(plain_input(prng, false));
        }
        while scene.outputs.len() < self.lines.max(needed(self.outputs)) {
            scene.outputs.push(output(plain_cell(prng)));
        }
    }

    /// Gives a scene these totals, and the lines that they need.
    pub fn put(self, scene: &mut Scene, prng: &mut Prng) {
        self.add_lines(scene, prng);
        self.give_inputs(scene, prng);
        let outputs = scene.outputs.iter_mut();
        give(
            prng,
            self.outputs,
            outputs.map(|output| &mut output.capacity),
        );
    }

    fn give_inputs(self, scene: &mut Scene, prng: &mut Prng) {
        let Some(foreign) = self.foreign else {
            let inputs = scene.inputs.iter_mut();
            return give(prng, self.inputs, inputs.map(|input| &mut input.capacity));
        };
        for (group, total) in [(true, self.inputs - foreign), (false, foreign)] {
            let held = scene.inputs.iter_mut().filter(|input| input.group == group);
            give(prng, total, held.map(|input| &mut input.capacity));
        }
    }
}

/// A total that passes: nothing, little, about 2^32, as cells have it, any, or the greatest.
fn passing(prng: &mut Prng) -> u128 {
    let any = prng.next();
    let total = match prng.up_to(6) {
        0 => 0,
        1 => any % 1_000,
        2 => (1 << 32) - 2 + any % 5,
        3 => u64::MAX,
        4 => any,
        _ => 6_100_000_000 + any % 1_000_000_000_000,
    };
    total.into()
}

/// Gives a scene capacities that pass, where it has inputs.
pub fn cover(scene: &mut Scene, prng: &mut Prng) {
    let inputs = passing(prng) * u128::from(!scene.inputs.is_empty());
    let any = u128::from(prng.next()) % (inputs + 1);
    let some = [inputs, inputs.saturating_sub(1), any, any, 0][prng.up_to(4)];
    let wanted = Wanted {
        inputs,
        outputs: some * u128::from(!scene.outputs.is_empty()),
        lines: 0,
        foreign: None,
    };
    wanted.put(scene, prng);
}

/// Totals about each other and about the greatest that passes, or some multiple of 2^64 above.
fn about_limits(prng: &mut Prng) -> Wanted {
    let total = [1, u128::from(prng.next()), LAST - 1][prng.up_to(2)];
    let above = |prng: &mut Prng| (LAST + 1) * [0, 0, 0, 1, 3][prng.up_to(4)] as u128;
    let near = |prng: &mut Prng| total - 1 + prng.up_to(2) as u128;
    Wanted {
        inputs: above(prng) + near(prng),
        outputs: above(prng) + near(prng),
        lines: 0,
        foreign: None,
    }
}

/// Any capacities: such that pass, about their limits, or one of them changed.
pub fn any(scene: &mut Scene, prng: &mut Prng) {
    let inputs = scene.inputs.iter_mut().map(|input| &mut input.capacity);
    let outputs = scene.outputs.iter_mut().map(|output| &mut output.capacity);
    let mut capacities: Vec<&mut u64> = inputs.chain(outputs).collect();
    match prng.up_to(3) {
        0 => cover(scene, prng),
        1 => about_limits(prng).put(scene, prng),
        _ if capacities.is_empty() => {}
        _ => {
            let place = prng.up_to(capacities.len() - 1);
            let other = *capacities[place] ^ 1 << prng.up_to(63);
            *capacities[place] = [0, 1, u64::MAX, other, prng.next()][prng.up_to(4)];
        }
    }
}
