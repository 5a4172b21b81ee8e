//! The speed of the lock: the original with the test of hashes before it and the totals of capacities behind it, and the port,
//! on the same scenes in one process.

use crate::capacity::Totals;
use crate::formats::{print_row, print_row_of, AUX, CALLS, ROUNDS, SHORTER_AUX};
use crate::lent::Lent;
use crate::lock_scenes::{scene_of, scene_of_64_cells};
use crate::scene;
use crate::scene_exports::{lock, read_scene};
use crate::scene_text::text;
use blake2b::ckb_hash as plain_hash;
use ckb_account_protocol::{OP_ROTATE, OP_SPEND};
use ckb_std::{serve_shared, Cell, Scene};
use std::hint::black_box;
use std::rc::Rc;

const ANSWER: usize = 148_992;
/// Calls in one measurement with 64 cells.
const FEW_CALLS: u32 = 10;
const HASH_MISMATCH: i8 = 40;

/// Whether type hash and data hash are the hashes of type script and data; that of empty data is believed.
fn hashes_true(cell: &Cell) -> bool {
    cell.type_script.as_deref().map(plain_hash) == cell.type_hash
        && (cell.data.is_empty() || plain_hash(&cell.data) == cell.data_hash)
}

/// Number, fee and requests: the test of hashes by the plain hash, then the original, then the plain totals. The scene is not
/// copied; the stub keeps digests until they are taken.
fn original(scene: &Rc<Scene>) -> (i8, u64, Vec<Vec<u8>>) {
    let inputs = scene.inputs.iter().map(|input| &input.cell);
    let outputs = scene.outputs.iter().map(|output| &output.cell);
    let mut cells = inputs.chain(outputs).chain(&scene.deps);
    if !cells.all(hashes_true) {
        return (HASH_MISMATCH, 0, vec![]);
    }
    let (number, requests) = serve_shared(scene.clone(), ckb_account_lock::entry);
    ckb_hash::take_finished();
    if number != 0 {
        return (number, 0, requests);
    }
    match Totals::of(scene).fee() {
        Ok(fee) => (0, fee, requests),
        Err(number) => (number, 0, requests),
    }
}

/// What a run of the lock writes.
struct Written {
    answer: Vec<u8>,
    out: [u8; 64],
}

fn port(lent: &Lent, written: &mut Written) -> u32 {
    let Written { answer, out } = written;
    lock(&lent.table, &lent.store, answer, out)
}

/// What the port writes on a scene, on which both give this number, the same fee and the same requests.
fn agreed(scene: &Rc<Scene>, lent: &Lent, number: u32) -> Written {
    let mut written = Written {
        answer: vec![0; ANSWER],
        out: [0; 64],
    };
    assert_eq!(port(lent, &mut written), number);
    let (original_number, fee, requests) = original(scene);
    assert_eq!(original_number as u32, number);
    assert_eq!(fee.to_le_bytes(), written.out[56..]);
    let requests = requests.concat();
    assert_eq!(requests, written.answer[..requests.len()]);
    written
}

/// The lock alone, over what is lent.
fn lock_row(calls: u32, name: &str, scene: &Rc<Scene>, lent: &Lent, number: u32) {
    let mut written = agreed(scene, lent, number);
    print_row_of(
        calls,
        name,
        &mut || drop(black_box(original(black_box(scene)))),
        &mut || {
            black_box(port(black_box(lent), &mut written));
        },
    );
}

/// Each reader and lock.
fn read_row(name: &str, scene: &Rc<Scene>, text: &[u8], mut lent: Lent, number: u32) {
    let mut written = agreed(scene, &lent, number);
    let mut plain = lent.clone();
    print_row(
        &format!("{name}, and its scene read"),
        &mut || {
            scene::read(black_box(text), &mut plain.store, &mut plain.table);
            drop(black_box(original(black_box(scene))));
        },
        &mut || {
            read_scene(black_box(text), &mut lent.store, &mut lent.table);
            black_box(port(&lent, &mut written));
        },
    );
}

fn rows(name: &str, scene: Scene, number: u32) {
    let (text, scene) = (text(&scene), Rc::new(scene));
    let (lent, laid_out) = (Lent::read(&text), Lent::lay_out(&scene));
    assert!(lent.table == laid_out.table && lent.store == laid_out.store);
    lock_row(CALLS, name, &scene, &lent, number);
    read_row(name, &scene, &text, lent, number);
}

/// The text of these cells is longer than a reader takes.
fn row_of_64_cells(name: &str) {
    let scene = Rc::new(scene_of_64_cells());
    lock_row(FEW_CALLS, name, &scene, &Lent::lay_out(&scene), 0);
}

pub fn run() {
    println!();
    println!("The lock, nanoseconds for a run, best of {ROUNDS} times {CALLS} in turn ({FEW_CALLS} with 64 cells), hashing included.");
    println!("Before the original the plain Rust hash works out the cells' hashes, behind it capacities are added up. The");
    println!("original allocates what it loads and sends; it has no reader of scenes, so a plain one is timed with it. A");
    println!("ratio is of speeds.");
    println!("                                                     Rust    Rattle  Rattle/Rust");
    rows("spend, 1 proof of 2,420", scene_of(OP_SPEND, 1, AUX), 0);
    rows("spend, 4 proofs", scene_of(OP_SPEND, 4, AUX), 0);
    rows("spend, 16 proofs", scene_of(OP_SPEND, 16, SHORTER_AUX), 0);
    rows("rotation, 4 proofs", scene_of(OP_ROTATE, 4, AUX), 0);
    let refused = Scene {
        script: vec![],
        ..scene_of(OP_SPEND, 4, AUX)
    };
    rows("spend refused at its script", refused, 20);
    row_of_64_cells("spend, 1 proof, 64 cells of 16 KiB");
}
