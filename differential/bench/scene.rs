//! The speed of the scene reader: the plain one and the port, on the same text in one process.

use crate::prng::Prng;
use crate::scene::{self, ENTRIES};
use crate::scene_exports::read_scene;
use std::hint::black_box;
use std::time::{Duration, Instant};

const ROUNDS: usize = 2000;
/// Bytes in one measurement, at least.
const BYTES: usize = 1 << 16;

/// Random digits: a reader that guesses them by branches is slow on them.
fn hex(random: &mut Prng, length: usize) -> String {
    let digits = random.bytes(length);
    digits.iter().map(|byte| format!("{byte:02x}")).collect()
}

fn cell(random: &mut Prng, data: usize) -> String {
    let [hash, data_hash] = [32, 32].map(|length| hex(random, length));
    let [script, data] = [53, data].map(|length| hex(random, length));
    format!("{hash},{data_hash},{script},{data}")
}

/// A number of 19 or 20 digits.
fn long_number(random: &mut Prng) -> u64 {
    random.next() | 1 << 63
}

/// A scene with so many lines of each kind, each with so many bytes of data.
fn text(random: &mut Prng, lines: usize, data: usize) -> String {
    let mut text = format!("script,{}\ntx,{}\n", hex(random, 53), hex(random, 32));
    for _ in 0..lines {
        let (since, capacity) = (long_number(random), long_number(random));
        text += &format!("input,1,{since},{},{capacity}\n", cell(random, data));
    }
    for _ in 0..lines {
        let capacity = long_number(random);
        text += &format!("output,{},{capacity}\n", cell(random, data));
    }
    for _ in 0..lines {
        text += &format!("dep,{}\n", cell(random, data));
    }
    for _ in 0..lines {
        text += &format!("witness,{}\n", hex(random, data));
    }
    text + "verdicts,0012\n"
}

/// A scene of about that length.
fn scene(lines: usize, length: usize) -> Vec<u8> {
    let random = &mut Prng::new(length as u64);
    let bare = text(random, lines, 0).len();
    text(random, lines, (length - bare) / (8 * lines)).into_bytes()
}

/// The time of one of so many reads.
fn time(reads: u32, read: &mut dyn FnMut()) -> Duration {
    let start = Instant::now();
    (0..reads).for_each(|_| read());
    start.elapsed() / reads
}

fn print_row(name: &str, lines: usize, length: usize) {
    let scene = scene(lines, length);
    let mut rust = (vec![0; length / 2], vec![0; ENTRIES]);
    let mut rattle = rust.clone();
    assert_eq!(scene::read(&scene, &mut rust.0, &mut rust.1), 0);
    assert_eq!(read_scene(&scene, &mut rattle.0, &mut rattle.1), 0);
    assert_eq!(rust, rattle, "the readers differ");
    let reads = BYTES.div_ceil(scene.len()) as u32;
    let mut best = [Duration::MAX; 2];
    // In turn, so that a disturbance meets both alike.
    for _ in 0..ROUNDS {
        let mut read = || {
            black_box(scene::read(black_box(&scene), &mut rust.0, &mut rust.1));
        };
        best[0] = time(reads, &mut read).min(best[0]);
        let mut read = || {
            black_box(read_scene(black_box(&scene), &mut rattle.0, &mut rattle.1));
        };
        best[1] = time(reads, &mut read).min(best[1]);
    }
    let [rust, rattle] = best.map(|time| scene.len() as f64 / 1e6 / time.as_secs_f64());
    let ratio = rattle / rust;
    println!("{name:28} {rust:8.0} {rattle:8.0} {ratio:12.2}");
}

pub fn run() {
    println!();
    println!("read_scene, best of {ROUNDS} in turn, in MB/s of 1,000,000 bytes of text.");
    println!("                                 Rust   Rattle  Rattle/Rust");
    print_row("4 KiB, 8 lines and 3", 2, 4 << 10);
    print_row("64 KiB, 32 lines and 3", 8, 64 << 10);
    print_row("64 KiB, 120 lines and 3", 30, 64 << 10);
    print_row("1,024 KiB, 64 lines and 3", 16, 1 << 20);
}
