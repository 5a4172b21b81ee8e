//! The speed of CKB's hash: plain C, plain Rust, and the port, on the same input in one process.

use crate::exports;
use crate::test_exports;
use std::time::{Duration, Instant};

const LENGTH: usize = 1 << 20;
const ROUNDS: usize = 200;
/// How many bytes are fed at a time.
const FEEDS: [(&str, usize); 5] = [
    ("one feed of 1 MiB", LENGTH),
    ("16 feeds of 64 KiB", 1 << 16),
    ("feeds of 127 bytes", 127),
    ("feeds of 128 bytes", 128),
    ("feeds of 129 bytes", 129),
];

type Digest = [u8; 32];
type Hash = fn(&[u8], usize) -> Digest;

unsafe extern "C" {
    fn plain_c_ckb_hash(data: *const u8, len: usize, step: usize, out: *mut u8);
}

fn c(data: &[u8], step: usize) -> Digest {
    let mut out = [0; 32];
    // The function writes 32 bytes.
    unsafe { plain_c_ckb_hash(data.as_ptr(), data.len(), step, out.as_mut_ptr()) };
    out
}

fn rust(data: &[u8], step: usize) -> Digest {
    let mut state = blake2b::Blake2b::ckb();
    data.chunks(step).for_each(|part| state.update(part));
    state.finish_32()
}

fn rattle(data: &[u8], step: usize) -> Digest {
    let mut out = [0; 32];
    if step < data.len() {
        test_exports::ckb_hash_parts(data, 0, step, &mut out);
    } else {
        exports::ckb_hash(data, &mut out);
    }
    out
}

/// The best time of each, taken in turn so that a disturbance meets all alike.
fn best(data: &[u8], step: usize) -> [Duration; 3] {
    let hashes: [Hash; 3] = [c, rust, rattle];
    let expected = rust(data, step);
    let mut best = [Duration::MAX; 3];
    for _ in 0..ROUNDS {
        for (hash, best) in hashes.iter().zip(&mut best) {
            let start = Instant::now();
            let digest = hash(data, step);
            *best = start.elapsed().min(*best);
            assert_eq!(digest, expected, "the digests differ");
        }
    }
    best
}

fn print_row(name: &str, data: &[u8], step: usize) {
    let speed = best(data, step).map(|time| data.len() as f64 / 1e6 / time.as_secs_f64());
    let [c, rust, rattle] = speed;
    let (to_c, to_rust) = (rattle / c, rattle / rust);
    println!("{name:20} {c:8.0} {rust:8.0} {rattle:8.0} {to_c:10.2} {to_rust:12.2}");
}

pub fn run() {
    let data: Vec<u8> = (0..LENGTH).map(|i| (i % 251) as u8).collect();
    println!("CKB's hash of the same 1,048,576 bytes, best of {ROUNDS} in turn, in MB/s of 1,000,000 bytes.");
    println!("Buffers are warm and not cleared. A ratio is of speeds: above 1 the port is faster.");
    println!("                            C     Rust   Rattle   Rattle/C  Rattle/Rust");
    for (name, step) in FEEDS {
        print_row(name, &data, step);
    }
}
