//! BLAKE2b of RFC 7693 without a key, in plain Rust.
//! The stub of ckb_hash and the benchmark use it; the host tests it against published digests.

/// The length of a block in bytes (RFC 7693, section 2.1: bb).
const BLOCK: usize = 128;

/// The initialization vector (section 2.6).
const IV: [u64; 8] = [
    0x6a09e667f3bcc908,
    0xbb67ae8584caa73b,
    0x3c6ef372fe94f82b,
    0xa54ff53a5f1d36f1,
    0x510e527fade682d1,
    0x9b05688c2b3e6c1f,
    0x1f83d9abfb41bd6b,
    0x5be0cd19137e2179,
];

/// The message schedule (section 2.7). Rounds 10 and 11 use rows 0 and 1 again.
const SIGMA: [[usize; 16]; 10] = [
    [0, 1, 2, 3, 4, 5, 6, 7, 8, 9, 10, 11, 12, 13, 14, 15],
    [14, 10, 4, 8, 9, 15, 13, 6, 1, 12, 0, 2, 11, 7, 5, 3],
    [11, 8, 12, 0, 5, 2, 15, 13, 10, 14, 3, 6, 7, 1, 9, 4],
    [7, 9, 3, 1, 13, 12, 11, 14, 2, 6, 5, 10, 4, 0, 15, 8],
    [9, 0, 5, 7, 2, 4, 10, 15, 14, 1, 11, 12, 6, 8, 3, 13],
    [2, 12, 6, 10, 0, 11, 8, 3, 4, 13, 7, 5, 15, 14, 1, 9],
    [12, 5, 1, 15, 14, 13, 4, 10, 0, 7, 6, 3, 9, 2, 8, 11],
    [13, 11, 7, 14, 12, 1, 3, 9, 5, 0, 15, 4, 8, 6, 2, 10],
    [6, 15, 14, 9, 11, 3, 0, 8, 12, 2, 13, 7, 1, 4, 10, 5],
    [10, 2, 8, 4, 7, 6, 1, 5, 15, 11, 9, 14, 3, 12, 13, 0],
];

/// The little-endian words of a run of bytes.
fn words<const N: usize>(bytes: &[u8]) -> [u64; N] {
    let mut out = [0; N];
    for (word, part) in out.iter_mut().zip(bytes.chunks_exact(8)) {
        *word = u64::from_le_bytes(part.try_into().unwrap());
    }
    out
}

/// The mixing function G (section 3.1).
#[inline(always)]
fn mix(v: &mut [u64; 16], a: usize, b: usize, c: usize, d: usize, x: u64, y: u64) {
    v[a] = v[a].wrapping_add(v[b]).wrapping_add(x);
    v[d] = (v[d] ^ v[a]).rotate_right(32);
    v[c] = v[c].wrapping_add(v[d]);
    v[b] = (v[b] ^ v[c]).rotate_right(24);
    v[a] = v[a].wrapping_add(v[b]).wrapping_add(y);
    v[d] = (v[d] ^ v[a]).rotate_right(16);
    v[c] = v[c].wrapping_add(v[d]);
    v[b] = (v[b] ^ v[c]).rotate_right(63);
}

/// The compression function F (section 3.2).
fn compress(h: &mut [u64; 8], block: &[u8; BLOCK], fed: u128, last: bool) {
    let m: [u64; 16] = words(block);
    let mut v = [0; 16];
    v[..8].copy_from_slice(h);
    v[8..].copy_from_slice(&IV);
    v[12] ^= fed as u64;
    v[13] ^= (fed >> 64) as u64;
    if last {
        v[14] = !v[14];
    }
    for round in 0..12 {
        let s = &SIGMA[round % 10];
        mix(&mut v, 0, 4, 8, 12, m[s[0]], m[s[1]]);
        mix(&mut v, 1, 5, 9, 13, m[s[2]], m[s[3]]);
        mix(&mut v, 2, 6, 10, 14, m[s[4]], m[s[5]]);
        mix(&mut v, 3, 7, 11, 15, m[s[6]], m[s[7]]);
        mix(&mut v, 0, 5, 10, 15, m[s[8]], m[s[9]]);
        mix(&mut v, 1, 6, 11, 12, m[s[10]], m[s[11]]);
        mix(&mut v, 2, 7, 8, 13, m[s[12]], m[s[13]]);
        mix(&mut v, 3, 4, 9, 14, m[s[14]], m[s[15]]);
    }
    for i in 0..8 {
        h[i] ^= v[i] ^ v[i + 8];
    }
}

/// A hash state: the chained words, the block that is being filled, and the bytes compressed so far.
#[derive(Clone)]
pub struct Blake2b {
    h: [u64; 8],
    block: [u8; BLOCK],
    filled: usize,
    compressed: u128,
}

impl Blake2b {
    /// A state begun from a parameter block (section 2.5).
    pub fn with_parameters(parameters: &[u8; 64]) -> Self {
        let mut h: [u64; 8] = words(parameters);
        for (word, iv) in h.iter_mut().zip(IV) {
            *word ^= iv;
        }
        Blake2b {
            h,
            block: [0; BLOCK],
            filled: 0,
            compressed: 0,
        }
    }

    /// A state for CKB's hash.
    pub fn ckb() -> Self {
        Blake2b::with_parameters(&ckb_parameters())
    }

    /// Feeds data. A full block waits until a further byte comes, since the last block is compressed otherwise.
    pub fn update(&mut self, mut data: &[u8]) {
        while !data.is_empty() {
            if self.filled == BLOCK {
                self.compressed += BLOCK as u128;
                compress(&mut self.h, &self.block, self.compressed, false);
                self.filled = 0;
            }
            let (part, rest) = data.split_at(data.len().min(BLOCK - self.filled));
            self.block[self.filled..self.filled + part.len()].copy_from_slice(part);
            self.filled += part.len();
            data = rest;
        }
    }

    /// All 64 bytes of the final words; a shorter digest is the front of them.
    pub fn finish(mut self) -> [u8; 64] {
        self.block[self.filled..].fill(0);
        self.compressed += self.filled as u128;
        compress(&mut self.h, &self.block, self.compressed, true);
        let mut out = [0; 64];
        for (part, word) in out.chunks_exact_mut(8).zip(self.h) {
            part.copy_from_slice(&word.to_le_bytes());
        }
        out
    }

    /// The first 32 of them: the digest of a state for CKB's hash.
    pub fn finish_32(self) -> [u8; 32] {
        self.finish()[..32].try_into().unwrap()
    }
}

/// CKB's parameter block: 32 bytes of digest, no key, fanout and depth 1, 16 personal bytes.
fn ckb_parameters() -> [u8; 64] {
    let mut parameters = [0; 64];
    parameters[..4].copy_from_slice(&[32, 0, 1, 1]);
    parameters[48..].copy_from_slice(b"ckb-default-hash");
    parameters
}

/// CKB's hash of a slice.
pub fn ckb_hash(data: &[u8]) -> [u8; 32] {
    let mut state = Blake2b::ckb();
    state.update(data);
    state.finish_32()
}
