//! The reference hash itself, against digests from elsewhere.

use crate::hex::{hex, Hex};
use crate::report::Report;
use blake2b::Blake2b;

/// RFC 7693, Appendix A: 64 bytes of digest of `abc`, no key, no personal bytes.
const ABC: &str = "
    ba80a53f981c4d0d 6a2797b69f12f6e9 4c212f14685ac4b7 4b12bb6fdbffa2d1
    7d87c5392aab792d c252d5de4533cc95 18d38aa8dbf1925a b92386edd4009923";

/// CKB's hash of the first so many bytes of the pattern. The first is BLANK_HASH of CKB's sources;
/// all were computed with CPython: hashlib.blake2b(data, digest_size=32, person=b"ckb-default-hash").
const CKB: [(usize, &str); 6] = [
    (
        0,
        "44f4c69744d5f8c55d642062949dcae49bc4e7ef43d388c5a12f42b5633d163e",
    ),
    (
        1,
        "ef3f1252fe6f373c05e5e9c6371e230e29c1226b21752ab21611479b57a0f9d6",
    ),
    (
        128,
        "bd884467b7c169be49cdf82907f46ddc25c9bf36cf495eea856439e11a248b4d",
    ),
    (
        129,
        "85d9de2da9c9350a6b6c712160142afcfa6f2d3072c16dc0fdd8d2b47218b481",
    ),
    (
        256,
        "b00898c552056a52a397aec308c975705128891f38823a26f714a419b61b44fe",
    ),
    (
        1000,
        "550fc7ed2caf56c5bf26125ab058efc43205c1788d9d4f6668e31892d368d108",
    ),
];

fn blake2b_512(data: &[u8]) -> Hex {
    let mut parameters = [0; 64];
    parameters[..4].copy_from_slice(&[64, 0, 1, 1]);
    let mut state = Blake2b::with_parameters(&parameters);
    state.update(data);
    Hex(state.finish().to_vec())
}

/// Byte i is i % 251.
fn pattern(length: usize) -> Vec<u8> {
    (0..length).map(|i| (i % 251) as u8).collect()
}

pub fn run(report: &mut Report) {
    let name = "reference hash";
    report.compare(name, 3, || "abc".into(), &blake2b_512(b"abc"), &hex(ABC));
    for (length, digest) in CKB {
        let input = || format!("{length} bytes of the pattern");
        let result = Hex(blake2b::ckb_hash(&pattern(length)).to_vec());
        report.compare(name, length, input, &result, &hex(digest));
    }
}
