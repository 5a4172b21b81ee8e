//! Witness locks, valid and with faults.

use crate::prng::Prng;
use ckb_account_host::Proof;

/// The longest witness lock.
const LONGEST: usize = 131_072;

#[derive(Clone, Debug)]
pub struct Witness {
    pub operation: u8,
    pub sequence: u64,
    pub proofs: Vec<Proof>,
}

/// A witness lock with one thing in it changed.
type Change = fn(&mut Witness, &mut Prng);

/// A valid witness lock whose proofs have these lengths.
pub fn with_lengths(prng: &mut Prng, lengths: &[usize]) -> Witness {
    let step = [3, 200][prng.up_to(1)];
    let mut slot = prng.up_to(1) as u16;
    let mut proofs = Vec::new();
    for length in lengths {
        let bytes = prng.bytes(*length);
        proofs.push(Proof { slot, bytes });
        slot += 1 + prng.up_to(step - 1) as u16;
    }
    Witness {
        operation: 1 + prng.up_to(2) as u8,
        sequence: prng.next(),
        proofs,
    }
}

/// A valid witness lock of so many short proofs.
pub fn valid(prng: &mut Prng, count: usize) -> Witness {
    let lengths: Vec<usize> = (0..count).map(|_| 1 + prng.up_to(20)).collect();
    with_lengths(prng, &lengths)
}

/// Witness locks at the limits of length and count, and beyond them.
pub fn limits(prng: &mut Prng) -> Vec<Witness> {
    let mut witnesses = Vec::new();
    for count in [0, 1, 2, 15, 16, 17, 18, 254, 255, 256, 257] {
        witnesses.push(valid(prng, count));
    }
    for length in [0, 1, 2, 65_535, 65_536, 65_537] {
        witnesses.push(with_lengths(prng, &[length]));
        witnesses.push(with_lengths(prng, &[3, length, 4]));
    }
    for total in LONGEST - 2..=LONGEST + 2 {
        witnesses.push(with_lengths(prng, &[total - 24]));
        let room = total - 16 - 16 * 8;
        let mut lengths = [room / 16; 16];
        lengths[15] += room % 16;
        witnesses.push(with_lengths(prng, &lengths));
    }
    witnesses
}

fn proof<'a>(witness: &'a mut Witness, prng: &mut Prng) -> &'a mut Proof {
    let i = prng.up_to(witness.proofs.len() - 1);
    &mut witness.proofs[i]
}

const CHANGES: [Change; 6] = [
    |witness, prng| witness.operation = prng.up_to(5) as u8,
    |witness, prng| witness.operation = prng.next() as u8,
    |witness, prng| proof(witness, prng).bytes.clear(),
    |witness, prng| proof(witness, prng).slot = [0, 1, 2, 3, 65_535][prng.up_to(4)],
    |witness, prng| {
        let i = prng.up_to(witness.proofs.len() - 1);
        let slot = witness.proofs[i].slot;
        let next = (i + 1) % witness.proofs.len();
        witness.proofs[next].slot = slot;
    },
    |witness, _| witness.proofs.reverse(),
];

/// A witness lock of one to 16 proofs with one or two changes, which may be faults.
pub fn changed(prng: &mut Prng) -> Witness {
    let most = [2, 16][prng.up_to(1)];
    let count = 1 + prng.up_to(most - 1);
    let mut witness = valid(prng, count);
    for _ in 0..=prng.up_to(1) {
        CHANGES[prng.up_to(CHANGES.len() - 1)](&mut witness, prng);
    }
    witness
}

/// The layout filled from a witness lock, valid or not. A count that does not fit its byte is cut.
pub fn layout(witness: &Witness) -> Vec<u8> {
    let mut out = b"CKAW\x01".to_vec();
    out.extend([witness.operation, witness.proofs.len() as u8, 0]);
    out.extend(witness.sequence.to_le_bytes());
    for proof in &witness.proofs {
        out.extend(proof_layout(proof));
    }
    out
}

/// The same of one proof.
pub fn proof_layout(proof: &Proof) -> Vec<u8> {
    let mut out = proof.slot.to_le_bytes().to_vec();
    out.extend([0, 0]);
    out.extend((proof.bytes.len() as u32).to_le_bytes());
    out.extend(&proof.bytes);
    out
}
