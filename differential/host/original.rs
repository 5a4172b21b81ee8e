//! The original lock, run over a scene.

use crate::hex::Hex;
use ckb_std::{serve, Scene};

/// What can be seen of a run.
#[derive(Clone, Debug, Eq, PartialEq)]
pub struct Outcome {
    /// 0 where the lock accepts, else the error's number.
    pub number: i8,
    /// The bytes sent to each verifier, in order.
    pub requests: Vec<Hex>,
    /// The authorization digest, where the run reached it.
    pub digest: Option<Hex>,
    /// Where the lock accepts. The original, which loads no capacity, leaves none.
    pub fee: Option<u64>,
}

/// Runs the lock. It finishes three hashes, sighash, state and digest, so the digest is the third.
pub fn lock(scene: &Scene) -> Outcome {
    ckb_hash::take_finished();
    let (number, requests) = serve(scene, ckb_account_lock::entry);
    let hashes = ckb_hash::take_finished();
    Outcome {
        number,
        requests: requests.into_iter().map(Hex).collect(),
        digest: hashes.get(2).map(|digest| Hex(digest.to_vec())),
        fee: None,
    }
}
