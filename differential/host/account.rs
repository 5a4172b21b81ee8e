//! Which cells are the account's, in a scene whose script passes its checks.

use ckb_std::{Cell, Scene};

/// Whether a cell has the account's id. Args end the script, and the id ends them.
pub fn owns(scene: &Scene, cell: &Cell) -> bool {
    let id = &scene.script[scene.script.len() - 32..];
    cell.type_hash.is_some_and(|hash| hash == id)
}
