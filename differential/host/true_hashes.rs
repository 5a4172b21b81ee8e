//! Cells and scenes whose hashes are CKB's.

use ckb_std::{Cell, Scene};

/// Gives a cell the hashes of its type script and of its data. Without data its data hash stays: it may be any.
pub fn of_cell(cell: &mut Cell) {
    cell.type_hash = cell.type_script.as_deref().map(blake2b::ckb_hash);
    if !cell.data.is_empty() {
        cell.data_hash = blake2b::ckb_hash(&cell.data);
    }
}

pub fn of_scene(scene: &mut Scene) {
    cells_mut(scene).for_each(of_cell);
}

pub fn cells_mut(scene: &mut Scene) -> impl Iterator<Item = &mut Cell> {
    let inputs = scene.inputs.iter_mut().map(|input| &mut input.cell);
    let outputs = scene.outputs.iter_mut().map(|output| &mut output.cell);
    inputs.chain(outputs).chain(&mut scene.deps)
}
