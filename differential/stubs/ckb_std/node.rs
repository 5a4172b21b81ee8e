//! The node that answers the syscalls of one run: the scene's items, by index and source.

use crate::ckb_constants::{CellField, Source};
use crate::error::SysError;
use crate::verifiers::Verifiers;
use crate::{Cell, Input, Scene};
use std::cell::RefCell;
use std::rc::Rc;

pub(crate) struct Node {
    pub(crate) scene: Rc<Scene>,
    pub(crate) verifiers: Verifiers,
}

thread_local! {
    static NODE: RefCell<Option<Node>> = const { RefCell::new(None) };
}

/// Runs a program over a scene. Returns its result and the requests that it made, in order.
pub fn serve<R>(scene: &Scene, program: impl FnOnce() -> R) -> (R, Vec<Vec<u8>>) {
    serve_shared(Rc::new(scene.clone()), program)
}

/// The same, over a scene that is not copied.
pub fn serve_shared<R>(scene: Rc<Scene>, program: impl FnOnce() -> R) -> (R, Vec<Vec<u8>>) {
    NODE.set(Some(Node {
        verifiers: Verifiers::new(&scene.verdicts),
        scene,
    }));
    let result = program();
    let node = NODE.take().expect("the node stays while it serves");
    (result, node.verifiers.requests())
}

/// Asks the node that serves this thread.
pub(crate) fn ask<R>(question: impl FnOnce(&mut Node) -> R) -> R {
    NODE.with_borrow_mut(|node| question(node.as_mut().expect("a syscall outside of serve")))
}

impl Node {
    /// The place of an input and its witness in the transaction.
    fn place(&self, index: usize, source: Source) -> Result<usize, SysError> {
        let group = |place: &usize| self.scene.inputs[*place].group;
        let place = match source {
            Source::Input => Some(index),
            Source::GroupInput => (0..self.scene.inputs.len()).filter(group).nth(index),
            Source::Output | Source::CellDep => None,
        };
        place.ok_or(SysError::IndexOutOfBound)
    }

    /// Witnesses of `Source::Input` may stand behind the last input.
    pub(crate) fn witness(&self, index: usize, source: Source) -> Result<&[u8], SysError> {
        let witness = self.scene.witnesses.get(self.place(index, source)?);
        Ok(witness.ok_or(SysError::IndexOutOfBound)?)
    }

    pub(crate) fn input(&self, index: usize, source: Source) -> Result<&Input, SysError> {
        let input = self.scene.inputs.get(self.place(index, source)?);
        input.ok_or(SysError::IndexOutOfBound)
    }

    pub(crate) fn cell(&self, index: usize, source: Source) -> Result<&Cell, SysError> {
        let cell = match source {
            Source::Input | Source::GroupInput => return Ok(&self.input(index, source)?.cell),
            Source::Output => self.scene.outputs.get(index).map(|output| &output.cell),
            Source::CellDep => self.scene.deps.get(index),
        };
        cell.ok_or(SysError::IndexOutOfBound)
    }
}

/// A cell without type script has neither that nor its hash.
pub(crate) fn cell_field(cell: &Cell, field: CellField) -> Result<&[u8], SysError> {
    let bytes = match field {
        CellField::DataHash => Some(cell.data_hash.as_slice()),
        CellField::Type => cell.type_script.as_deref(),
        CellField::TypeHash => cell.type_hash.as_ref().map(|hash| hash.as_slice()),
    };
    bytes.ok_or(SysError::ItemMissing)
}
