//! The test of a scene's hashes, written from change 1 of document 02: the type hash of each cell is CKB's hash of its type
//! script, and the data hash that of its data where there is any. Lines are taken in scene order, type before data.

use ckb_std::{Cell, Scene};

/// Where a cell stands.
#[derive(Clone, Copy, Debug, Eq, PartialEq)]
pub enum Place {
    GroupInput,
    ForeignInput,
    Output,
    Dep,
}

/// A hash of a cell.
#[derive(Clone, Copy, Debug, Eq, PartialEq)]
pub enum Of {
    Type,
    Data,
}

/// A hash that is not CKB's.
#[derive(Clone, Copy, Debug, Eq, PartialEq)]
pub struct Difference {
    pub place: Place,
    pub of: Of,
}

impl Difference {
    /// All that there are.
    pub fn all() -> impl Iterator<Item = Self> {
        let places = [
            Place::GroupInput,
            Place::ForeignInput,
            Place::Output,
            Place::Dep,
        ];
        let both = |place| [Of::Type, Of::Data].map(|of| Difference { place, of });
        places.into_iter().flat_map(both)
    }

    pub fn name(self) -> &'static str {
        use {Of::*, Place::*};
        match (self.place, self.of) {
            (GroupInput, Type) => "group input's type hash",
            (GroupInput, Data) => "group input's data hash",
            (ForeignInput, Type) => "foreign input's type hash",
            (ForeignInput, Data) => "foreign input's data hash",
            (Output, Type) => "output's type hash",
            (Output, Data) => "output's data hash",
            (Dep, Type) => "dep's type hash",
            (Dep, Data) => "dep's data hash",
        }
    }
}

/// The first hash of a cell that differs. Of a cell without data any data hash is believed.
fn of_cell(cell: &Cell) -> Option<Of> {
    if cell.type_hash != cell.type_script.as_deref().map(blake2b::ckb_hash) {
        return Some(Of::Type);
    }
    let tested = !cell.data.is_empty();
    (tested && cell.data_hash != blake2b::ckb_hash(&cell.data)).then_some(Of::Data)
}

/// The first hash of a scene that differs.
pub fn first_difference(scene: &Scene) -> Option<Difference> {
    let input = |group| match group {
        true => Place::GroupInput,
        false => Place::ForeignInput,
    };
    let inputs = scene.inputs.iter().map(|i| (input(i.group), &i.cell));
    let outputs = scene.outputs.iter().map(|o| (Place::Output, &o.cell));
    let deps = scene.deps.iter().map(|cell| (Place::Dep, cell));
    let mut cells = inputs.chain(outputs).chain(deps);
    cells.find_map(|(place, cell)| of_cell(cell).map(|of| Difference { place, of }))
}
