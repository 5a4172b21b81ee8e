//! The sources and fields that the original names.

#[derive(Clone, Copy)]
pub enum Source {
    Input,
    Output,
    CellDep,
    GroupInput,
}

#[derive(Clone, Copy)]
pub enum CellField {
    DataHash,
    Type,
    TypeHash,
}

#[derive(Clone, Copy)]
pub enum InputField {
    Since,
}
