//! A scene: what the lock can ask of its transaction, and what its verifiers will say.

#[derive(Clone, Debug)]
pub struct Scene {
    /// The script that runs.
    pub script: Vec<u8>,
    pub tx_hash: [u8; 32],
    pub inputs: Vec<Input>,
    pub outputs: Vec<Output>,
    pub deps: Vec<Cell>,
    /// Witness i belongs to input i.
    pub witnesses: Vec<Vec<u8>>,
    /// A number for each verifier in the order of spawning: 0 approves, 1 refuses, 2 fails.
    pub verdicts: Vec<u8>,
}

#[derive(Clone, Debug)]
pub struct Input {
    /// Whether the input runs this lock.
    pub group: bool,
    pub since: u64,
    pub cell: Cell,
    /// The original does not load it.
    pub capacity: u64,
}

#[derive(Clone, Debug)]
pub struct Output {
    pub cell: Cell,
    /// The original does not load it.
    pub capacity: u64,
}

#[derive(Clone, Debug)]
pub struct Cell {
    /// There is a type hash where there is a type script.
    pub type_hash: Option<[u8; 32]>,
    pub data_hash: [u8; 32],
    pub type_script: Option<Vec<u8>>,
    pub data: Vec<u8>,
}
