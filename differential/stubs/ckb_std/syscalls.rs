//! The syscalls that the original makes.

use crate::ckb_constants::{CellField, InputField, Source};
use crate::error::SysError;
use crate::node::{ask, cell_field};

/// Loads what stands behind `offset`. A short buffer is filled, and the error tells the whole length.
fn load(buffer: &mut [u8], offset: usize, item: &[u8]) -> Result<usize, SysError> {
    let rest = &item[offset.min(item.len())..];
    let loaded = rest.len().min(buffer.len());
    buffer[..loaded].copy_from_slice(&rest[..loaded]);
    if loaded < rest.len() {
        return Err(SysError::LengthNotEnough(rest.len()));
    }
    Ok(loaded)
}

pub fn load_script(buffer: &mut [u8], offset: usize) -> Result<usize, SysError> {
    ask(|node| load(buffer, offset, &node.scene.script))
}

pub fn load_tx_hash(buffer: &mut [u8], offset: usize) -> Result<usize, SysError> {
    ask(|node| load(buffer, offset, &node.scene.tx_hash))
}

pub fn load_witness(
    buffer: &mut [u8],
    offset: usize,
    index: usize,
    source: Source,
) -> Result<usize, SysError> {
    ask(|node| load(buffer, offset, node.witness(index, source)?))
}

pub fn load_cell_data(
    buffer: &mut [u8],
    offset: usize,
    index: usize,
    source: Source,
) -> Result<usize, SysError> {
    ask(|node| load(buffer, offset, &node.cell(index, source)?.data))
}

pub fn load_cell_by_field(
    buffer: &mut [u8],
    offset: usize,
    index: usize,
    source: Source,
    field: CellField,
) -> Result<usize, SysError> {
    ask(|node| {
        let item = cell_field(node.cell(index, source)?, field)?;
        load(buffer, offset, item)
    })
}

pub fn load_input_by_field(
    buffer: &mut [u8],
    offset: usize,
    index: usize,
    source: Source,
    field: InputField,
) -> Result<usize, SysError> {
    ask(|node| {
        let InputField::Since = field;
        let since = node.input(index, source)?.since;
        load(buffer, offset, &since.to_le_bytes())
    })
}

/// As ckb_std has it: the descriptors that the process inherits end with a 0.
pub struct SpawnArgs {
    pub argc: u64,
    pub argv: *const *const i8,
    pub process_id: *mut u64,
    pub inherited_fds: *const u64,
}

impl SpawnArgs {
    fn inherited(&self) -> Vec<u64> {
        // The caller's list is readable up to its 0.
        let fd = |i| unsafe { *self.inherited_fds.add(i) };
        (0..).map(fd).take_while(|fd| *fd != 0).collect()
    }
}

/// Starts the verifier in the cell `index`; where its program stands in that cell plays no part here.
pub fn spawn(
    index: usize,
    source: Source,
    _place: usize,
    _bounds: usize,
    args: &mut SpawnArgs,
) -> Result<u64, SysError> {
    ask(|node| {
        node.cell(index, source)?;
        node.verifiers.spawn(&args.inherited())
    })
}

pub fn pipe() -> Result<(u64, u64), SysError> {
    ask(|node| Ok(node.verifiers.pipe()))
}

pub fn write(fd: u64, buffer: &[u8]) -> Result<usize, SysError> {
    ask(|node| node.verifiers.write(fd, buffer))
}

pub fn close(fd: u64) -> Result<(), SysError> {
    ask(|node| node.verifiers.close(fd))
}

pub fn wait(pid: u64) -> Result<i8, SysError> {
    ask(|node| node.verifiers.wait(pid))
}
