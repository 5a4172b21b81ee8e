//! How a syscall fails.

#[derive(Clone, Copy, Debug, Eq, PartialEq)]
pub enum SysError {
    IndexOutOfBound,
    ItemMissing,
    /// The buffer is shorter than what there is to load, which has this many bytes.
    LengthNotEnough(usize),
    /// Data of an unexpected form. No syscall gives it; the original does.
    Encoding,
    WaitFailure,
    InvalidFd,
}
