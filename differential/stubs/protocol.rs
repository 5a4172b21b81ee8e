//! The root of the protocol crate, whose own root is not among the originals.

pub mod constants;
pub mod error;
pub mod wire;

pub use constants::*;
pub use error::*;
pub use wire::*;
