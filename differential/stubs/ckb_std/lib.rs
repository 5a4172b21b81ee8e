//! Stands in for the crate ckb_std: its syscalls are answered from a scene, as a node would answer
//! them from a transaction. What the original does not name is left out.

pub mod ckb_constants;
pub mod error;
mod node;
mod scene;
pub mod syscalls;
mod verifiers;

pub use node::{serve, serve_shared};
pub use scene::{Cell, Input, Output, Scene};

/// The original takes `Vec` from `alloc`; the allocator itself is the host's.
#[macro_export]
macro_rules! default_alloc {
    () => {
        extern crate alloc;
    };
}

/// Makes the program callable. This expands inside the program's root, where a module may reach
/// what is private there, so functions that are compared by themselves are opened too.
#[macro_export]
macro_rules! entry {
    ($main:ident) => {
        pub fn entry() -> i8 {
            $main()
        }

        pub mod opened {
            use super::{ProtocolError, Vec};

            pub fn witness_lock(witness: &[u8]) -> Result<&[u8], ProtocolError> {
                super::witness_lock(witness)
            }

            pub fn canonical_witness(witness: &[u8]) -> Result<Vec<u8>, ProtocolError> {
                super::canonical_witness(witness)
            }

            pub fn script_args(script: &[u8]) -> Result<&[u8], ProtocolError> {
                super::script_args(script)
            }

            pub fn authorization_digest(
                operation: u8,
                account_id: &[u8; 32],
                sequence: u64,
                state: &[u8],
                group_sighash: &[u8; 32],
            ) -> [u8; 32] {
                super::authorization_digest(operation, account_id, sequence, state, group_sighash)
            }

            pub fn canonical_group_sighash() -> Result<[u8; 32], ProtocolError> {
                super::canonical_group_sighash()
            }
        }
    };
}
