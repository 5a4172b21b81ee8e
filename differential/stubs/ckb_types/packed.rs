//! Serialized values: each type holds its Molecule bytes.

use crate::bytes::Bytes as RawBytes;
use crate::molecule::{self, VerificationError};

#[derive(Clone, Default)]
pub struct Byte(pub(crate) u8);

#[derive(Clone, Default)]
pub struct Byte32(pub(crate) [u8; 32]);

/// A vector of bytes.
#[derive(Clone)]
pub struct Bytes(pub(crate) Vec<u8>);

/// A vector of bytes or nothing.
#[derive(Clone)]
pub struct BytesOpt(pub(crate) Vec<u8>);

impl Byte {
    pub fn new(value: u8) -> Self {
        Byte(value)
    }
}

pub struct Script(Vec<u8>);

impl Script {
    pub fn new_builder() -> ScriptBuilder {
        ScriptBuilder {
            code_hash: Byte32::default(),
            hash_type: Byte::default(),
            args: Bytes(molecule::byte_vector(&[])),
        }
    }

    pub fn calc_script_hash(&self) -> Byte32 {
        let mut hash = [0; 32];
        let mut hasher = ckb_hash::new_blake2b();
        hasher.update(&self.0);
        hasher.finalize(&mut hash);
        Byte32(hash)
    }
}

pub struct ScriptBuilder {
    code_hash: Byte32,
    hash_type: Byte,
    args: Bytes,
}

impl ScriptBuilder {
    pub fn code_hash(mut self, value: Byte32) -> Self {
        self.code_hash = value;
        self
    }

    pub fn hash_type(mut self, value: Byte) -> Self {
        self.hash_type = value;
        self
    }

    pub fn args(mut self, value: Bytes) -> Self {
        self.args = value;
        self
    }

    pub fn build(self) -> Script {
        let fields = [&self.code_hash.0[..], &[self.hash_type.0], &self.args.0];
        Script(molecule::table(&fields))
    }
}

/// A table of three optional vectors of bytes: lock, input type, output type.
pub struct WitnessArgs(Vec<u8>);

impl WitnessArgs {
    /// Reads strictly: every field is tested, and there is none besides the three.
    pub fn from_slice(bytes: &[u8]) -> Result<Self, VerificationError> {
        for field in molecule::table_fields::<3>(bytes)? {
            molecule::verify_optional_byte_vector(field)?;
        }
        Ok(WitnessArgs(bytes.to_vec()))
    }

    pub fn as_builder(self) -> WitnessArgsBuilder {
        let fields = molecule::table_fields::<3>(&self.0).expect("verified when it was read");
        WitnessArgsBuilder(fields.map(|field| BytesOpt(field.to_vec())))
    }

    pub fn as_bytes(&self) -> RawBytes {
        self.0.clone().into()
    }
}

pub struct WitnessArgsBuilder([BytesOpt; 3]);

impl WitnessArgsBuilder {
    pub fn lock(mut self, value: BytesOpt) -> Self {
        self.0[0] = value;
        self
    }

    pub fn build(self) -> WitnessArgs {
        let [lock, input_type, output_type] = &self.0;
        WitnessArgs(molecule::table(&[&lock.0, &input_type.0, &output_type.0]))
    }
}
