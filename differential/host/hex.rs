//! Bytes as lower-case hexadecimal digits.

use std::fmt::{Debug, Formatter, Result};

/// Bytes that print as hexadecimal digits.
#[derive(Clone, Eq, PartialEq)]
pub struct Hex(pub Vec<u8>);

impl Debug for Hex {
    fn fmt(&self, f: &mut Formatter<'_>) -> Result {
        write!(f, "{} bytes ", self.0.len())?;
        self.0.iter().try_for_each(|byte| write!(f, "{byte:02x}"))
    }
}

/// The bytes that hexadecimal digits in this program's text stand for. White space is skipped.
pub fn hex(digits: &str) -> Hex {
    let digits: Vec<char> = digits.chars().filter(|c| !c.is_whitespace()).collect();
    let digit = |c: char| c.to_digit(16).expect("a hexadecimal digit") as u8;
    let byte = |pair: &[char]| 16 * digit(pair[0]) + digit(pair[1]);
    Hex(digits.chunks_exact(2).map(byte).collect())
}
