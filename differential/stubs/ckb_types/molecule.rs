//! Molecule's serialization (RFC 0008 of CKB): tables and byte vectors, written, and read strictly.

/// The bytes are no such value.
#[derive(Debug)]
pub struct VerificationError;

fn number(bytes: &[u8], at: usize) -> Result<usize, VerificationError> {
    let part = bytes.get(at..at + 4).ok_or(VerificationError)?;
    Ok(u32::from_le_bytes(part.try_into().unwrap()) as usize)
}

fn push_number(out: &mut Vec<u8>, value: usize) {
    let value = u32::try_from(value).expect("Molecule's lengths are below 2^32");
    out.extend(value.to_le_bytes());
}

/// A vector of bytes: how many, then the bytes.
pub fn byte_vector(bytes: &[u8]) -> Vec<u8> {
    let mut out = Vec::with_capacity(4 + bytes.len());
    push_number(&mut out, bytes.len());
    out.extend(bytes);
    out
}

/// Whether a field is an optional vector of bytes: nothing at all, or a vector that fills the field.
pub fn verify_optional_byte_vector(field: &[u8]) -> Result<(), VerificationError> {
    if field.is_empty() || number(field, 0)? == field.len() - 4 {
        return Ok(());
    }
    Err(VerificationError)
}

/// A table: its length, where each field starts, the fields.
pub fn table(fields: &[&[u8]]) -> Vec<u8> {
    let head = 4 + 4 * fields.len();
    let total = head + fields.iter().map(|field| field.len()).sum::<usize>();
    let mut out = Vec::with_capacity(total);
    push_number(&mut out, total);
    let mut start = head;
    for field in fields {
        push_number(&mut out, start);
        start += field.len();
    }
    out.extend(fields.concat());
    out
}

/// The fields of a table that has exactly N of them.
pub fn table_fields<const N: usize>(bytes: &[u8]) -> Result<[&[u8]; N], VerificationError> {
    if number(bytes, 0)? != bytes.len() || number(bytes, 4)? != 4 + 4 * N {
        return Err(VerificationError);
    }
    let mut fields = [[].as_slice(); N];
    for (i, field) in fields.iter_mut().enumerate() {
        let start = number(bytes, 4 + 4 * i)?;
        let end = match i + 1 {
            next if next < N => number(bytes, 4 + 4 * next)?,
            _ => bytes.len(),
        };
        *field = bytes.get(start..end).ok_or(VerificationError)?;
    }
    Ok(fields)
}
