//! The checks of a state in document 01's order, with the limit of an aux that change 6 of document 02 puts behind them in each
//! entry. Without the limit the number is the original's; where the limit refuses, the original is no longer the measure.

/// The longest aux of an entry.
pub const MAX_AUX: usize = 2_593;
/// The number of a longer one.
pub const AUX_TOO_LONG: u32 = 44;
pub const UNSUPPORTED_ALGORITHM: u32 = 33;

const INVALID_STATE: u32 = 21;
const INVALID_VERIFIER_REF: u32 = 30;
const UNSUPPORTED_VERSION: u32 = 32;
const UNSATISFIABLE_THRESHOLD: u32 = 38;
const ALGORITHMS: [usize; 5] = [0x0001, 0x0101, 0x0102, 0x0103, 0x0201];
const HEADER: usize = 32;
const ENTRY: usize = 48;

pub type Check = Result<(), u32>;

fn check(passed: bool, number: u32) -> Check {
    passed.then_some(()).ok_or(number)
}

pub fn u16_at(bytes: &[u8], at: usize) -> usize {
    usize::from(u16::from_le_bytes([bytes[at], bytes[at + 1]]))
}

/// "length 32 to 16,384 (21), magic (21), version (32), flags above 3 (21), header length (21), byte 23 (21), count 1 to 16
/// (21)"
fn header(state: &[u8]) -> Check {
    check((HEADER..=16_384).contains(&state.len()), INVALID_STATE)?;
    check(state.starts_with(b"CKAS"), INVALID_STATE)?;
    check(state[4] == 1, UNSUPPORTED_VERSION)?;
    check(state[5] <= 3, INVALID_STATE)?;
    check(u16_at(state, 6) == HEADER, INVALID_STATE)?;
    check(state[23] == 0, INVALID_STATE)?;
    check((1..=16).contains(&state[22]), INVALID_STATE)
}

/// The entry at the front of the rest of a state, behind one with this slot: "48 bytes present, entry length equal to 48 + key
/// + aux, entry inside the state, slot above its predecessor, weight not 0 and capabilities at most 0x000F (all 21); hash type
/// at most 1 and ABI 1 (30); algorithm (33); key of 32 bytes and aux not empty (21)"; "44 in each entry, after the empty-aux
/// check".
fn entry(rest: &[u8], before: Option<usize>, limit: Option<usize>) -> Check {
    check(rest.len() >= ENTRY, INVALID_STATE)?;
    let [length, slot, algorithm, capabilities, weight] =
        [0, 2, 4, 6, 8].map(|at| u16_at(rest, at));
    let (key, aux) = (u16_at(rest, 44), u16_at(rest, 46));
    check(length == ENTRY + key + aux, INVALID_STATE)?;
    check(length <= rest.len(), INVALID_STATE)?;
    check(before.is_none_or(|before| slot > before), INVALID_STATE)?;
    check(weight != 0 && capabilities <= 0x000f, INVALID_STATE)?;
    check(rest[10] <= 1 && rest[11] == 1, INVALID_VERIFIER_REF)?;
    check(ALGORITHMS.contains(&algorithm), UNSUPPORTED_ALGORITHM)?;
    check(key == 32 && aux != 0, INVALID_STATE)?;
    check(limit.is_none_or(|limit| aux <= limit), AUX_TOO_LONG)
}

/// "spend or rotate threshold 0 or above the weight of its holders is 38. With flag 1 set the same holds for recovery. With
/// flag 1 clear, a recovery threshold or recovery_since other than 0 is 21."
fn thresholds(state: &[u8], weights: [usize; 3]) -> Check {
    let met = |i: usize| (1..=weights[i]).contains(&u16_at(state, 16 + 2 * i));
    check(met(0) && met(1), UNSATISFIABLE_THRESHOLD)?;
    if state[5] & 1 == 1 {
        return check(met(2), UNSATISFIABLE_THRESHOLD);
    }
    let off = state[20..22] == [0; 2] && state[24..HEADER] == [0; 8];
    check(off, INVALID_STATE)
}

fn checks(state: &[u8], limit: Option<usize>) -> Check {
    header(state)?;
    let (mut rest, mut slot, mut weights) = (&state[HEADER..], None, [0; 3]);
    for _ in 0..state[22] {
        entry(rest, slot, limit)?;
        for (i, weight) in weights.iter_mut().enumerate() {
            *weight += (u16_at(rest, 6) >> i & 1) * u16_at(rest, 8);
        }
        slot = Some(u16_at(rest, 2));
        rest = &rest[u16_at(rest, 0)..];
    }
    check(rest.is_empty(), INVALID_STATE)?;
    thresholds(state, weights)
}

/// The number of a state, 0 where it passes: with this limit of an aux, or with none.
pub fn state_number(state: &[u8], limit: Option<usize>) -> u32 {
    checks(state, limit).err().unwrap_or(0)
}

/// Whether the limit refuses the state: no other check does so before.
pub fn too_long(state: &[u8]) -> bool {
    state_number(state, Some(MAX_AUX)) == AUX_TOO_LONG
}

/// What the limit says of an aux of this length in what the original hands out or writes.
pub fn within(aux_len: usize) -> Check {
    check(aux_len <= MAX_AUX, AUX_TOO_LONG)
}
