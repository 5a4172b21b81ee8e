//! A since by CKB's RFC 0017, and the test of a recovery that change 4 of document 02 makes of two of them: "Where bit or
//! metric disagrees, or the input's value is lower, the refusal is 34"; "42 where either number has a reserved bit, metric 3,
//! or an epoch index not below its length unless both are 0".

use std::cmp::Ordering;

/// The number where one of the two is malformed.
pub const INVALID_SINCE: i8 = 42;
/// The number where the input's since is not what the recovery waits for.
pub const RECOVERY_LOCKED: i8 = 34;

/// The bits of the first byte.
const RELATIVE_FLAG: u8 = 0x80;
const METRIC_FLAG: u8 = 0x60;
const RESERVED: u8 = 0x1f;

#[derive(Clone, Copy, PartialEq)]
enum Metric {
    Blocks,
    Epochs,
    Seconds,
}

/// A since that is well-formed.
struct Since {
    relative: bool,
    metric: Metric,
    value: u64,
}

/// What is wrong with a since, by its first fault.
#[derive(Clone, Copy)]
enum Malformed {
    Reserved,
    Metric,
    Epoch,
}

/// Number, index and length of an epoch value.
fn epoch(value: u64) -> (u32, u16, u16) {
    let [_, a, b, c, d, e, f, g] = value.to_be_bytes();
    let number = u32::from_be_bytes([0, e, f, g]);
    let (index, length) = (u16::from_be_bytes([c, d]), u16::from_be_bytes([a, b]));
    (number, index, length)
}

fn read(since: u64) -> Result<Since, Malformed> {
    let [flags, value @ ..] = since.to_be_bytes();
    if flags & RESERVED != 0 {
        return Err(Malformed::Reserved);
    }
    let metric = match flags & METRIC_FLAG {
        0x00 => Metric::Blocks,
        0x20 => Metric::Epochs,
        0x40 => Metric::Seconds,
        _ => return Err(Malformed::Metric),
    };
    let value = value
        .into_iter()
        .fold(0, |sum, byte| sum << 8 | u64::from(byte));
    let (_, index, length) = epoch(value);
    if metric == Metric::Epochs && index >= length && (index, length) != (0, 0) {
        return Err(Malformed::Epoch);
    }
    let relative = flags & RELATIVE_FLAG != 0;
    Ok(Since {
        relative,
        metric,
        value,
    })
}

/// The order of two fractions below 1, "0 over 0 counting as 0".
fn fractions((index, length): (u16, u16), (other_index, other_length): (u16, u16)) -> Ordering {
    let [length, other_length] = [length, other_length].map(|length| u128::from(length.max(1)));
    (u128::from(index) * other_length).cmp(&(u128::from(other_index) * length))
}

/// A number of the lock, 0 where the test passes, and the kind of case that it is.
#[derive(Clone, Copy)]
pub struct Found {
    pub number: i8,
    pub kind: &'static str,
}

/// Kinds that are malformed: recovery_since, or else the input's since.
const RECOVERY_SINCE: [&str; 3] = [
    "since: recovery_since has a reserved bit",
    "since: recovery_since has metric 3",
    "since: recovery_since has an index not below its length",
];
const INPUT_SINCE: [&str; 3] = [
    "since: the input's has a reserved bit",
    "since: the input's has metric 3",
    "since: the input's has an index not below its length",
];
/// Kinds that are too early.
const LOCKED: [&str; 6] = [
    "since: relative flags differ",
    "since: metrics differ",
    "since: too few blocks",
    "since: too low an epoch number",
    "since: too low a fraction of an epoch",
    "since: too few seconds",
];
/// Kinds that pass, by metric and relative flag.
const PASSED: [[&str; 2]; 3] = [
    ["since: enough blocks", "since: enough relative blocks"],
    ["since: enough epochs", "since: enough relative epochs"],
    ["since: enough seconds", "since: enough relative seconds"],
];
const NO_WAIT: &str = "since: no wait";

pub fn kinds() -> Vec<&'static str> {
    let malformed = RECOVERY_SINCE.into_iter().chain(INPUT_SINCE);
    let kinds = malformed.chain(LOCKED).chain(PASSED.concat());
    kinds.collect()
}

/// Whether the value waited for is reached, both being of this metric; the kind where it is not.
fn reached(metric: Metric, wanted: u64, given: u64) -> Result<(), &'static str> {
    let ((wanted_number, wanted_index, wanted_length), (number, index, length)) =
        (epoch(wanted), epoch(given));
    let fraction = fractions((index, length), (wanted_index, wanted_length));
    match metric {
        Metric::Blocks if given < wanted => Err(LOCKED[2]),
        Metric::Epochs if number < wanted_number => Err(LOCKED[3]),
        Metric::Epochs if number == wanted_number && fraction.is_lt() => Err(LOCKED[4]),
        Metric::Seconds if given < wanted => Err(LOCKED[5]),
        _ => Ok(()),
    }
}

/// The test of well-formed ones.
fn compare(wanted: Since, given: Since) -> Result<(), &'static str> {
    if wanted.relative != given.relative {
        return Err(LOCKED[0]);
    }
    if wanted.metric != given.metric {
        return Err(LOCKED[1]);
    }
    reached(wanted.metric, wanted.value, given.value)
}

/// The test of a recovery: "A recovery_since of 0 waits for nothing and neither number is tested."
pub fn test(recovery_since: u64, since: u64) -> Found {
    let found = |number, kind| Found { number, kind };
    if recovery_since == 0 {
        return found(0, NO_WAIT);
    }
    let (wanted, given) = match (read(recovery_since), read(since)) {
        (Err(malformed), _) => return found(INVALID_SINCE, RECOVERY_SINCE[malformed as usize]),
        (_, Err(malformed)) => return found(INVALID_SINCE, INPUT_SINCE[malformed as usize]),
        (Ok(wanted), Ok(given)) => (wanted, given),
    };
    let passed = PASSED[wanted.metric as usize][usize::from(wanted.relative)];
    match compare(wanted, given) {
        Err(kind) => found(RECOVERY_LOCKED, kind),
        Ok(()) => found(0, passed),
    }
}

/// Answers that the plain comparison of both numbers does not give.
pub const CHANGED: [&str; 4] = [
    "since: passes, below as a plain number",
    "since: 34, not below as a plain number",
    "since: 42, below as a plain number",
    "since: 42, not below as a plain number",
];

/// Which of those this is, if any: the plain comparison gives 34 or passes.
pub fn changed(recovery_since: u64, since: u64) -> Option<&'static str> {
    match (test(recovery_since, since).number, since < recovery_since) {
        (0, true) => Some(CHANGED[0]),
        (RECOVERY_LOCKED, false) => Some(CHANGED[1]),
        (INVALID_SINCE, true) => Some(CHANGED[2]),
        (INVALID_SINCE, false) => Some(CHANGED[3]),
        _ => None,
    }
}
