//! The waiting period of a recovery: its state's recovery_since and the since of the input that holds it, well-formed ones and
//! malformed ones.

use super::Made::AllBut;
use super::{row, Fault, Row, RECOVERY};
use crate::locks::sinces::{
    epochs, of_metric, seconds, LAST_LENGTH, LAST_NUMBER, LAST_VALUE, RELATIVE, RESERVED,
};
use crate::since::{INVALID_SINCE, RECOVERY_LOCKED};

/// A recovery with these waits.
pub fn waits(number: i8, name: &str, recovery_since: u64, since: u64) -> Row {
    let row = row(number, RECOVERY, name, Fault::Waits(recovery_since, since));
    match number {
        0 => row.made(AllBut(0)),
        _ => row,
    }
}

/// A lower value of blocks or seconds, and a higher one.
const VALUES: [(u64, u64); 7] = [
    (0, 1),
    (999, 1_000),
    (LAST_NUMBER, 1 << 24),
    (u32::MAX as u64, 1 << 32),
    ((1 << 55) - 1, 1 << 55),
    (1, LAST_VALUE),
    (LAST_VALUE - 1, LAST_VALUE),
];

/// Number, index and length.
type Epoch = (u64, u64, u64);

/// A lower epoch, and a higher one. Products of the last three differ otherwise in 32 bits.
const EPOCHS: [(Epoch, Epoch); 13] = [
    ((4, 1, 2), (5, 1, 2)),
    ((5, 2, 7), (5, 3, 7)),
    ((5, 3, 8), (5, 3, 7)),
    ((5, 1, 3), (5, 1, 2)),
    ((7, 0, 0), (7, 1, LAST_LENGTH)),
    ((5, 9, 10), (6, 1, 10)),
    ((5, 333, 1_000), (5, 1, 3)),
    ((0, 65_533, 65_534), (0, 65_534, 65_535)),
    ((LAST_NUMBER, 65_533, 65_534), (LAST_NUMBER, 65_534, 65_535)),
    ((LAST_NUMBER - 1, 65_534, 65_535), (LAST_NUMBER, 0, 0)),
    ((0, 0, 1), (1 << 23, 0, 1)),
    ((255, 4_095, 4_096), (256, 0, 4_096)),
    ((65_537, 0, LAST_LENGTH), (65_538, 0, LAST_LENGTH)),
];

/// Two that are equal.
const EQUAL: [(Epoch, Epoch); 6] = [
    ((5, 1, 2), (5, 1, 2)),
    ((0, 1, 2), (0, 2, 4)),
    ((9, 21_845, LAST_LENGTH), (9, 1, 3)),
    ((0, 0, 0), (0, 0, 1)),
    ((7, 0, 0), (7, 0, LAST_LENGTH)),
    ((LAST_NUMBER, 0, 0), (LAST_NUMBER, 0, 0)),
];

const FLAGS: [(&str, u64); 2] = [("absolute", 0), ("relative", RELATIVE)];

/// Each given where the other is waited for, and where it is waited for itself.
fn ordered(kind: &str, [lower, higher]: [(String, u64); 2]) -> [Row; 4] {
    let given = |number, (given, since): &(String, u64), (wanted, wait): &(String, u64)| {
        waits(
            number,
            &format!("{kind}, {given} for {wanted}"),
            *wait,
            *since,
        )
    };
    [
        given(RECOVERY_LOCKED, &lower, &higher),
        given(0, &higher, &lower),
        given(0, &lower, &lower),
        given(0, &higher, &higher),
    ]
}

fn value_rows() -> Vec<Row> {
    let mut rows = Vec::new();
    for (flag, bit) in FLAGS {
        for (metric, base) in [("blocks", bit), ("seconds", bit | seconds(0))] {
            for (lower, higher) in VALUES {
                let both = [lower, higher].map(|value| (value.to_string(), base | value));
                rows.extend(ordered(&format!("{flag} {metric}"), both));
            }
        }
    }
    rows
}

fn epoch_rows() -> Vec<Row> {
    let mut rows = Vec::new();
    for (flag, bit) in FLAGS {
        let kind = format!("{flag} epochs");
        let of = |(number, index, length): Epoch| {
            let name = format!("{number} {index}/{length}");
            (name, bit | epochs(number, index, length))
        };
        for (lower, higher) in EPOCHS {
            rows.extend(ordered(&kind, [of(lower), of(higher)]));
        }
        for (one, other) in EQUAL {
            let [(one, since), (other, equal)] = [of(one), of(other)];
            rows.push(waits(
                0,
                &format!("{kind}, {one} for {other}"),
                equal,
                since,
            ));
            rows.push(waits(
                0,
                &format!("{kind}, {other} for {one}"),
                since,
                equal,
            ));
        }
    }
    rows
}

/// Well-formed waits of each kind, and a late one of each.
const KINDS: [(&str, u64, u64); 6] = [
    ("blocks", 5, LAST_VALUE),
    ("epochs", epochs(5, 1, 2), epochs(LAST_NUMBER, 0, 0)),
    ("seconds", seconds(5), seconds(LAST_VALUE)),
    ("relative blocks", RELATIVE | 5, RELATIVE | LAST_VALUE),
    (
        "relative epochs",
        RELATIVE | epochs(5, 1, 2),
        RELATIVE | epochs(LAST_NUMBER, 0, 0),
    ),
    (
        "relative seconds",
        RELATIVE | seconds(5),
        RELATIVE | seconds(LAST_VALUE),
    ),
];

/// Waits of two kinds: neither late ones nor those of an equal value pass for another kind. A since of 0 is one of blocks.
fn kind_rows() -> Vec<Row> {
    let mut rows = Vec::new();
    for (wanted, wait, _) in KINDS {
        for (given, since, late) in KINDS {
            let number = if wanted == given { 0 } else { RECOVERY_LOCKED };
            rows.push(waits(
                number,
                &format!("late {given} for {wanted}"),
                wait,
                late,
            ));
            rows.push(waits(number, &format!("{given} for {wanted}"), wait, since));
        }
        let name = format!("since 0 for {wanted}");
        rows.push(waits(RECOVERY_LOCKED, &name, wait, 0));
    }
    let name = "since 0 for relative blocks, 0";
    rows.push(waits(RECOVERY_LOCKED, name, RELATIVE, 0));
    rows
}

/// Epochs with an index that is not below its length.
const NO_EPOCHS: [Epoch; 6] = [
    (5, 1, 1),
    (5, 7, 7),
    (5, 8, 7),
    (0, 1, 0),
    (5, LAST_LENGTH, 0),
    (LAST_NUMBER, LAST_LENGTH, LAST_LENGTH),
];

/// Sinces that are malformed.
fn malformed() -> Vec<(String, u64)> {
    let mut sinces = vec![("every bit".into(), u64::MAX)];
    for (kind, since, _) in KINDS {
        for bit in RESERVED {
            sinces.push((format!("{kind} with bit {bit}"), since | 1 << bit));
        }
    }
    for (flag, bit) in FLAGS {
        for value in [0, 5, LAST_VALUE] {
            let name = format!("{flag} metric 3, {value}");
            sinces.push((name, bit | of_metric(3, value)));
        }
        for (number, index, length) in NO_EPOCHS {
            let name = format!("{flag} epoch {number} {index}/{length}");
            sinces.push((name, bit | epochs(number, index, length)));
        }
    }
    sinces
}

/// A malformed number on either side and on both.
fn malformed_rows() -> Vec<Row> {
    let (kind, wait, late) = KINDS[4];
    let rows = |(name, since): (String, u64)| {
        let refused = |name: &str, wanted, given| waits(INVALID_SINCE, name, wanted, given);
        [
            waits(0, &format!("{name}, no wait"), 0, since),
            refused(&format!("{name} on both sides"), since, since),
            refused(&format!("{name} for {kind}"), wait, since),
            refused(&format!("{kind} for {name}"), since, late),
        ]
    };
    malformed().into_iter().flat_map(rows).collect()
}

/// Other operations do not wait, whatever the numbers are.
fn other_operations() -> Vec<Row> {
    let enabled = Fault::Plan(|plan, _| {
        plan.state.flags |= 1;
        plan.state.recovery_threshold = 1;
    });
    let untested = |(name, since): (String, u64)| {
        let name = format!("{name}, not recovered");
        let row = row(0, &[1, 2], &name, Fault::Waits(since, 0));
        row.and(enabled).made(AllBut(0))
    };
    malformed().into_iter().map(untested).collect()
}

pub fn rows() -> Vec<Row> {
    let mut rows = value_rows();
    rows.extend(epoch_rows());
    rows.extend(kind_rows());
    rows.extend(malformed_rows());
    rows.extend(other_operations());
    rows
}
