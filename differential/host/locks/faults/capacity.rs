//! The rows of totals: above 2^64-1, of inputs first, then outputs above inputs. They stand behind all others.

use super::Made::AllBut;
use super::{on_scene, row, Fault, Row, ALL, SPEND};
use crate::capacity::{LAST, LENGTH_OVERFLOW, OUTPUTS_EXCEED_INPUTS};
use crate::locks::capacities::Wanted;

/// The least total that is refused; a sum of 64 bits comes back to 0 there.
const ABOVE: u128 = LAST + 1;
/// A total that needs both halves.
const SOME: u128 = 6_100_000_000;

/// Names, totals of inputs and of outputs, and numbers.
const TOTALS: [(&str, u128, u128, i8); 37] = [
    ("no capacity", 0, 0, 0),
    ("inputs 1", 1, 0, 0),
    ("equal totals", SOME, SOME, 0),
    ("fee 1", SOME, SOME - 1, 0),
    (
        "outputs one above inputs",
        SOME,
        SOME + 1,
        OUTPUTS_EXCEED_INPUTS,
    ),
    ("inputs 0, outputs 1", 0, 1, OUTPUTS_EXCEED_INPUTS),
    ("inputs 0, outputs 2^64-1", 0, LAST, OUTPUTS_EXCEED_INPUTS),
    ("inputs 2^32, outputs 2^32-1", 1 << 32, (1 << 32) - 1, 0),
    (
        "inputs 2^32-1, outputs 2^32",
        (1 << 32) - 1,
        1 << 32,
        OUTPUTS_EXCEED_INPUTS,
    ),
    ("inputs 2^33, outputs 2^32+1", 1 << 33, (1 << 32) + 1, 0),
    (
        "inputs 2^32+1, outputs 2^33",
        (1 << 32) + 1,
        1 << 33,
        OUTPUTS_EXCEED_INPUTS,
    ),
    ("inputs 2^63, outputs 2^63-1", 1 << 63, (1 << 63) - 1, 0),
    (
        "inputs 2^63-1, outputs 2^63",
        (1 << 63) - 1,
        1 << 63,
        OUTPUTS_EXCEED_INPUTS,
    ),
    ("inputs 2^64-1", LAST, 0, 0),
    ("inputs 2^64-1, outputs 2^64-2", LAST, LAST - 1, 0),
    ("both totals 2^64-1", LAST, LAST, 0),
    ("both totals 2^64-2", LAST - 1, LAST - 1, 0),
    (
        "inputs 2^64-2, outputs 2^64-1",
        LAST - 1,
        LAST,
        OUTPUTS_EXCEED_INPUTS,
    ),
    ("inputs 2^64", ABOVE, 0, LENGTH_OVERFLOW),
    ("inputs 2^64, outputs 1", ABOVE, 1, LENGTH_OVERFLOW),
    ("inputs 2^64, outputs 2^64-1", ABOVE, LAST, LENGTH_OVERFLOW),
    ("both totals 2^64", ABOVE, ABOVE, LENGTH_OVERFLOW),
    ("outputs 2^64", LAST, ABOVE, LENGTH_OVERFLOW),
    ("inputs 0, outputs 2^64", 0, ABOVE, LENGTH_OVERFLOW),
    ("inputs 2^64+5, outputs 5", ABOVE + 5, 5, LENGTH_OVERFLOW),
    ("inputs 2^64+5, outputs 3", ABOVE + 5, 3, LENGTH_OVERFLOW),
    ("inputs 2^64+5, outputs 7", ABOVE + 5, 7, LENGTH_OVERFLOW),
    ("inputs 10, outputs 2^64+3", 10, ABOVE + 3, LENGTH_OVERFLOW),
    (
        "inputs 10, outputs 2^64+10",
        10,
        ABOVE + 10,
        LENGTH_OVERFLOW,
    ),
    ("inputs 5, outputs 2^64+10", 5, ABOVE + 10, LENGTH_OVERFLOW),
    (
        "inputs 2^64+10, outputs 2^64+3",
        ABOVE + 10,
        ABOVE + 3,
        LENGTH_OVERFLOW,
    ),
    (
        "inputs 2^64+3, outputs 2^64+10",
        ABOVE + 3,
        ABOVE + 10,
        LENGTH_OVERFLOW,
    ),
    ("inputs 2^65-2", 2 * LAST, 0, LENGTH_OVERFLOW),
    ("inputs 2^65", 2 * ABOVE, 0, LENGTH_OVERFLOW),
    ("outputs 2^65", LAST, 2 * ABOVE, LENGTH_OVERFLOW),
    ("inputs 64 times 2^64-1", 64 * LAST, 0, LENGTH_OVERFLOW),
    (
        "both 64 times 2^64-1",
        64 * LAST,
        64 * LAST,
        LENGTH_OVERFLOW,
    ),
];

/// What foreign inputs have of it, besides. The inputs of the group alone would be answered otherwise.
const FOREIGN: [(&str, u128, u128, u128, i8); 8] = [
    ("foreign inputs have all", SOME, SOME, SOME, 0),
    ("foreign inputs have 1", SOME, SOME, 1, 0),
    ("foreign inputs have the fee", SOME + 7, SOME, 7, 0),
    ("foreign inputs have 2^64-1", LAST, LAST, LAST, 0),
    (
        "foreign inputs have 1 of 2^64",
        ABOVE,
        0,
        1,
        LENGTH_OVERFLOW,
    ),
    ("foreign inputs have 2^64", ABOVE, 0, ABOVE, LENGTH_OVERFLOW),
    (
        "foreign inputs have 2^64-1 of 2^64",
        ABOVE,
        1,
        LAST,
        LENGTH_OVERFLOW,
    ),
    (
        "foreign inputs one too few",
        SOME,
        SOME + 1,
        SOME - 5,
        OUTPUTS_EXCEED_INPUTS,
    ),
];

/// A row whose fee is what the totals say.
fn totals(number: i8, name: &str, wanted: Wanted) -> Row {
    let row = row(number, ALL, name, Fault::Totals(wanted));
    row.made(AllBut(0)).fee(wanted)
}

/// With the fewest lines that have these totals, with two, and with 64.
fn total_rows() -> Vec<Row> {
    let mut rows = Vec::new();
    for (name, inputs, outputs, number) in TOTALS {
        for lines in [0, 2, 64] {
            let wanted = Wanted {
                inputs,
                outputs,
                lines,
                foreign: None,
            };
            let row = totals(number, &format!("{name}, {lines} lines or more"), wanted);
            let long = lines == 64 || inputs.max(outputs) == 64 * LAST;
            rows.push(if long { row.long() } else { row });
        }
    }
    rows
}

fn foreign_rows() -> Vec<Row> {
    let rows = FOREIGN.map(|(name, inputs, outputs, foreign, number)| {
        let wanted = Wanted {
            inputs,
            outputs,
            lines: 0,
            foreign: Some(foreign),
        };
        totals(number, name, wanted)
    });
    rows.into()
}

/// A spend without an output: the fee is all that its inputs have.
fn no_output_rows() -> Vec<Row> {
    let rows = [0, 1, SOME, 1 << 32, LAST, ABOVE].map(|inputs| {
        let wanted = Wanted {
            inputs,
            outputs: 0,
            lines: 0,
            foreign: None,
        };
        let number = if inputs > LAST { LENGTH_OVERFLOW } else { 0 };
        let name = format!("no output, inputs {inputs}");
        let row = on_scene(number, SPEND, &name, |scene, _, _| scene.outputs.clear());
        let row = row.and(Fault::Totals(wanted)).made(AllBut(0));
        row.fee(wanted)
    });
    rows.into()
}

pub fn rows() -> Vec<Row> {
    let mut rows = total_rows();
    rows.extend(foreign_rows());
    rows.extend(no_output_rows());
    rows
}
