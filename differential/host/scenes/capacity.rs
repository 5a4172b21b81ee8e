//! The field CAPACITY at the end of input and output lines, "written as SINCE is": scenes of which document 02 says the number.

use super::marked::{scene, MANY};
use super::readings::Readings;
use crate::scene::ENTRIES;

/// Lines but for this field and its comma, as `scene` takes them, and the bytes that a scene with one of them has in its store.
const STARTS: [(&str, usize); 5] = [
    ("input,1,0,,H,,", 64),
    ("input,0,0,,H,,", 64),
    ("input,1,7,H,H,00,ff", 98),
    ("output,,H,,", 64),
    ("output,H,H,00,ff", 98),
];

const FIELDS: [(u32, &str); 31] = [
    (0, "0"),
    (0, "1"),
    (0, "9"),
    (0, "10"),
    (0, "4294967295"),
    (0, "4294967296"),
    (0, "9223372036854775808"),
    (0, "18446744073709551614"),
    (0, "18446744073709551615"),
    (3, "18446744073709551616"),
    (3, "28446744073709551615"),
    (3, "100000000000000000000"),
    (3, "184467440737095516150"),
    (3, ""),
    (3, "00"),
    (3, "01"),
    (3, "018446744073709551615"),
    (3, "+1"),
    (3, "-1"),
    (3, " 1"),
    (3, "1 "),
    (3, "1a"),
    (3, "ab"),
    (3, "0x1"),
    (3, "1.0"),
    (3, "\r"),
    (3, "1\r"),
    // A field more than there should be.
    (2, "0,"),
    (2, "0,0"),
    (2, ",0"),
    (2, "1,000"),
];

/// Behind 64 lines of its kind: the field count comes before the 65th line, and that before a field's form.
const LAST: [(u32, &str); 6] = [
    (2, ""),
    (2, ",0,"),
    (2, ",00,"),
    (4, ","),
    (4, ",00"),
    (4, ",0"),
];

/// Lines with several faults, and those of other kinds with a capacity.
const OTHERS: [(u32, &str); 14] = [
    (0, "input,1,0,,H,,,0\n|O"),
    (2, "input,1,0,,H,,\n|O"),
    (2, "I|output,,H,,\n"),
    (3, "input,2,0,,H,,,00\n"),
    (3, "input,1,0,H,H,,,00\n"),
    (3, "output,H,H,,,00\n"),
    (3, "output,,H,00,,00\n"),
    (2, "output,H,H,\n"),
    (2, "dep,,H,,,0\n"),
    (2, "dep,,H,,,\n"),
    (2, "dep,,H,,,00\n"),
    (2, "witness,,0\n"),
    (3, "input,1,0,,H,,,00\n|dep,,H,,,0\n"),
    (2, "dep,,H,,,0\n|input,1,0,,H,,,00\n"),
];

/// A form comes before a store that is too short.
fn rooms(readings: &mut Readings, start: &str, used: usize) {
    let text = |field| scene(&format!("S|T|{start},{field}\n|V"));
    readings.expect(0, &text("0"), used, ENTRIES);
    readings.expect(6, &text("18446744073709551615"), used - 1, ENTRIES);
    readings.expect(3, &text("00"), used - 1, ENTRIES);
    readings.expect(2, &text("0,"), used - 1, ENTRIES);
}

fn of_line(readings: &mut Readings, start: &str) {
    let missing = scene(&format!("S|T|{start}\n|V"));
    readings.expect(2, &missing, MANY, ENTRIES);
    for (number, field) in FIELDS {
        let text = scene(&format!("S|T|{start},{field}\n|V"));
        readings.expect(number, &text, MANY, ENTRIES);
    }
    let many = format!("{start},7\n|").repeat(64);
    readings.expect(0, &scene(&format!("S|T|{many}V")), MANY, ENTRIES);
    for (number, end) in LAST {
        let text = scene(&format!("S|T|{many}{start}{end}\n|V"));
        readings.expect(number, &text, MANY, ENTRIES);
    }
}

pub fn run(readings: &mut Readings) {
    for (start, used) in STARTS {
        of_line(readings, start);
        rooms(readings, start, used);
    }
    for (number, lines) in OTHERS {
        readings.expect(number, &scene(&format!("S|T|{lines}|V")), MANY, ENTRIES);
    }
}
