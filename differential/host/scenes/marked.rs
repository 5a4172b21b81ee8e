//! Scenes of which document 01, with the field CAPACITY of document 02, says the number, written by hand.

use super::readings::Readings;
use crate::scene::ENTRIES;

/// The longest scene, and a store that is long enough.
pub const MANY: usize = 1 << 20;

/// `H` in a pattern stands for 64 digits, `S`, `T`, `I`, `O`, `D`, `W` and `V` for a whole line; `|` parts them.
pub fn scene(pattern: &str) -> String {
    let hash = "0123456789abcdef".repeat(4);
    let line = |part: &str| match part {
        "S" => "script,\n".into(),
        "T" => format!("tx,{hash}\n"),
        "I" => format!("input,1,0,,{hash},,,0\n"),
        "O" => format!("output,,{hash},,,0\n"),
        "D" => format!("dep,,{hash},,\n"),
        "W" => "witness,\n".into(),
        "V" => "verdicts,\n".into(),
        other => other.replace('H', &hash),
    };
    pattern.split('|').map(line).collect()
}

/// Kind, order, field count, ending, and lines that are missing.
const LINES: [(u32, &str); 39] = [
    (0, "S|T|V"),
    (0, "S|T|I|O|D|W|V"),
    (0, "S|T|I|I|D|W|W|V"),
    (0, "S|T|W|V"),
    (2, ""),
    (2, "\n"),
    (2, "S"),
    (2, "S|T"),
    (2, "S|T|I|O|D|W"),
    (2, "T|V"),
    (2, "S|V"),
    (2, "T|S|V"),
    (2, "S|S|T|V"),
    (2, "S|T|T|V"),
    (2, "S|T|V|V"),
    (2, "S|T|V|W"),
    (2, "S|T|V|\n"),
    (2, "\n|S|T|V"),
    (2, "S|\n|T|V"),
    (2, "S|T|O|I|V"),
    (2, "S|T|D|O|V"),
    (2, "S|T|W|D|V"),
    (2, "S|T|I|S|V"),
    (2, "S|T|verdicts,"),
    (2, "S|T|V|x"),
    (2, "script\n|T|V"),
    (2, "script,,\n|T|V"),
    (2, "Script,\n|T|V"),
    (2, " script,\n|T|V"),
    (2, "script\r,\n|T|V"),
    (2, "S|T|verdicts\n"),
    (2, "S|T|input,1,0,,H,,\n|V"),
    (2, "S|T|input,1,0,,H,,,0,\n|V"),
    (2, "S|T|output,,H,,\n|V"),
    (2, "S|T|output,,H,,,0,\n|V"),
    (2, "S|T|dep,1,0,,H,,\n|V"),
    (2, "S|T|dep,,H,,,0\n|V"),
    (2, "S|T|deps,,H,,\n|V"),
    (2, "S|input,9\n|V"),
];

const FORMS: [(u32, &str); 48] = [
    (0, "script,00\n|T|V"),
    (3, "script,0\n|T|V"),
    (3, "script,0g\n|T|V"),
    (3, "script,AB\n|T|V"),
    (3, "script,\r\n|T|V"),
    (3, "script, \n|T|V"),
    (3, "S|tx,\n|V"),
    (3, "S|tx,H0\n|V"),
    (3, "S|tx,H00\n|V"),
    (3, "S|tx,00\n|V"),
    (0, "S|T|input,0,0,,H,,,0\n|V"),
    (3, "S|T|input,,0,,H,,,0\n|V"),
    (3, "S|T|input,2,0,,H,,,0\n|V"),
    (3, "S|T|input,01,0,,H,,,0\n|V"),
    (3, "S|T|input,1,,,H,,,0\n|V"),
    (3, "S|T|input,1,00,,H,,,0\n|V"),
    (3, "S|T|input,1,01,,H,,,0\n|V"),
    (3, "S|T|input,1,-1,,H,,,0\n|V"),
    (3, "S|T|input,1,1a,,H,,,0\n|V"),
    (0, "S|T|input,1,18446744073709551615,,H,,,0\n|V"),
    (3, "S|T|input,1,18446744073709551616,,H,,,0\n|V"),
    (3, "S|T|input,1,184467440737095516150,,H,,,0\n|V"),
    (0, "S|T|input,1,0,H,H,00,,0\n|V"),
    (0, "S|T|input,1,0,H,H,00,0011,0\n|V"),
    (3, "S|T|input,1,0,H,H,,,0\n|V"),
    (3, "S|T|input,1,0,,H,00,,0\n|V"),
    (3, "S|T|input,1,0,,,,,0\n|V"),
    (3, "S|T|input,1,0,00,H,00,,0\n|V"),
    (3, "S|T|input,1,0,,H,,0,0\n|V"),
    (0, "S|T|output,H,H,00,,0\n|V"),
    (3, "S|T|output,H,H,,,0\n|V"),
    (3, "S|T|output,,H,00,,0\n|V"),
    (3, "S|T|output,,,,,0\n|V"),
    (0, "S|T|dep,H,H,00,ff\n|V"),
    (3, "S|T|dep,H,H,,ff\n|V"),
    (3, "S|T|dep,,H,00,ff\n|V"),
    (3, "S|T|witness,f\n|V"),
    (0, "S|T|verdicts,0120120120120120\n"),
    (3, "S|T|verdicts,01201201201201201\n"),
    (3, "S|T|verdicts,3\n"),
    (3, "S|T|verdicts, \n"),
    (3, "S|T|verdicts,\r\n"),
    // A malformed field of an ended line comes before a line that is missing later, and behind the line's own ending.
    (3, "script,0\n"),
    (2, "script,0"),
    (3, "S|T|verdicts,3\n|V"),
    (2, "S|T|V|verdicts,3\n"),
    (2, "S|T|verdicts,3"),
    (3, "S|T|witness,f\n|I|V"),
];

/// The 65th line, and what stands in it.
fn counts(readings: &mut Readings) {
    for line in ["I", "O", "D", "W"] {
        let many = |count: usize| vec![line; count].join("|");
        readings.expect(0, &scene(&format!("S|T|{}|V", many(64))), MANY, ENTRIES);
        readings.expect(4, &scene(&format!("S|T|{}|V", many(65))), MANY, ENTRIES);
        let unended = scene(&format!("S|T|{}", many(65)));
        let cut = &unended[..unended.len() - 1];
        readings.expect(2, cut, MANY, ENTRIES);
    }
    let witnesses = vec!["W"; 64].join("|");
    for (number, last) in [
        (4, "witness,0\n"),
        (2, "witness\n"),
        (2, "I"),
        (2, "\n"),
        (4, "W"),
    ] {
        let text = scene(&format!("S|T|{witnesses}|{last}|V"));
        readings.expect(number, &text, MANY, ENTRIES);
    }
    let text = scene(&format!("S|T|{witnesses}|W|V"));
    readings.expect(4, &text, 32, ENTRIES);
}

/// Short stores and short tables, with other faults before and behind.
const ROOM: [(u32, &str, usize, usize); 16] = [
    (0, "script,aabb\n|T|V", 34, 2_048),
    (6, "script,aabb\n|T|V", 33, 2_048),
    (6, "script,aabb\n|T|V", 1, 2_048),
    (6, "script,aabb\n|T|verdicts,9\n", 33, 2_048),
    (6, "script,aabb\n|none", 1, 2_048),
    (3, "script,aabbc\n|T|V", 1, 2_048),
    (2, "script,aabb,\n|T|V", 1, 2_048),
    (3, "script,aabb\n|tx,0\n|V", 2, 2_048),
    (0, "S|T|I|V", 64, 2_048),
    (6, "S|T|I|V", 63, 2_048),
    (0, "S|T|dep,H,H,00,ff\n|V", 98, 2_048),
    (6, "S|T|dep,H,H,00,ff\n|V", 97, 2_048),
    (6, "S|T|V", 32, 2_047),
    (6, "none", 32, 2_047),
    (6, "", 0, 0),
    (2, "", 0, 2_048),
];

pub fn run(readings: &mut Readings) {
    for (number, pattern) in LINES.iter().chain(&FORMS) {
        readings.expect(*number, &scene(pattern), MANY, ENTRIES);
    }
    for (number, pattern, store_len, table_len) in ROOM {
        readings.expect(number, &scene(pattern), store_len, table_len);
    }
    counts(readings);
    readings.expect(1, &"x".repeat(MANY + 1), 0, 0);
    readings.expect(6, &"x".repeat(MANY), 0, 0);
    readings.expect(2, &"x".repeat(MANY), 0, ENTRIES);
}
