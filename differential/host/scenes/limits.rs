//! Each row of the reader at its limit and one off, and rows that meet in one scene.

use super::random::one_of_each;
use super::readings::Readings;
use crate::scene::ENTRIES;
use crate::scene_text::text;

const LONGEST: usize = 1_048_576;
/// The kinds that may stand up to 64 times, and where they stand in a scene with one of each.
const REPEATED: [usize; 4] = [2, 3, 4, 5];
const DIGITS_64: &str = "0123456789abcdef0123456789abcdef0123456789abcdef0123456789abcdef";

/// Lines with their endings.
fn lines(text: &[u8]) -> Vec<Vec<u8>> {
    text.split_inclusive(|byte| *byte == 10)
        .map(<[u8]>::to_vec)
        .collect()
}

/// A scene with one line of each kind, as lines.
fn base(readings: &mut Readings, typed: bool) -> Vec<Vec<u8>> {
    lines(&text(&one_of_each(&mut readings.prng, typed)))
}

/// The lines with the one at `place` so many times, and `last` behind them.
fn repeated(lines: &[Vec<u8>], place: usize, count: usize, last: &[u8]) -> Vec<u8> {
    let mut copy = lines.to_vec();
    copy.splice(place..=place, vec![lines[place].clone(); count]);
    copy.insert(place + count, last.to_vec());
    copy.concat()
}

/// 64 and 65 lines of a kind, the 65th with other faults too.
fn counts(readings: &mut Readings) {
    let lines = base(readings, true);
    for place in REPEATED {
        for count in [0, 1, 2, 63, 64, 65, 66] {
            readings.scene(&repeated(&lines, place, count, &[]));
        }
        let line = &lines[place];
        let ended = line.len() - 1;
        let bad_field = [&line[..ended], b"G\n"].concat();
        let one_field_more = [&line[..ended], b",\n"].concat();
        for last in [&bad_field, &one_field_more, &lines[0], &b"\n".to_vec()] {
            readings.scene(&repeated(&lines, place, 64, last));
        }
        let whole = repeated(&lines, place, 65, &[]);
        let end: usize = lines[..place].concat().len() + 65 * line.len();
        readings.scene(&whole[..end - 1]);
    }
    readings.scene(&all_64(&lines));
    for place in 0..lines.len() {
        readings.scene(&repeated(&lines, place, 2, &[]));
        readings.scene(&repeated(&lines, place, 1, b"\n"));
    }
}

/// The scene that fills the table furthest.
fn all_64(lines: &[Vec<u8>]) -> Vec<u8> {
    let many = |place: usize| if REPEATED.contains(&place) { 64 } else { 1 };
    let mut copy: Vec<u8> = (0..lines.len() - 1)
        .flat_map(|place| lines[place].repeat(many(place)))
        .collect();
    copy.extend(b"verdicts,0120120120120120\n");
    copy
}

/// Texts for any field, right in some and wrong in others.
fn values() -> Vec<String> {
    let mut values: Vec<String> = [62, 63, 64].map(|n| DIGITS_64[..n].to_string()).to_vec();
    values.extend(["a", "ab", "g", "G"].map(|more| format!("{DIGITS_64}{more}")));
    values.push(format!("{}A", &DIGITS_64[..63]));
    values.push(format!("{}g", &DIGITS_64[..63]));
    let since = [
        "18446744073709551615",
        "18446744073709551616",
        "28446744073709551615",
        "99999999999999999999",
        "184467440737095516150",
        "018446744073709551615",
    ];
    values.extend(since.map(String::from));
    let short = [
        "", "0", "1", "2", "3", "9", "10", "00", "01", "000", "0120", "0123", "-1", "+1", " 1",
        "1 ", "1a", "a1", "A1", "aG", "\r", "\0", "\u{7f}", "\u{e9}", "0x", "ab", "AB",
    ];
    values.extend(short.map(String::from));
    values.extend([15, 16, 17, 18].map(|count| "2".repeat(count)));
    values
}

/// The line with another text in one field.
fn with_field(line: &[u8], field: usize, value: &str) -> Vec<u8> {
    let fields = line[..line.len() - 1].split(|byte| *byte == b',');
    let mut fields: Vec<&[u8]> = fields.collect();
    fields[field] = value.as_bytes();
    [&fields.join(&b','), &b"\n"[..]].concat()
}

/// Every field of every line, with every text.
fn forms(readings: &mut Readings) {
    for typed in [true, false] {
        let lines = base(readings, typed);
        for place in 0..lines.len() {
            let count = lines[place].iter().filter(|byte| **byte == b',').count();
            for field in 0..=count {
                for value in values() {
                    let mut copy = lines.clone();
                    copy[place] = with_field(&lines[place], field, &value);
                    readings.scene(&copy.concat());
                }
            }
        }
    }
}

/// Lines with a field too many or too few, alone and with a malformed field.
fn field_counts(readings: &mut Readings) {
    let lines = base(readings, true);
    for place in 0..lines.len() {
        let line = &lines[place];
        let commas: Vec<usize> = (0..line.len()).filter(|i| line[*i] == b',').collect();
        for comma in commas {
            let (before, behind) = line.split_at(comma);
            for part in [
                behind[1..].to_vec(),
                [b",", behind].concat(),
                [b",G", behind].concat(),
            ] {
                let mut copy = lines.clone();
                copy[place] = [before, &part].concat();
                readings.scene(&copy.concat());
            }
        }
    }
}

/// Every length of store that matters, alone and with a fault in some line.
fn stores(readings: &mut Readings) {
    for typed in [true, false] {
        let lines = base(readings, typed);
        let length = lines.concat().len();
        for store_len in 0..length / 2 {
            readings.scene_in(&lines.concat(), store_len, ENTRIES);
            for place in 0..lines.len() {
                let mut copy = lines.clone();
                copy[place].insert(lines[place].len() - 1, b'G');
                readings.scene_in(&copy.concat(), store_len, ENTRIES);
                copy[place] = b"dep,\n".to_vec();
                readings.scene_in(&copy.concat(), store_len, ENTRIES);
            }
        }
    }
}

fn tables(readings: &mut Readings) {
    let lines = base(readings, true);
    let scenes = [lines.concat(), all_64(&lines), b"none".to_vec(), vec![]];
    for table_len in [
        0, 1, 7, 8, 9, 1_180, 1_181, 1_182, 2_047, 2_048, 2_049, 4_096,
    ] {
        for scene in &scenes {
            readings.scene_in(scene, scene.len() / 2, table_len);
        }
    }
}

/// A valid scene of this length: its last witness is as long as it takes, and SINCE has one digit or two.
fn of_length(lines: &[Vec<u8>], length: usize) -> Vec<u8> {
    let mut copy = lines.to_vec();
    copy[5] = b"witness,\n".to_vec();
    copy[2] = with_field(&copy[2], 2, "7");
    if (length - copy.concat().len()) % 2 == 1 {
        copy[2] = with_field(&copy[2], 2, "17");
    }
    let digits = length - copy.concat().len();
    copy[5] = with_field(&copy[5], 1, &"a".repeat(digits));
    copy.concat()
}

fn lengths(readings: &mut Readings) {
    let lines = base(readings, true);
    for length in LONGEST - 1..=LONGEST + 2 {
        let scene = of_length(&lines, length);
        let damaged = [b"S", &scene[1..]].concat();
        for text in [scene, damaged, vec![b'\n'; length]] {
            for table_len in [ENTRIES - 1, ENTRIES] {
                readings.scene_in(&text, length / 2, table_len);
            }
        }
    }
}

pub fn run(readings: &mut Readings) {
    counts(readings);
    forms(readings);
    field_counts(readings);
    stores(readings);
    tables(readings);
    lengths(readings);
}
