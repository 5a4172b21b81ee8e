//! The rows of the current state and of its successor: both are read alike.

use super::parts::{put_u16, set, shorten, u16_at};
use super::{row, Fault, OnBytes, Part, Row, ALL, CHANGING};

/// Where the first entry stands.
pub const FIRST: usize = 32;

/// Where the entry of this place stands, if there is one.
pub fn entry(state: &[u8], place: usize) -> usize {
    (0..place).fold(FIRST, |at, _| at + u16_at(state, at))
}

/// Where the last entry stands.
pub fn last(state: &[u8]) -> usize {
    let count = state.get(22).copied().unwrap_or(0);
    entry(state, usize::from(count).saturating_sub(1))
}

/// Gives the entry that stands here another aux, the lengths staying right.
pub fn set_aux(state: &mut Vec<u8>, at: usize, aux: Vec<u8>) {
    let (start, end) = (at + 80, at + u16_at(state, at));
    if start <= end && end <= state.len() {
        put_u16(state, at, 80 + aux.len());
        put_u16(state, at + 46, aux.len());
        state.splice(start..end, aux);
    }
}

/// Moves the border between key and aux of the entry that stands here.
pub fn move_border(state: &mut [u8], at: usize, key_len: usize) {
    let both = u16_at(state, at + 44) + u16_at(state, at + 46);
    put_u16(state, at + 44, key_len);
    put_u16(state, at + 46, both.saturating_sub(key_len));
}

/// Sets the flags, with these numbers for recovery.
pub fn recovery(state: &mut [u8], flags: u8, threshold: usize, since: u8) {
    set(state, 5, flags);
    put_u16(state, 20, threshold);
    for at in 24..32 {
        set(state, at, 0);
    }
    set(state, 24, since);
}

/// A number, what has it, and how.
pub type Change = (i8, &'static str, OnBytes);

pub const HEADER: [Change; 14] = [
    (21, "is empty", |state, _| state.clear()),
    (21, "has 31 bytes", |state, _| state.truncate(31)),
    (21, "has another magic", |state, _| set(state, 3, b'W')),
    (32, "has version 0", |state, _| set(state, 4, 0)),
    (32, "has version 2", |state, _| set(state, 4, 2)),
    (21, "has another magic and version 2", |state, _| {
        set(state, 0, 0);
        set(state, 4, 2);
    }),
    (32, "has version 2 and flags 4", |state, _| {
        set(state, 4, 2);
        set(state, 5, 4);
    }),
    (21, "has flags 4", |state, _| set(state, 5, 4)),
    (21, "has flags 0x80", |state, _| set(state, 5, 0x80)),
    (21, "has header length 33", |state, _| set(state, 6, 33)),
    (21, "has header length 288", |state, _| set(state, 7, 1)),
    (21, "has byte 23 set", |state, _| set(state, 23, 1)),
    (21, "has no entry", |state, _| set(state, 22, 0)),
    (21, "has 17 entries", |state, _| set(state, 22, 17)),
];

/// Of its first entry.
pub const ENTRIES: [Change; 17] = [
    (21, "has an entry length one more", |state, _| {
        let length = u16_at(state, FIRST);
        put_u16(state, FIRST, length + 1);
    }),
    (21, "has an entry length one less", |state, _| {
        let length = u16_at(state, FIRST);
        put_u16(state, FIRST, length.saturating_sub(1));
    }),
    (21, "has an aux past its end", |state, _| {
        let length = u16_at(state, FIRST);
        put_u16(state, FIRST, length + 20_000);
        let aux = u16_at(state, FIRST + 46);
        put_u16(state, FIRST + 46, aux + 20_000);
    }),
    (21, "has weight 0", |state, _| put_u16(state, FIRST + 8, 0)),
    (21, "has capability 0x0010", |state, _| {
        put_u16(state, FIRST + 6, 0x17)
    }),
    (21, "has capability 0x8000", |state, _| {
        put_u16(state, FIRST + 6, 0x8007)
    }),
    (30, "has hash type 2", |state, _| set(state, FIRST + 10, 2)),
    (30, "has ABI 0", |state, _| set(state, FIRST + 11, 0)),
    (30, "has ABI 2", |state, _| set(state, FIRST + 11, 2)),
    (21, "has weight 0 and ABI 2", |state, _| {
        put_u16(state, FIRST + 8, 0);
        set(state, FIRST + 11, 2);
    }),
    (30, "has ABI 2 and algorithm 0", |state, _| {
        set(state, FIRST + 11, 2);
        put_u16(state, FIRST + 4, 0);
    }),
    (33, "has algorithm 0", |state, _| {
        put_u16(state, FIRST + 4, 0)
    }),
    (33, "has algorithm 0x0301", |state, _| {
        put_u16(state, FIRST + 4, 0x0301)
    }),
    (33, "has algorithm 0 and a key of 31", |state, _| {
        put_u16(state, FIRST + 4, 0);
        move_border(state, FIRST, 31);
    }),
    (21, "has a key of 31", |state, _| {
        move_border(state, FIRST, 31)
    }),
    (21, "has a key of 33", |state, _| {
        move_border(state, FIRST, 33)
    }),
    (21, "has an empty aux", |state, _| {
        set_aux(state, FIRST, vec![])
    }),
];

/// Of its last entry.
pub const SHORT: Change = (21, "is one byte short", |state, _| shorten(state));

/// Another u16 in the last entry.
fn set_last(state: &mut [u8], offset: usize, value: usize) {
    let at = last(state);
    put_u16(state, at + offset, value);
}

/// Of its last entry, which stands behind another one.
pub const LATER: [Change; 9] = [
    (21, "has a later weight 0", |state, _| set_last(state, 8, 0)),
    (21, "has a later capability 0x0010", |state, _| {
        set_last(state, 6, 0x17)
    }),
    (30, "has a later hash type 2", |state, _| {
        set_last(state, 10, 0x0102)
    }),
    (30, "has a later ABI 2", |state, _| {
        set_last(state, 10, 0x0200)
    }),
    (33, "has a later algorithm 0", |state, _| {
        set_last(state, 4, 0)
    }),
    (21, "has a later entry length 80", |state, _| {
        set_last(state, 0, 80)
    }),
    (21, "has a later key of 31", |state, _| {
        let at = last(state);
        move_border(state, at, 31);
    }),
    (21, "has a later aux that is empty", |state, _| {
        let at = last(state);
        set_aux(state, at, vec![]);
    }),
    (21, "has a slot twice", |state, _| same_slot(state)),
];

/// Behind its last entry.
pub const BEHIND: [Change; 11] = [
    (21, "has an entry less than it counts", |state, _| {
        let count = state.get(22).map_or(0, |count| count + 1);
        set(state, 22, count);
    }),
    (21, "has a byte behind", |state, _| state.push(0)),
    (38, "has spend threshold 0", |state, _| {
        put_u16(state, 16, 0)
    }),
    (38, "has rotate threshold 0", |state, _| {
        put_u16(state, 18, 0)
    }),
    (38, "has spend threshold 65,535", |state, _| {
        light(state, 16)
    }),
    (38, "has rotate threshold 65,535", |state, _| {
        light(state, 18)
    }),
    (38, "has recovery threshold 0", |state, _| {
        recovery(state, 1, 0, 0)
    }),
    (38, "has recovery threshold 65,535", |state, _| {
        recovery(state, 1, 1, 0);
        light(state, 20);
    }),
    (21, "has a recovery threshold and no flag", |state, _| {
        recovery(state, 0, 1, 0)
    }),
    (21, "has recovery_since and no flag", |state, _| {
        recovery(state, 0, 0, 1)
    }),
    (
        38,
        "has spend threshold 0 and recovery_since",
        |state, _| {
            recovery(state, 0, 0, 1);
            put_u16(state, 16, 0);
        },
    ),
];

/// One entry of weight 1, which does not reach the threshold there.
fn light(state: &mut Vec<u8>, at: usize) {
    state.truncate(entry(state, 1));
    set(state, 22, 1);
    put_u16(state, FIRST + 6, 7);
    put_u16(state, FIRST + 8, 1);
    put_u16(state, 16, 1);
    put_u16(state, 18, 1);
    put_u16(state, at, 65_535);
}

/// A change of the current state, and of the successor.
pub fn of_both((number, name, change): Change) -> [Row; 2] {
    let state = Fault::Bytes(Part::State, change);
    let successor = Fault::Bytes(Part::Successor, change);
    [
        row(number, ALL, &format!("state {name}"), state),
        row(number, CHANGING, &format!("successor {name}"), successor),
    ]
}

/// The slot of the first entry in the second too.
pub fn same_slot(state: &mut [u8]) {
    let (slot, next) = (u16_at(state, FIRST + 2), entry(state, 1));
    put_u16(state, next + 2, slot);
}

pub fn rows() -> Vec<Row> {
    let changes = HEADER
        .into_iter()
        .chain(ENTRIES)
        .chain([SHORT])
        .chain(BEHIND);
    let mut rows: Vec<Row> = changes.flat_map(of_both).collect();
    let fault = Fault::Bytes(Part::State, |state, _| same_slot(state));
    rows.push(row(21, ALL, "state has a slot twice", fault));
    rows
}
