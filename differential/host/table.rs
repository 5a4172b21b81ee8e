//! The test of a lent table, written from document 01's row for 7. Any two halves are a number.

use crate::scene::{
    DEP, ENTRIES, FIRST_ROW, HASH, INPUT, MOST_DIGITS, MOST_LINES, OUTPUT, SCRIPT, TX, VERDICTS,
};

/// A walk over the rows of a table.
struct Walk<'a> {
    table: &'a [u32],
    at: usize,
    /// The bytes that the rows so far name.
    used: u64,
}

impl Walk<'_> {
    fn next(&mut self) -> u32 {
        self.at += 1;
        self.table[self.at - 1]
    }

    fn bytes(&mut self) {
        self.used += u64::from(self.next());
    }

    /// Type hash and type script are both there or neither.
    fn cell(&mut self) {
        let hashes = if self.table[self.at] == 0 { 1 } else { 2 };
        self.used += hashes * HASH as u64;
        self.bytes();
        self.bytes();
    }

    fn halves(&mut self) {
        self.at += 2;
    }

    fn digits(&mut self) -> bool {
        let count = self.next();
        count <= MOST_DIGITS as u32 && (0..count).all(|_| self.next() <= 2)
    }

    /// Whether a row is one that a line of this kind leaves.
    fn row(&mut self, kind: usize) -> bool {
        if u64::from(self.next()) != self.used {
            return false;
        }
        match kind {
            TX => self.used += HASH as u64,
            INPUT => {
                let group = self.next();
                self.halves();
                self.cell();
                self.halves();
                return group <= 1;
            }
            OUTPUT => {
                self.cell();
                self.halves();
            }
            DEP => self.cell(),
            VERDICTS => return self.digits(),
            _ => self.bytes(),
        }
        true
    }
}

/// Whether the number of lines of a kind is one that a scene can have.
fn count_valid(kind: usize, count: u32) -> bool {
    match kind {
        SCRIPT | TX | VERDICTS => count == 1,
        _ => count <= MOST_LINES,
    }
}

/// Whether some scene, its length aside, leaves this table with a store of that length.
pub fn valid(table: &[u32], store_len: usize) -> bool {
    let kinds = SCRIPT..=VERDICTS;
    if table.len() < ENTRIES || table[0] != 0 {
        return false;
    }
    if !kinds.clone().all(|kind| count_valid(kind, table[kind])) {
        return false;
    }
    let mut walk = Walk {
        table,
        at: FIRST_ROW,
        used: 0,
    };
    let mut rows = kinds.flat_map(|kind| (0..table[kind]).map(move |_| kind));
    rows.all(|kind| walk.row(kind))
        && walk.used <= store_len as u64
        && table[walk.at..].iter().all(|entry| *entry == 0)
}
