//! A store and a table as the lock is lent them.

use crate::scene::{self, DEP, ENTRIES, FIRST_ROW, HASH, INPUT, OUTPUT, WITNESS};
use ckb_std::{Cell, Input, Output, Scene};

#[derive(Clone)]
pub struct Lent {
    pub store: Vec<u8>,
    pub table: Vec<u32>,
}

impl Lent {
    /// What the plain reader leaves for an accepted scene, with a store that it fills exactly.
    pub fn read(text: &[u8]) -> Self {
        let mut store = vec![0; text.len() / 2];
        let mut table = vec![0; ENTRIES];
        let number = scene::read(text, &mut store, &mut table);
        assert_eq!(number, 0, "a scene that the reader accepts");
        store.truncate(filled(&table).used);
        Lent { store, table }
    }

    /// The scene that a valid table and its store hold.
    pub fn scene(&self) -> Scene {
        let mut rows = Rows::start(self);
        let script = rows.bytes_row();
        rows.next();
        let tx_hash = rows.hash();
        let count = |kind: usize| 0..self.table[kind];
        Scene {
            script,
            tx_hash,
            inputs: count(INPUT).map(|_| rows.input()).collect(),
            outputs: count(OUTPUT).map(|_| rows.output()).collect(),
            deps: count(DEP).map(|_| rows.cell_row()).collect(),
            witnesses: count(WITNESS).map(|_| rows.bytes_row()).collect(),
            verdicts: rows.verdicts(),
        }
    }
}

/// How far a valid table and its store are filled.
pub struct Filled {
    pub entries: usize,
    pub used: usize,
}

pub fn filled(table: &[u32]) -> Filled {
    let widths = [2, 1, 8, 5, 3, 2];
    let rows = widths.iter().zip(&table[1..]);
    let verdicts = FIRST_ROW
        + rows
            .map(|(width, count)| width * *count as usize)
            .sum::<usize>();
    Filled {
        entries: verdicts + 2 + table[verdicts + 1] as usize,
        used: table[verdicts] as usize,
    }
}

/// Reads rows in order, and the bytes they name, which stand end to end.
struct Rows<'a> {
    lent: &'a Lent,
    at: usize,
    used: usize,
}

impl<'a> Rows<'a> {
    fn start(lent: &'a Lent) -> Self {
        let at = FIRST_ROW;
        Rows { lent, at, used: 0 }
    }

    fn next(&mut self) -> u32 {
        self.at += 1;
        self.lent.table[self.at - 1]
    }

    fn bytes(&mut self, length: usize) -> Vec<u8> {
        self.used += length;
        self.lent.store[self.used - length..self.used].to_vec()
    }

    fn hash(&mut self) -> [u8; HASH] {
        self.bytes(HASH).try_into().expect("32 bytes")
    }

    fn bytes_row(&mut self) -> Vec<u8> {
        self.next();
        let length = self.next() as usize;
        self.bytes(length)
    }

    fn input(&mut self) -> Input {
        self.next();
        let group = self.next() == 1;
        Input {
            group,
            since: self.halves(),
            cell: self.cell(),
            capacity: self.halves(),
        }
    }

    fn output(&mut self) -> Output {
        Output {
            cell: self.cell_row(),
            capacity: self.halves(),
        }
    }

    /// A number of 64 bits, its low half first.
    fn halves(&mut self) -> u64 {
        let [low, high] = [self.next(), self.next()].map(u64::from);
        low | high << 32
    }

    fn cell_row(&mut self) -> Cell {
        self.next();
        self.cell()
    }

    fn cell(&mut self) -> Cell {
        let [script, data] = [self.next(), self.next()].map(|length| length as usize);
        let typed = script > 0;
        Cell {
            type_hash: typed.then(|| self.hash()),
            data_hash: self.hash(),
            type_script: typed.then(|| self.bytes(script)),
            data: self.bytes(data),
        }
    }

    fn verdicts(&mut self) -> Vec<u8> {
        self.next();
        let count = self.next();
        (0..count).map(|_| self.next() as u8).collect()
    }
}
