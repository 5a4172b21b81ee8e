//! Store and table of a scene of any length, laid out as docs/LAYOUTS.md says: "The lent table and store".

use crate::lent::Lent;
use crate::scene::{DEP, ENTRIES, FIRST_ROW, INPUT, OUTPUT, SCRIPT, TX, VERDICTS, WITNESS};
use ckb_std::{Cell, Scene};

/// The low half first.
fn halves(number: u64) -> [u32; 2] {
    [number, number >> 32].map(|half| half as u32)
}

impl Lent {
    /// A line's record at the end of the table, its bytes at the end of the store.
    fn put(&mut self, kind: usize, numbers: &[u32], fields: &[&[u8]]) {
        self.table[kind] += 1;
        self.table.push(self.store.len() as u32);
        self.table.extend(numbers);
        self.store.extend(fields.concat());
    }

    fn put_bytes(&mut self, kind: usize, bytes: &[u8]) {
        self.put(kind, &[bytes.len() as u32], &[bytes]);
    }

    /// Numbers stand before the lengths of a cell's fields and behind them.
    fn put_cell(&mut self, kind: usize, before: &[u32], cell: &Cell, behind: &[u32]) {
        let type_hash = cell.type_hash.as_ref().map_or(&[][..], |hash| hash);
        let type_script = cell.type_script.as_deref().unwrap_or(&[]);
        let lengths = [type_script, &cell.data].map(|field| field.len() as u32);
        self.put(
            kind,
            &[before, &lengths, behind].concat(),
            &[type_hash, &cell.data_hash, type_script, &cell.data],
        );
    }

    /// What a reader with no longest scene would leave.
    pub fn lay_out(scene: &Scene) -> Self {
        let mut lent = Lent {
            store: vec![],
            table: vec![0; FIRST_ROW],
        };
        lent.put_bytes(SCRIPT, &scene.script);
        lent.put(TX, &[], &[&scene.tx_hash]);
        for input in &scene.inputs {
            let [low, high] = halves(input.since);
            let before = [u32::from(input.group), low, high];
            lent.put_cell(INPUT, &before, &input.cell, &halves(input.capacity));
        }
        for output in &scene.outputs {
            lent.put_cell(OUTPUT, &[], &output.cell, &halves(output.capacity));
        }
        for cell in &scene.deps {
            lent.put_cell(DEP, &[], cell, &[]);
        }
        for witness in &scene.witnesses {
            lent.put_bytes(WITNESS, witness);
        }
        let digits: Vec<u32> = scene.verdicts.iter().map(|digit| (*digit).into()).collect();
        lent.put(
            VERDICTS,
            &[&[digits.len() as u32], &digits[..]].concat(),
            &[],
        );
        lent.table.resize(ENTRIES, 0);
        lent
    }
}
