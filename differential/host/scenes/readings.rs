//! Calls of both readers, compared.

use crate::lent::Lent;
use crate::prng::Prng;
use crate::report::Report;
use crate::scene::{self, ENTRIES};
use crate::scene_exports;
use crate::scene_text::text;
use crate::table;

pub struct Readings<'a> {
    pub report: &'a mut Report,
    pub prng: Prng,
}

/// What a reader leaves.
#[derive(Debug, PartialEq)]
pub struct Reading {
    pub number: u32,
    pub store: Vec<u8>,
    pub table: Vec<u32>,
}

type Reader = fn(&[u8], &mut [u8], &mut [u32]) -> u32;

/// Both buffers hold this before.
pub fn read(
    reader: Reader,
    text: &[u8],
    store_len: usize,
    table_len: usize,
    before: u8,
) -> Reading {
    let mut store = vec![before; store_len];
    let mut table = vec![u32::from(before); table_len];
    let number = reader(text, &mut store, &mut table);
    Reading {
        number,
        store,
        table,
    }
}

impl Readings<'_> {
    /// A text, with a store and a table of these lengths.
    pub fn scene_in(&mut self, text: &[u8], store_len: usize, table_len: usize) {
        let result = read(scene_exports::read_scene, text, store_len, table_len, 0xa5);
        let expected = read(scene::read, text, store_len, table_len, 0x5a);
        self.report.answered("read_scene", result.number);
        let input = || {
            let text = String::from_utf8_lossy(text);
            format!("store of {store_len}, table of {table_len}, {text:?}")
        };
        let size = text.len();
        self.report
            .compare("read_scene", size, input, &result, &expected);
    }

    /// A text of which document 01 says the number.
    pub fn expect(&mut self, number: u32, text: &str, store_len: usize, table_len: usize) {
        let result = read(scene::read, text.as_bytes(), store_len, table_len, 0);
        let input = || format!("store of {store_len}, table of {table_len}, {text:?}");
        let name = "plain reader by document 01";
        self.report
            .compare(name, text.len(), input, &result.number, &number);
        self.scene_in(text.as_bytes(), store_len, table_len);
    }

    /// A text, with a store that is long enough and one that may not be.
    pub fn scene(&mut self, text: &[u8]) {
        let enough = text.len() / 2;
        let some = self.prng.up_to(enough);
        self.scene_in(text, enough, ENTRIES);
        self.scene_in(text, some, ENTRIES);
    }

    /// A valid scene reads as itself.
    pub fn round_trip(&mut self, written: &[u8]) {
        let read = text(&Lent::read(written).scene());
        let input = || String::from_utf8_lossy(written).into();
        let size = written.len();
        self.report
            .compare("scene read back", size, input, &&read[..], &written);
    }

    pub fn table(&mut self, table: &[u32], store_len: usize) {
        let result = scene_exports::table_valid(table, store_len);
        let expected = u32::from(table::valid(table, store_len));
        self.report.answered("table_valid", result);
        let input = || format!("store of {store_len}, table {table:?}");
        let size = table.len();
        self.report
            .compare("table_valid", size, input, &result, &expected);
    }
}
