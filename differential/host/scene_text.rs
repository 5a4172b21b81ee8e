//! Scenes as document 01's text, with the capacities that change 9 of document 02 puts behind inputs and outputs.

use ckb_std::{Cell, Scene};

const DIGITS: &[u8; 16] = b"0123456789abcdef";

#[derive(Default)]
struct Text(Vec<u8>);

impl Text {
    fn hex(&mut self, bytes: &[u8]) {
        let digits = |byte: &u8| [byte >> 4, byte & 15].map(|digit| DIGITS[usize::from(digit)]);
        self.0.extend(bytes.iter().flat_map(digits));
    }

    fn plain(&mut self, text: &str) {
        self.0.extend(text.bytes());
    }

    fn hex_line(&mut self, kind: &str, bytes: &[u8]) {
        self.plain(kind);
        self.plain(",");
        self.hex(bytes);
        self.plain("\n");
    }

    /// A line's start, then the four fields of a cell, then its end.
    fn cell_line(&mut self, start: &str, cell: &Cell, end: &str) {
        self.plain(start);
        let type_hash = cell.type_hash.as_ref().map_or(&[][..], |hash| hash);
        let type_script = cell.type_script.as_deref().unwrap_or(&[]);
        for field in [type_hash, &cell.data_hash, type_script, &cell.data] {
            self.plain(",");
            self.hex(field);
        }
        self.plain(end);
        self.plain("\n");
    }
}

pub fn text(scene: &Scene) -> Vec<u8> {
    let mut text = Text::default();
    text.hex_line("script", &scene.script);
    text.hex_line("tx", &scene.tx_hash);
    for input in &scene.inputs {
        let group = u8::from(input.group);
        let start = format!("input,{group},{}", input.since);
        text.cell_line(&start, &input.cell, &format!(",{}", input.capacity));
    }
    for output in &scene.outputs {
        text.cell_line("output", &output.cell, &format!(",{}", output.capacity));
    }
    for cell in &scene.deps {
        text.cell_line("dep", cell, "");
    }
    for witness in &scene.witnesses {
        text.hex_line("witness", witness);
    }
    let digits: String = scene.verdicts.iter().map(u8::to_string).collect();
    text.plain(&format!("verdicts,{digits}\n"));
    text.0
}
