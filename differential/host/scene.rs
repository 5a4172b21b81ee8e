//! A plain reader of scenes, written from document 01 and change 9 of document 02 alone.

const LONGEST: usize = 1_048_576;
pub const ENTRIES: usize = 2_048;
pub const MOST_LINES: u32 = 64;
pub const MOST_DIGITS: usize = 16;
pub const HASH: usize = 32;
/// Where the rows of the table start: behind a number for each kind.
pub const FIRST_ROW: usize = 8;
/// The most fields of a line.
const FIELDS: usize = 7;
pub const SCRIPT: usize = 1;
pub const TX: usize = 2;
pub const INPUT: usize = 3;
pub const OUTPUT: usize = 4;
pub const DEP: usize = 5;
pub const WITNESS: usize = 6;
pub const VERDICTS: usize = 7;

#[derive(Clone, Copy)]
enum Form {
    Hex,
    Hash,
    Group,
    /// SINCE and CAPACITY.
    Decimal,
    TypeHash,
    TypeScript,
    Digits,
}

/// The fields of a kind of line.
fn forms(kind: usize) -> &'static [Form] {
    use Form::*;
    match kind {
        TX => &[Hash],
        INPUT => &[Group, Decimal, TypeHash, Hash, TypeScript, Hex, Decimal],
        OUTPUT => &[TypeHash, Hash, TypeScript, Hex, Decimal],
        DEP => &[TypeHash, Hash, TypeScript, Hex],
        VERDICTS => &[Digits],
        _ => &[Hex],
    }
}

fn kind(word: &[u8]) -> Option<usize> {
    match word {
        b"script" => Some(SCRIPT),
        b"tx" => Some(TX),
        b"input" => Some(INPUT),
        b"output" => Some(OUTPUT),
        b"dep" => Some(DEP),
        b"witness" => Some(WITNESS),
        b"verdicts" => Some(VERDICTS),
        _ => None,
    }
}

/// Whether a line of this kind may stand behind one of the kind `last`, 0 being the start.
fn follows(last: usize, kind: usize) -> bool {
    match last {
        0 => kind == SCRIPT,
        SCRIPT => kind == TX,
        TX => kind >= INPUT,
        VERDICTS => false,
        _ => kind >= last,
    }
}

fn require(holds: bool, number: u32) -> Result<(), u32> {
    if holds {
        return Ok(());
    }
    Err(number)
}

/// The value of a lower-case hexadecimal digit; 16 for any other byte.
const VALUES: [u8; 256] = {
    let mut values = [16; 256];
    let mut value = 0;
    while value < 16 {
        values[b"0123456789abcdef"[value as usize] as usize] = value;
        value += 1;
    }
    values
};

fn value(byte: u8) -> u8 {
    VALUES[usize::from(byte)]
}

fn is_hex(field: &[u8]) -> bool {
    field.len() % 2 == 0 && field.iter().all(|byte| value(*byte) < 16)
}

fn is_hash(field: &[u8]) -> bool {
    field.len() == 2 * HASH && is_hex(field)
}

/// A decimal u64 without leading zeros.
fn decimal(field: &[u8]) -> Option<u64> {
    let plain = field == b"0" || matches!(field, [b'1'..=b'9', ..]);
    let digits = plain && field.iter().all(u8::is_ascii_digit);
    let grow = |sum: u64, digit: &u8| sum.checked_mul(10)?.checked_add(u64::from(digit - b'0'));
    digits.then(|| field.iter().try_fold(0, grow)).flatten()
}

fn is_digits(field: &[u8]) -> bool {
    field.len() <= MOST_DIGITS && field.iter().all(|digit| matches!(digit, b'0'..=b'2'))
}

fn well_formed(form: Form, field: &[u8]) -> bool {
    match form {
        Form::Hex | Form::TypeScript => is_hex(field),
        Form::Hash => is_hash(field),
        Form::Group => field == b"0" || field == b"1",
        Form::Decimal => decimal(field).is_some(),
        Form::TypeHash => field.is_empty() || is_hash(field),
        Form::Digits => is_digits(field),
    }
}

/// The line's fields, cut at commas, and their forms.
struct Line<'a> {
    forms: &'static [Form],
    fields: [&'a [u8]; FIELDS],
}

impl<'a> Line<'a> {
    /// A line whose field count is the kind's.
    fn cut(kind: usize, fields: impl Iterator<Item = &'a [u8]>) -> Option<Self> {
        let forms = forms(kind);
        let mut line = Line {
            forms,
            fields: [&[]; FIELDS],
        };
        let mut count = 0;
        for field in fields {
            *line.fields.get_mut(count)? = field;
            count += 1;
        }
        (count == forms.len()).then_some(line)
    }

    fn pairs(&self) -> impl Iterator<Item = (Form, &'a [u8])> + '_ {
        self.forms.iter().copied().zip(self.fields.iter().copied())
    }

    fn well_formed(&self) -> bool {
        let fields = &self.fields;
        let paired = match self.forms {
            [Form::TypeHash, ..] => fields[0].is_empty() == fields[2].is_empty(),
            [_, _, Form::TypeHash, ..] => fields[2].is_empty() == fields[4].is_empty(),
            _ => true,
        };
        paired && self.pairs().all(|(form, field)| well_formed(form, field))
    }

    /// The fields whose bytes go to the store.
    fn hex_fields(&self) -> impl Iterator<Item = &'a [u8]> + '_ {
        let is_number = |form| matches!(form, Form::Group | Form::Decimal | Form::Digits);
        let hex = self.pairs().filter(move |(form, _)| !is_number(*form));
        hex.map(|(_, field)| field)
    }

    fn size(&self) -> usize {
        self.hex_fields().map(|field| field.len() / 2).sum()
    }
}

struct Reader<'a> {
    store: &'a mut [u8],
    table: &'a mut [u32],
    /// The kind of the last line.
    last: usize,
    used: usize,
    filled: usize,
}

impl Reader<'_> {
    /// One line, without its ending, through the line rows.
    fn line(&mut self, line: &[u8]) -> Result<(), u32> {
        let mut parts = line.split(|byte| *byte == b',');
        let kind = parts.next().and_then(kind).ok_or(2u32)?;
        require(follows(self.last, kind), 2)?;
        let line = Line::cut(kind, parts).ok_or(2u32)?;
        require(self.table[kind] < MOST_LINES, 4)?;
        require(line.well_formed(), 3)?;
        require(line.size() <= self.store.len() - self.used, 6)?;
        self.last = kind;
        self.table[kind] += 1;
        self.put(&line);
        Ok(())
    }

    fn put(&mut self, line: &Line) {
        self.push(self.used as u32);
        for (form, field) in line.pairs() {
            self.put_numbers(form, field);
        }
        for field in line.hex_fields() {
            self.put_bytes(field);
        }
    }

    fn push(&mut self, number: u32) {
        self.table[self.filled] = number;
        self.filled += 1;
    }

    fn put_numbers(&mut self, form: Form, field: &[u8]) {
        match form {
            Form::Hash | Form::TypeHash => {}
            Form::Hex | Form::TypeScript => self.push(field.len() as u32 / 2),
            Form::Group => self.push(u32::from(value(field[0]))),
            Form::Decimal => {
                let number = decimal(field).expect("a well-formed number");
                self.push(number as u32);
                self.push((number >> 32) as u32);
            }
            Form::Digits => {
                self.push(field.len() as u32);
                field.iter().for_each(|d| self.push(u32::from(value(*d))));
            }
        }
    }

    fn put_bytes(&mut self, field: &[u8]) {
        let end = self.used + field.len() / 2;
        let bytes = &mut self.store[self.used..end];
        for (byte, pair) in bytes.iter_mut().zip(field.chunks_exact(2)) {
            *byte = 16 * value(pair[0]) + value(pair[1]);
        }
        self.used = end;
    }
}

fn read_lines(scene: &[u8], store: &mut [u8], table: &mut [u32]) -> Result<(), u32> {
    require(scene.len() <= LONGEST, 1)?;
    require(table.len() >= ENTRIES, 6)?;
    let mut reader = Reader {
        store,
        table,
        last: 0,
        used: 0,
        filled: FIRST_ROW,
    };
    let mut rest = scene;
    while !rest.is_empty() {
        let end = rest.iter().position(|byte| *byte == 10).ok_or(2u32)?;
        reader.line(&rest[..end])?;
        rest = &rest[end + 1..];
    }
    require(reader.last == VERDICTS, 2)
}

/// Reads a scene into the store and the table. Both are all zero after a refusal.
pub fn read(scene: &[u8], store: &mut [u8], table: &mut [u32]) -> u32 {
    store.fill(0);
    table.fill(0);
    let result = read_lines(scene, store, table);
    if result.is_err() {
        store.fill(0);
        table.fill(0);
    }
    result.err().unwrap_or(0)
}
