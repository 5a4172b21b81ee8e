//! A call of the port, and what the original's answer makes of the same buffers.

use crate::hex::Hex;
use crate::prng::Prng;
use crate::report::Report;
use ckb_account_protocol::ProtocolError;

/// Bytes behind the buffer that is lent, to see that they stay.
const BEHIND: usize = 16;
/// Room for the words of any reader, and for one more.
const ENOUGH: usize = 8 * 14;
/// Results below this length are short.
const SHORT_RESULT: usize = 150;
/// The number where the buffer is too short.
const TOO_SHORT: u32 = 5;
/// The number where lent slices disagree.
pub const DISAGREE: u32 = 7;

/// What an original reader says in numbers, a place counting from the start of the input; or its refusal.
pub type Words = Result<Vec<u64>, ProtocolError>;

/// What can be seen of a call: the number, the length that a writer stored, and the buffer with the bytes behind it.
#[derive(Debug, Eq, PartialEq)]
struct Seen {
    number: u32,
    len: usize,
    buffer: Hex,
}

pub struct Calls<'a> {
    pub report: &'a mut Report,
    pub prng: Prng,
}

/// The place of a part within the bytes it was taken from.
pub fn place(whole: &[u8], part: &[u8]) -> u64 {
    (part.as_ptr() as usize - whole.as_ptr() as usize) as u64
}

impl Calls<'_> {
    /// Counts the number that a call gave, and compares what was seen of the call.
    fn compare(
        &mut self,
        name: &'static str,
        size: usize,
        input: impl FnOnce() -> String,
        seen: Seen,
        expected: Seen,
    ) {
        self.report.answered(name, seen.number);
        self.report.compare(name, size, input, &seen, &expected);
    }

    /// Compares a function that stores these bytes at the front of `out`, or refuses: in a buffer that is long enough, and
    /// now and then in one a byte too short, one just as long, and one of any length.
    pub fn store(
        &mut self,
        name: &'static str,
        size: usize,
        expected: Result<Vec<u8>, u32>,
        input: impl Fn() -> String,
        function: impl Fn(&mut [u8]) -> u32,
    ) {
        let length = expected.as_ref().map_or(0, Vec::len);
        let rooms = match self.prng.up_to(3) {
            0 => vec![length.saturating_sub(1), length, self.prng.up_to(ENOUGH)],
            _ => vec![ENOUGH],
        };
        for room in rooms {
            let before = self.prng.bytes(room + BEHIND);
            let mut buffer = before.clone();
            let number = function(&mut buffer[..room]);
            let seen = Seen {
                number,
                len: 0,
                buffer: Hex(buffer),
            };
            let input = || format!("out {room}, {}", input());
            let expected = Seen {
                len: 0,
                ..after_write(&expected, before, room, 0)
            };
            self.compare(name, size, input, seen, expected);
        }
    }

    /// Compares a reader: it stores the words of the original's answer.
    pub fn read(
        &mut self,
        name: &'static str,
        bytes: &[u8],
        expected: Words,
        reader: impl Fn(&[u8], &mut [u8]) -> u32,
    ) {
        self.read_as(name, bytes, numbered(expected), reader);
    }

    /// Compares a reader that stores these words or refuses with this number.
    pub fn read_as(
        &mut self,
        name: &'static str,
        bytes: &[u8],
        expected: Result<Vec<u64>, u32>,
        reader: impl Fn(&[u8], &mut [u8]) -> u32,
    ) {
        let expected = expected.map(word_bytes);
        let input = || format!("{:?}", Hex(bytes.to_vec()));
        self.store(name, bytes.len(), expected, input, |out| reader(bytes, out));
    }

    /// Compares a function that stores a hash.
    pub fn hash(
        &mut self,
        name: &'static str,
        size: usize,
        expected: Result<[u8; 32], u32>,
        input: impl Fn() -> String,
        function: impl Fn(&mut [u8]) -> u32,
    ) {
        self.store(name, size, expected.map(Vec::from), input, function);
    }

    /// Compares a writer in a buffer of `room` bytes with the bytes that the original gives, or with a refusal.
    pub fn write_into(
        &mut self,
        name: &'static str,
        room: usize,
        expected: &Result<Vec<u8>, u32>,
        input: impl Fn() -> String,
        writer: impl FnOnce(&mut [u8], &mut usize) -> u32,
    ) {
        let before = self.prng.bytes(room + BEHIND);
        let len = self.prng.next() as usize;
        let mut seen = Seen {
            number: 0,
            len,
            buffer: Hex(before.clone()),
        };
        seen.number = writer(&mut seen.buffer.0[..room], &mut seen.len);
        let expected = after_write(expected, before, room, len);
        let input = || format!("out {room}, {}", input());
        self.compare(name, room, input, seen, expected);
    }

    /// The same in buffers of several lengths about that of the result, and of every such length for some short results.
    pub fn write(
        &mut self,
        name: &'static str,
        expected: &Result<Vec<u8>, u32>,
        input: impl Fn() -> String,
        writer: impl Fn(&mut [u8], &mut usize) -> u32,
    ) {
        let rooms = match expected {
            Ok(bytes) if bytes.len() < SHORT_RESULT && self.prng.up_to(50) == 0 => {
                (0..bytes.len() + BEHIND).collect()
            }
            Ok(bytes) => vec![
                0,
                self.prng.up_to(bytes.len()),
                bytes.len().saturating_sub(1),
                bytes.len(),
                bytes.len() + 1 + self.prng.up_to(40),
            ],
            Err(_) => vec![0, self.prng.up_to(300)],
        };
        for room in rooms {
            self.write_into(name, room, expected, &input, &writer);
        }
    }
}

/// The original's refusal as its number.
pub fn numbered<T>(answer: Result<T, ProtocolError>) -> Result<T, u32> {
    answer.map_err(|error| error as u32)
}

/// Words as bytes.
pub fn word_bytes(words: Vec<u64>) -> Vec<u8> {
    words.into_iter().flat_map(u64::to_le_bytes).collect()
}

/// The bytes at the front of the buffer and their length, or both as they were.
fn after_write(
    answer: &Result<Vec<u8>, u32>,
    mut buffer: Vec<u8>,
    room: usize,
    len: usize,
) -> Seen {
    let (number, len) = match answer {
        Err(number) => (*number, len),
        Ok(bytes) if room < bytes.len() => (TOO_SHORT, len),
        Ok(bytes) => {
            buffer[..bytes.len()].copy_from_slice(bytes);
            (0, bytes.len())
        }
    };
    Seen {
        number,
        len,
        buffer: Hex(buffer),
    }
}
