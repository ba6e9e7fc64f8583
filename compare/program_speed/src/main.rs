//! The program `wtf8_dump` over the original crate: reads all lines, computes the output for each, then writes it.

use std::hash::{Hash, Hasher};
use std::io::{Read, Write};

use wtf8::{CodePoint, Wtf8Buf};

/// The call that a word names.
enum Call {
    Push(CodePoint),
    Truncate(usize),
    TruncateUnits(usize),
}

/// A hasher that keeps the bytes of a string, which come in one `write`; the FE after them comes by `write_u8`.
#[derive(Default)]
struct Bytes {
    bytes: Vec<u8>,
}

impl Hasher for Bytes {
    fn write(&mut self, bytes: &[u8]) {
        self.bytes.extend_from_slice(bytes);
    }

    fn write_u8(&mut self, _end: u8) {}

    fn finish(&self) -> u64 {
        0
    }
}

/// A hasher that appends the bytes of a string in hexadecimal.
struct Hexadecimal<'a> {
    out: &'a mut Vec<u8>,
}

const DIGITS: &[u8; 16] = b"0123456789ABCDEF";

impl Hasher for Hexadecimal<'_> {
    fn write(&mut self, bytes: &[u8]) {
        self.out.reserve(3 * bytes.len());
        for (at, byte) in bytes.iter().enumerate() {
            if at > 0 {
                self.out.push(b' ');
            }
            self.out.push(DIGITS[usize::from(byte >> 4)]);
            self.out.push(DIGITS[usize::from(byte & 15)]);
        }
    }

    fn write_u8(&mut self, _end: u8) {}

    fn finish(&self) -> u64 {
        0
    }
}

/// Parses `least` to `most` digits of a base.
fn number(word: &[u8], base: u32, least: usize, most: usize) -> Option<u32> {
    if word.len() < least || word.len() > most {
        return None;
    }
    word.iter().try_fold(0, |number, byte| {
        Some(number * base + char::from(*byte).to_digit(base)?)
    })
}

fn read_call(word: &[u8]) -> Option<Call> {
    match word {
        [b'-', digits @ ..] => Some(Call::Truncate(number(digits, 10, 1, 9)? as usize)),
        [b'/', digits @ ..] => Some(Call::TruncateUnits(number(digits, 10, 1, 9)? as usize)),
        _ => Some(Call::Push(CodePoint::from_u32(number(word, 16, 4, 6)?)?)),
    }
}

/// Keeps the code points before a byte position, if it is a boundary. Returns whether it is.
fn truncate(string: &mut Wtf8Buf, position: usize) -> bool {
    let mut bytes = Bytes::default();
    string.hash(&mut bytes);
    let is_boundary = match bytes.bytes.get(position) {
        Some(byte) => byte & 0xC0 != 0x80,
        None => position == bytes.bytes.len(),
    };
    if is_boundary {
        string.truncate(position);
    }
    is_boundary
}

/// Keeps the first `count` units, if there are that many. Returns whether there are.
fn truncate_units(string: &mut Wtf8Buf, count: usize) -> bool {
    let kept: Vec<u16> = string.to_ill_formed_utf16().take(count).collect();
    if kept.len() == count {
        *string = Wtf8Buf::from_ill_formed_utf16(&kept);
    }
    kept.len() == count
}

/// Appends the output for a line, without its newline.
fn push_output(line: &[u8], out: &mut Vec<u8>) {
    let words = line.split(|byte| *byte == b' ');
    let calls: Option<Vec<Call>> = words.filter(|_| !line.is_empty()).map(read_call).collect();
    let Some(calls) = calls else {
        return out.push(b'?');
    };
    let mut string = Wtf8Buf::new();
    let mut refused = 0;
    for call in calls {
        let done = match call {
            Call::Push(point) => {
                string.push(point);
                true
            }
            Call::Truncate(position) => truncate(&mut string, position),
            Call::TruncateUnits(count) => truncate_units(&mut string, count),
        };
        refused += usize::from(!done);
    }
    string.hash(&mut Hexadecimal { out });
    if refused > 0 {
        let space = if string.len() == 0 { "" } else { " " };
        out.extend_from_slice(format!("{space}!{refused}").as_bytes());
    }
}

fn main() -> std::io::Result<()> {
    let mut input = Vec::new();
    std::io::stdin().lock().read_to_end(&mut input)?;
    let mut out = Vec::new();
    for line in input.split_inclusive(|byte| *byte == b'\n') {
        push_output(line.strip_suffix(b"\n").unwrap_or(line), &mut out);
        out.push(b'\n');
    }
    let mut stdout = std::io::stdout().lock();
    stdout.write_all(&out)?;
    stdout.flush()
}
