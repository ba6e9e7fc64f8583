//! Lists of scripts that use every row of the two shuffle tables that can occur: of `from_utf16::shuffle_table`, by the
//! encoded lengths of four units, and of `units::packing_table`, by the positions of eight at which units end.

use crate::lists::generate::{from_units, with_units};
use crate::script::{Call, Opcode};

/// The units of a block of the encoder, and the bytes of a block of the decoder.
const BLOCK: usize = 16;
const POSITIONS: usize = 32;

/// The positions of a row of `packing_table`.
const ROW: usize = 8;

/// A code point of a number of bytes, other for each `number` below 64 in all bytes but the lead byte of four.
fn point(bytes: usize, number: usize) -> char {
    let number = number as u32;
    let value = match bytes {
        1 => 0x21 + number,
        2 => 0x80 + 65 * number % 0x780,
        3 => 0x3041 + 0x167 * number,
        _ => 0x10041 + 0x1567 * number,
    };
    char::from_u32(value).unwrap_or('\u{FFFD}')
}

/// The units of code points, each of the number of bytes that a list gives.
fn units_of(lengths: &[usize]) -> Vec<u16> {
    let points = lengths.iter().enumerate();
    let text: String = points
        .map(|(number, bytes)| point(*bytes, number))
        .collect();
    text.encode_utf16().collect()
}

/// Blocks of 16 units, in which four of any encoded lengths come after four of two bytes: each order of lengths of one to
/// three bytes, three orders a block.
pub fn encoded_lengths() -> Vec<Vec<Call>> {
    let lengths =
        |order: usize| [order / 27, order / 9 % 3, order / 3 % 3, order % 3].map(|less| less + 1);
    let orders: Vec<usize> = (0..81).flat_map(lengths).collect();
    let block = |orders: &[usize]| {
        let lengths = [&[2; 4][..], orders].concat();
        from_units(0, &units_of(&lengths))
    };
    vec![orders.chunks(BLOCK - 4).map(block).collect()]
}

/// The encoded lengths of the code points by which units end at the set bits of rows, lowest bit first: a code point of
/// up to three bytes ends at each. After the last a code point begins that has one byte more than there are bits left,
/// so that one of four bytes is cut by the end of the block.
fn lengths_of(rows: &[usize]) -> Vec<usize> {
    let mut lengths = Vec::new();
    let mut before = 0;
    for position in 0..ROW * rows.len() {
        before += 1;
        if rows[position / ROW] >> (position % ROW) & 1 == 1 {
            lengths.push(before);
            before = 0;
        }
    }
    lengths.push(before + 1);
    lengths
}

/// Whether units can end at just these positions: a code point has at most two bytes before the one at which its first
/// unit ends. In a block's last row a code point of four bytes may be cut after three, in which no unit ends.
fn can_occur(row: usize, is_last: bool) -> bool {
    let three_clear = |position: &usize| row >> position & 0b111 == 0;
    let clear: Vec<usize> = (0..=ROW - 3).filter(three_clear).collect();
    clear.is_empty() || is_last && clear == [ROW - 3]
}

/// A row of a code point of two bytes and ASCII, so that no block is of one kind or begins with a run of ASCII.
const FIRST: usize = 0b1111_1110;

/// The rows of blocks: each row that can occur is the second of a block or, if it can only be the last, the fourth.
fn blocks_of_rows() -> Vec<Vec<usize>> {
    let rows = 0..1 << ROW;
    let block = |row| match row {
        _ if can_occur(row, false) => Some(vec![FIRST, row]),
        _ if can_occur(row, true) => Some(vec![FIRST, FIRST, FIRST, row]),
        _ => None,
    };
    rows.filter_map(block).collect()
}

/// Strings whose units end in the first block of 32 bytes as rows of `packing_table` say, with 8 letters after it: all
/// their units.
pub fn ends_of_units() -> Vec<Vec<Call>> {
    let read = |rows: Vec<usize>| {
        let lengths = lengths_of(&rows);
        let bytes: usize = lengths.iter().sum();
        let letters = (POSITIONS + ROW).saturating_sub(bytes);
        let units = units_of(&[&lengths[..], &vec![1; letters]].concat());
        [
            from_units(0, &units),
            with_units(0, Opcode::AppendUnits, &[]),
        ]
    };
    vec![blocks_of_rows().into_iter().flat_map(read).collect()]
}
