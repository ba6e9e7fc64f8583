//! Lists of scripts on strings about as long as one or more blocks of a search or a copy, and on strings of 65,000
//! bytes.

use crate::lists::generate::{call_on, from_units, registers, with_units};
use crate::lists::long::{byte_len, changed, changed_at, on, string_in, with_surrogate_at, BASES};
use crate::script::{Call, Opcode, Operand};

/// Lengths in bytes about the ends of blocks.
const ABOUT_BLOCKS: [usize; 9] = [127, 128, 129, 255, 256, 257, 511, 512, 513];

/// The most bytes in a text operand.
const MOST_BYTES: usize = 255;

/// A string of `bytes` bytes: the code points of `base` repeated, and a letter where the next one does not fit.
fn units_of_bytes(base: &[u16], bytes: usize) -> Vec<u16> {
    let mut points =
        char::decode_utf16(base.iter().copied().cycle()).map(|point| point.unwrap_or('a'));
    let (mut text, mut left) = (String::new(), bytes);
    while left > 0 {
        let point = points.next().filter(|point| point.len_utf8() <= left);
        let point = point.unwrap_or('a');
        left -= point.len_utf8();
        text.push(point);
    }
    text.encode_utf16().collect()
}

/// Returns the script of calls on the string of these units.
pub type Script = fn(&[u16]) -> Vec<Call>;

/// A script for each base and each length about the ends of blocks.
pub fn about_blocks(script: Script) -> Vec<Vec<Call>> {
    let lens = |base: &'static [u16]| ABOUT_BLOCKS.map(|bytes| units_of_bytes(base, bytes));
    let strings = BASES.into_iter().flat_map(lens);
    strings.map(|units| script(&units)).collect()
}

/// One unit changed at each index, compared in both directions.
pub fn changed_at_each_index() -> Vec<Vec<Call>> {
    about_blocks(|units| changed_at(units, 0..units.len()))
}

/// No lone surrogate, and one at each index: texts, lossy or not.
pub fn one_surrogate() -> Vec<Vec<Call>> {
    about_blocks(|units| with_surrogate_at(units, 0..units.len()))
}

/// One lone surrogate at each index: the debug text.
pub fn debug_texts() -> Vec<Vec<Call>> {
    about_blocks(|units| {
        let mut calls = Vec::new();
        for index in 0..units.len() {
            calls.extend(string_in(0, &changed(units, &[(index, 0xDBFF)])));
            calls.extend(on(0, &[Opcode::Debug]));
        }
        calls
    })
}

/// The boundaries of a string, and `at_position` at each byte position up to one past the end.
pub fn positions() -> Vec<Vec<Call>> {
    about_blocks(|units| {
        let mut calls = string_in(0, units);
        calls.extend(on(0, &[Opcode::Boundaries]));
        for position in 0..=usize::from(byte_len(units)) + 1 {
            calls.extend(at_position(position));
        }
        calls
    })
}

/// The calls that take one position, on the string in register 0.
fn at_position(position: usize) -> Vec<Call> {
    let operand = || Operand::Number(position as u16);
    let (zero, one) = (|| Operand::Register(0), || Operand::Register(1));
    vec![
        registers(Opcode::Clone, 1, 0),
        Call::new(Opcode::Truncate, vec![one(), operand()]),
        Call::new(Opcode::SliceFrom, vec![one(), zero(), operand()]),
        Call::new(Opcode::SliceTo, vec![one(), zero(), operand()]),
        Call::new(Opcode::AsciiByteAt, vec![zero(), operand()]),
    ]
}

/// 36 units of one kind with two others, at every pair of indexes: made into a string, whose units are
/// appended to a vector of no, one or two units.
pub fn of_mixed_kinds() -> Vec<Vec<Call>> {
    let mut scripts = Vec::new();
    for base in [0x61, 0xE9, 0x20AC, 0xD800, 0xDC00] {
        for (one, other) in OTHERS {
            for index in 0..36 {
                let both = |second| {
                    let mut units = vec![base; 36];
                    units[index] = one;
                    units[second] = other;
                    made_and_appended(&units, &ABOUT_UNITS[..second % 3])
                };
                scripts.push((index..36).flat_map(both).collect());
            }
        }
    }
    scripts
}

/// Two units of other kinds, each kind with itself and with the next. Some form a pair if they are adjacent.
const OTHERS: [(u16, u16); 10] = [
    (0x7F, 0x7F),
    (0x7F, 0x80),
    (0x7FF, 0x7FF),
    (0x7FF, 0x800),
    (0xFFFF, 0xFFFF),
    (0xFFFF, 0xD83D),
    (0xD83D, 0xD83D),
    (0xD83D, 0xDCA9),
    (0xDCA9, 0xDCA9),
    (0xDCA9, 0x00),
];

/// The units of the strings to which others are appended.
const ABOUT_UNITS: [u16; 2] = [0xDFFF, 0xD800];

/// Makes a string of `units`, and appends all its units to `before`.
fn made_and_appended(units: &[u16], before: &[u16]) -> [Call; 2] {
    let before = Operand::Units(before.to_vec());
    [
        from_units(0, units),
        Call::new(Opcode::AppendUnits, vec![Operand::Register(0), before]),
    ]
}

/// Eight units that take the most bytes, and eight of which four form two pairs.
const LAST_OF_FILLED: [[u16; 8]; 2] = [
    [0x20AC; 8],
    [
        0xD83D, 0xDCA9, 0xD83D, 0xDCA9, 0x20AC, 0x20AC, 0x20AC, 0x20AC,
    ],
];

/// Up to 14 groups of eight units, first units of three bytes and then units of two, in each proportion; after them
/// one of `LAST_OF_FILLED`. So a buffer that is filled sixteen units at a time has each possible number of free bytes
/// when the last eight come, as half of a block or as a block with zeros.
pub fn filled_blocks() -> Vec<Vec<Call>> {
    let of_last = |last| (1..=14).map(move |groups| filled_by(groups, last));
    LAST_OF_FILLED.into_iter().flat_map(of_last).collect()
}

fn filled_by(groups: usize, last: [u16; 8]) -> Vec<Call> {
    let filled = |wide| {
        let (front, rest) = (vec![0x20AC; wide], vec![0xE9; 8 * groups - wide]);
        from_units(0, &[&front[..], &rest, &last].concat())
    };
    (0..=8 * groups).map(filled).collect()
}

/// One code point of each encoded length but one, and a lone lead.
const WIDER: [&[u16]; 4] = [&[0xE9], &[0x20AC], &[0xD83D, 0xDCA9], &[0xD800]];

/// Strings whose last block is letters with one other code point at each index, after no other block, 64 letters or 64
/// units of two bytes. Each is made, and its units are appended to an empty vector.
pub fn last_blocks() -> Vec<Vec<Call>> {
    let mut scripts = Vec::new();
    for other in WIDER {
        for front in [&[][..], &[0x61; 64], &[0xE9; 64]] {
            scripts.extend((0..34).map(|letters| ended_at_each_index(front, letters, other)));
        }
    }
    scripts
}

fn ended_at_each_index(front: &[u16], letters: usize, other: &[u16]) -> Vec<Call> {
    let ended = |index| ended_by(front, letters, index, other);
    (0..=letters).flat_map(ended).collect()
}

/// Code points of two, three and four bytes, of which blocks of one kind are made.
const OF_ONE_KIND: [&[u16]; 3] = [&[0x43F], &[0x3042], &[0xD83D, 0xDCA9]];

/// Units before or among code points of one kind, which keep a block from being of that kind: ASCII, as many bytes as one
/// code point or more, and a code point of other bytes at the same positions.
const AMONG: [&[u16]; 6] = [
    &[0x2C, 0x20],
    &[0x20],
    &[0x61, 0x62, 0x63],
    &[0x61, 0x62, 0x63, 0x64],
    &[0x61, 0xE9],
    &[0xE9, 0xE9],
];

/// 40 bytes or more of one kind after one of `AMONG`, which comes first or after one, 8 or 16 code points of the kind: all
/// units, appended and written. A block has 8 or 16 of them.
pub fn one_kind_and_another() -> Vec<Vec<Call>> {
    let of_kind = |kind: &[u16]| {
        let fronts = AMONG
            .into_iter()
            .flat_map(|among| [0, 1, 8, 16].map(|count| (among, count)));
        let read = |(among, count): (&[u16], usize)| {
            units_out(
                &[&kind.repeat(count)[..], among, &kind.repeat(22)].concat(),
                &[],
            )
        };
        fronts.flat_map(read).collect()
    };
    OF_ONE_KIND.map(of_kind).to_vec()
}

/// Letters and one of `WIDER` at the end, so that the units of the last block have just the room that they need or one
/// less than a store writes.
pub fn ended_after_letters() -> Vec<Vec<Call>> {
    let ended = |other: &[u16]| {
        let lens = [29, 30, 31, 60, 61, 62, 63, 94, 126];
        let read = |len| units_out(&[&[0x61; 126][..len], other].concat(), &[]);
        lens.into_iter().flat_map(read).collect()
    };
    WIDER.map(ended).to_vec()
}

/// The units after those of a string: more than a store writes past them.
const UNITS_AFTER: usize = 64;

/// Strings of 64 bytes or more of each kind, written to a slice with `UNITS_AFTER` units after them, which stay. From 192
/// bytes on only the units of the last 96 are counted first.
pub fn units_after() -> Vec<Vec<Call>> {
    let of_base = |base: &'static [u16]| {
        let lens = [64, 97, 191, 192, 383, 384, 400];
        let read = |bytes| units_out(&units_of_bytes(base, bytes), &[0x7E; UNITS_AFTER]);
        lens.into_iter().flat_map(read).collect()
    };
    BASES.into_iter().map(of_base).collect()
}

/// Makes a string of units, appends these to an empty vector, and writes them to a slice with other units after them.
fn units_out(units: &[u16], after: &[u16]) -> Vec<Call> {
    let mut calls = string_in(0, units);
    calls.push(with_units(0, Opcode::AppendUnits, &[]));
    calls.push(with_units(0, Opcode::WriteUnits, after));
    calls
}

/// Strings of 200 CJK units with one lone surrogate in a later block: `into_string`. The encoder tells of a lone
/// surrogate by a flag of each block, and of each time that its buffer of 512 bytes is filled.
fn surrogates_in_later_blocks() -> Vec<Call> {
    let ended = |index| {
        let units = changed(&[0x4E2D; 200], &[(index, 0xD800)]);
        [from_units(0, &units), call_on(0, Opcode::IntoString)]
    };
    [16, 47, 100, 130, 159, 160, 190, 199]
        .into_iter()
        .flat_map(ended)
        .collect()
}

/// Strings of lengths about 64 and 128 bytes with another letter at some indexes, in the first 64, the last 64 and both:
/// compared with the string of letters.
fn another_letter_in_long() -> Vec<Call> {
    let mut calls = Vec::new();
    for len in [65, 100, 127, 128, 129] {
        let letters = vec![0x61; len];
        calls.push(from_units(0, &letters));
        for index in [0, len - 64, 63, 64, len - 2, len - 1] {
            calls.push(from_units(1, &changed(&letters, &[(index, 0x62)])));
            calls.push(registers(Opcode::Comparisons, 0, 1));
        }
    }
    calls
}

/// Some of the filled and the last blocks, strings of up to 24 letters with one wider letter, and others on strings of some
/// blocks, for the fixed list that the gate replays.
pub fn chosen() -> Vec<Vec<Call>> {
    let mut scripts = LAST_OF_FILLED.map(|last| filled_by(10, last)).to_vec();
    scripts.extend(one_kind_and_another());
    scripts.extend(ended_after_letters());
    scripts.extend(units_after());
    scripts.extend([surrogates_in_later_blocks(), another_letter_in_long()]);
    scripts.extend(WIDER.map(|other| ended_at_each_index(&[0x61; 64], 14, other)));
    scripts.extend((0..=24).map(|letters| widened_at_each_index(letters, &[0xE9])));
    scripts
}

/// Makes a string of `front` and `letters` letters with `other` at `index` among these, and appends its units to an
/// empty vector.
fn ended_by(front: &[u16], letters: usize, index: usize, other: &[u16]) -> [Call; 2] {
    let (before, after) = ([0x61; 34], [0x62; 34]);
    let units = [front, &before[..index], other, &after[..letters - index]].concat();
    made_and_appended(&units, &[])
}

/// The most units of a string that the calls on units read on short paths.
const MOST_SHORT_UNITS: usize = 40;

/// Strings of up to `MOST_SHORT_UNITS` letters, one of them replaced by a code point of another encoded length, at each
/// index.
pub fn one_wider_letter() -> Vec<Vec<Call>> {
    let mut scripts = Vec::new();
    for wider in WIDER {
        scripts.extend((0..=MOST_SHORT_UNITS).map(|letters| widened_at_each_index(letters, wider)));
    }
    scripts
}

/// Strings of `letters` letters, with `wider` in place of the one at each index, and of letters alone: their number of
/// units, each unit, the units before and after the index, and all units, appended to two others.
fn widened_at_each_index(letters: usize, wider: &[u16]) -> Vec<Call> {
    let before: Vec<u16> = (0x41..).take(letters).collect();
    let mut calls = units_read(&before, 0);
    for index in 0..letters {
        let units = [&before[..index], wider, &before[index + 1..]].concat();
        calls.extend(units_read(&units, index));
    }
    calls
}

/// The calls on units, of the string of `units`.
fn units_read(units: &[u16], index: usize) -> Vec<Call> {
    let slice = |begin: usize, end: usize| {
        let ends = [begin, end].map(|at| Operand::Number(at as u16));
        Call::new(
            Opcode::SliceUnits,
            [&[Operand::Register(0)][..], &ends].concat(),
        )
    };
    let mut calls = made_and_appended(units, &ABOUT_UNITS).to_vec();
    calls.extend(on(0, &[Opcode::UnitAt]));
    calls.extend([slice(0, index), slice(index, units.len())]);
    calls
}

/// Texts of each length from 0 to `MOST_BYTES`: pushed to an empty string, to a letter and to a lead surrogate, and
/// made into a string or a view by every call that does so.
pub fn texts_of_each_length() -> Vec<Vec<Call>> {
    let mut scripts = Vec::new();
    for base in [BASES[0], BASES[1], BASES[3], BASES[5]] {
        scripts.extend((0..=MOST_BYTES).map(|bytes| text_calls(&units_of_bytes(base, bytes))));
    }
    scripts
}

fn text_calls(units: &[u16]) -> Vec<Call> {
    let text = || Operand::Text(String::from_utf16_lossy(units));
    let mut calls = vec![Call::new(Opcode::ViewFromStr, vec![text()])];
    for opcode in [Opcode::FromStr, Opcode::FromString] {
        calls.push(Call::new(opcode, vec![Operand::Register(0), text()]));
    }
    for front in [&[][..], &[0x61], &[0xD83D]] {
        calls.push(from_units(1, front));
        calls.push(Call::new(
            Opcode::PushStr,
            vec![Operand::Register(1), text()],
        ));
        calls.push(from_units(2, front));
        calls.push(registers(Opcode::PushWtf8, 2, 0));
        calls.push(registers(Opcode::Comparisons, 1, 2));
        calls.extend(on(1, &[Opcode::AsStr, Opcode::Hash]));
    }
    calls.push(registers(Opcode::Clone, 2, 0));
    calls.extend(on(2, &[Opcode::IntoString]));
    calls
}

/// Strings of 65,000 bytes, cut and read far from their start.
pub fn far() -> Vec<Vec<Call>> {
    let mut scripts = Vec::new();
    for base in BASES {
        for far in [8191, 16_384, 32_767, 49_153, 60_001, 64_999] {
            // Few positions: off a boundary the crate panics with the whole string in its message.
            let mut calls = string_of_far_bytes(&units_of_bytes(base, 250));
            for position in far - 1..=far + 2 {
                calls.extend(at_position(position));
            }
            calls.extend(on(0, &[Opcode::ToStringLossy, Opcode::Hash]));
            calls.push(registers(Opcode::Clone, 1, 0));
            calls.push(Call::new(
                Opcode::Push,
                vec![Operand::Register(1), Operand::Value(0xDC00)],
            ));
            calls.push(registers(Opcode::Comparisons, 0, 1));
            calls.push(registers(Opcode::CmpUnits, 1, 0));
            scripts.push(calls);
        }
    }
    scripts
}

/// Makes the string of 260 copies of `units` in register 0: 65,000 bytes if `units` has 250.
fn string_of_far_bytes(units: &[u16]) -> Vec<Call> {
    let mut calls = vec![from_units(0, units), from_units(2, units)];
    for doubled in 0..8 {
        // 256 copies by doubling, and the four of register 2 at the end.
        if doubled == 2 {
            calls.push(registers(Opcode::Clone, 2, 0));
        }
        calls.push(registers(Opcode::Clone, 1, 0));
        calls.push(registers(Opcode::PushWtf8, 0, 1));
    }
    calls.push(registers(Opcode::PushWtf8, 0, 2));
    calls
}
