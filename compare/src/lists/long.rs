//! Lists of scripts on long strings, on strings with a common prefix, and on slices inside a string.

use crate::lists::generate::{cut_and_joined, cut_by_units, from_units, registers};
use crate::script::{Call, Opcode, Operand};

/// The units that long strings repeat: a code point of each encoded length, one with the lead byte of a surrogate (ED),
/// one after the surrogates, a pair, and a mix.
pub const BASES: [&[u16]; 7] = [
    &[0x61],
    &[0xE9],
    &[0x20AC],
    &[0xD55C],
    &[0xE000],
    &[0xD83D, 0xDCA9],
    &[0x61, 0xE9, 0xD55C, 0xD83D, 0xDCA9, 0x20AC, 0x7A],
];

/// Lengths in units above the blocks of any search.
const LENGTHS: [usize; 7] = [255, 256, 257, 511, 600, 1023, 2000];

/// Indexes at the ends, in the middle, and about the ends of the first and the last blocks of a search.
fn indexes_in(len: usize) -> [usize; 15] {
    let half = len / 2;
    let back = |count: usize| len - count;
    [
        0,
        1,
        15,
        31,
        63,
        64,
        127,
        half,
        back(129),
        back(128),
        back(65),
        back(64),
        back(33),
        back(2),
        back(1),
    ]
}

/// The most units in one operand.
const MOST_UNITS: usize = 255;

fn string_of(base: &[u16], len: usize) -> Vec<u16> {
    base.iter().copied().cycle().take(len).collect()
}

/// Makes the string of `units` in a register, in pieces if they are too many for one operand. The pieces overwrite
/// register 3.
pub fn string_in(register: u8, units: &[u16]) -> Vec<Call> {
    let mut pieces = units.chunks(MOST_UNITS);
    let mut calls = vec![from_units(register, pieces.next().unwrap_or_default())];
    for piece in pieces {
        calls.push(from_units(3, piece));
        calls.push(registers(Opcode::PushWtf8, register, 3));
    }
    calls
}

pub fn on(register: u8, opcodes: &[Opcode]) -> Vec<Call> {
    let call = |opcode: &Opcode| Call::new(*opcode, vec![Operand::Register(register)]);
    opcodes.iter().map(call).collect()
}

pub fn changed(units: &[u16], changes: &[(usize, u16)]) -> Vec<u16> {
    let mut units = units.to_vec();
    for (index, unit) in changes {
        units[*index] = *unit;
    }
    units
}

/// Strings of every length up to 130, with one unit changed at each index, compared in both directions.
pub fn changed_at_each_index() -> Vec<Vec<Call>> {
    let mut scripts = Vec::new();
    for base in BASES {
        for len in 0..=130 {
            scripts.push(changed_at(&string_of(base, len), 0..len));
        }
    }
    scripts
}

pub fn changed_at(units: &[u16], indexes: impl IntoIterator<Item = usize>) -> Vec<Call> {
    let mut calls = string_in(0, units);
    for index in indexes {
        for other in [0x62, 0xDFFF] {
            calls.extend(string_in(1, &changed(units, &[(index, other)])));
            calls.extend(compared_both_ways());
        }
    }
    calls
}

fn compared_both_ways() -> [Call; 4] {
    [
        registers(Opcode::Comparisons, 0, 1),
        registers(Opcode::Comparisons, 1, 0),
        registers(Opcode::CmpUnits, 0, 1),
        registers(Opcode::CmpUnits, 1, 0),
    ]
}

/// Strings of 320 units against others with the first mismatch at each index up to 300, and strings of 4,110 units
/// against others with it about index 4,096, compared in both directions.
pub fn mismatch_at_each_index() -> Vec<Vec<Call>> {
    let parting = |base| {
        [
            mismatch_at(&string_of(base, 320), 0..=300),
            mismatch_at(&string_of(base, 4110), 4094..=4098),
        ]
    };
    BASES.into_iter().flat_map(parting).collect()
}

/// A string against others that have a lower or a higher unit at an index, or end there.
fn mismatch_at(units: &[u16], indexes: impl IntoIterator<Item = usize>) -> Vec<Call> {
    let mut calls = string_in(0, units);
    for index in indexes {
        let other = |unit| changed(units, &[(index, unit)]);
        for other in [other(0x60), other(0xDFFF), units[..index].to_vec()] {
            calls.extend(string_in(1, &other));
            calls.extend(compared_both_ways());
        }
    }
    calls
}

/// Strings of every length up to 130, with a unit of each encoded length at each index.
pub fn another_length_at_each_index() -> Vec<Vec<Call>> {
    let mut scripts = Vec::new();
    for base in BASES {
        for len in 0..=130 {
            scripts.push(another_length_at(&string_of(base, len), 0..len));
        }
    }
    scripts
}

fn another_length_at(units: &[u16], indexes: impl IntoIterator<Item = usize>) -> Vec<Call> {
    let mut calls = string_in(0, units);
    for index in indexes {
        for other in [0x7F, 0x80, 0x7FF, 0x800] {
            calls.extend(string_in(1, &changed(units, &[(index, other)])));
        }
    }
    calls
}

/// Strings of every length up to 130, each compared with strings that continue it by one and two units.
pub fn fronts() -> Vec<Vec<Call>> {
    let mut scripts = Vec::new();
    for base in BASES {
        let mut calls = Vec::new();
        for len in 0..=130 {
            let units = string_of(base, len + 2);
            calls.extend(string_in(0, &units[..len]));
            for more in 1..=2 {
                calls.extend(string_in(1, &units[..len + more]));
                calls.push(registers(Opcode::Comparisons, 0, 1));
                calls.push(registers(Opcode::Comparisons, 1, 0));
                calls.push(registers(Opcode::CmpUnits, 0, 1));
            }
            calls.extend(on(1, &[Opcode::Hash, Opcode::Debug]));
        }
        scripts.push(calls);
    }
    scripts
}

/// Strings of every length up to 130 with no lone surrogate, and with one at each index: texts, lossy or not.
pub fn one_surrogate() -> Vec<Vec<Call>> {
    let mut scripts = Vec::new();
    for base in BASES {
        for len in 0..=130 {
            scripts.push(with_surrogate_at(&string_of(base, len), 0..len));
        }
    }
    scripts
}

pub fn with_surrogate_at(units: &[u16], indexes: impl IntoIterator<Item = usize>) -> Vec<Call> {
    let mut calls = texts_of(units);
    for index in indexes {
        for surrogate in [0xD800, 0xDFFF] {
            calls.extend(texts_of(&changed(units, &[(index, surrogate)])));
        }
    }
    calls
}

/// Strings of some lengths with a lead and a trail at every two indexes, which form a pair if adjacent.
pub fn two_surrogates() -> Vec<Vec<Call>> {
    let mut scripts = Vec::new();
    for base in BASES {
        for len in [7, 20, 45, 70] {
            let units = string_of(base, len);
            for index in 0..len {
                let after = index + 1..len;
                let both = |other| changed(&units, &[(index, 0xDBFF), (other, 0xDC00)]);
                scripts.push(after.flat_map(|other| texts_of(&both(other))).collect());
            }
        }
    }
    scripts
}

/// The texts of a string made of units and of one joined from halves. The two may have UTF-8 prefixes of different
/// lengths.
fn texts_of(units: &[u16]) -> Vec<Call> {
    let (front, back) = units.split_at(units.len() / 2);
    let mut calls = string_in(0, units);
    calls.extend(on(
        0,
        &[Opcode::AsStr, Opcode::ToStringLossy, Opcode::IntoString],
    ));
    calls.extend(string_in(1, front));
    calls.extend(string_in(2, back));
    calls.push(registers(Opcode::PushWtf8, 1, 2));
    calls.extend(on(1, &[Opcode::ToStringLossy, Opcode::IntoStringLossy]));
    calls
}

/// Strings of up to 2,000 units with a changed unit or a surrogate at some indexes: comparisons, hash and texts.
pub fn longest() -> Vec<Vec<Call>> {
    let mut scripts = Vec::new();
    for base in BASES {
        for len in LENGTHS {
            let units = string_of(base, len);
            for index in indexes_in(len) {
                let mut calls = string_in(0, &units);
                for other in [0x62, 0xD800, 0xDC00] {
                    let units = changed(&units, &[(index, other)]);
                    calls.extend(string_in(1, &units));
                    calls.push(registers(Opcode::Comparisons, 0, 1));
                    calls.push(registers(Opcode::Comparisons, 1, 0));
                    calls.extend(on(
                        1,
                        &[
                            Opcode::Hash,
                            Opcode::AsStr,
                            Opcode::ToStringLossy,
                            Opcode::Debug,
                        ],
                    ));
                    calls.extend(on(1, &[Opcode::IntoStringLossy]));
                }
                scripts.push(calls);
            }
        }
    }
    scripts
}

/// Strings of many lengths joined in the middle, with a pair, a lead or a trail there.
pub fn joins() -> Vec<Vec<Call>> {
    let mut scripts = Vec::new();
    for base in BASES {
        for len in (0..=70).chain(126..=130) {
            scripts.push(joined_in_the_middle(&string_of(base, len)));
        }
    }
    scripts
}

fn joined_in_the_middle(units: &[u16]) -> Vec<Call> {
    let half = units.len() / 2;
    let mut calls = string_in(0, units);
    calls.extend(cut_and_joined(units, half));
    for (lead, trail) in [(0xD83D, 0xDCA9), (0xDBFF, 0x61), (0xE000, 0xDC00)] {
        let (front, back) = units.split_at(half);
        let whole = [front, &[lead, trail], back].concat();
        calls.extend(string_in(0, &whole));
        calls.extend(cut_and_joined(&whole, half + 1));
    }
    calls
}

/// Strings cut at each number of units, with letters or lone surrogates at both ends; long ones at some numbers.
pub fn cuts_by_units() -> Vec<Vec<Call>> {
    let mut scripts = Vec::new();
    for base in BASES {
        for len in (0..=40).chain([63, 66, 97, 130]) {
            let units = string_of(base, len);
            for ends in [[0x61, 0x61], [0xDC00, 0xD800]] {
                let units = [&ends[..1], &units, &ends[1..]].concat();
                scripts.push(cut_by_units_at(&units, 0..=units.len() + 1));
            }
        }
        let len = 2000;
        let indexes = [0, 31, 255, 1000, len - 1, len, len + 1];
        scripts.push(cut_by_units_at(&string_of(base, len), indexes));
    }
    scripts
}

fn cut_by_units_at(units: &[u16], indexes: impl IntoIterator<Item = usize>) -> Vec<Call> {
    let mut calls = string_in(0, units);
    calls.extend(on(0, &[Opcode::UnitAt]));
    for cut in indexes {
        calls.extend(cut_by_units(units.len(), cut));
    }
    calls
}

/// Slices inside a string, after a front of every length up to 40, with surrogates inside them, outside them, and at
/// their ends.
pub fn inside() -> Vec<Vec<Call>> {
    let bodies: [&[u16]; 10] = [
        &[],
        &[0x61],
        &[0xE9, 0xD800],
        &[0xDC00, 0x61],
        &[0xD83D, 0xDCA9],
        &[0xDCA9, 0xD83D],
        &[0xD55C; 12],
        &[0x61; 45],
        &[0xD83D, 0xDCA9, 0xD83D, 0xDCA9, 0x61, 0xD83D],
        &[0x20AC, 0xDFFF, 0xE9, 0x61, 0x61, 0x61, 0x61, 0xD800, 0x7A],
    ];
    let mut scripts = Vec::new();
    for filling in [0x61, 0xDC00] {
        for body in bodies {
            for front in 0..=40 {
                scripts.push(calls_inside(filling, front, body));
            }
        }
    }
    scripts
}

fn calls_inside(filling: u16, front: usize, body: &[u16]) -> Vec<Call> {
    let filler = |count| vec![filling; count];
    let begin = byte_len(&filler(front));
    let end = begin + byte_len(body);
    let whole = [filler(front), body.to_vec(), filler(40 - front)].concat();
    let other = [filler(3), body.to_vec(), vec![0x61]].concat();
    let other_begin = byte_len(&filler(3));
    let slice = |register, begin, end| {
        [
            Operand::Register(register),
            Operand::Number(begin),
            Operand::Number(end),
        ]
    };
    let own_slice = slice(0, begin, end);
    let other_end = other_begin + byte_len(body);
    let mut calls = string_in(0, &whole);
    calls.extend(string_in(1, &other));
    calls.push(Call::new(Opcode::ReadSlice, own_slice.to_vec()));
    for end in [other_end, other_end + 1, byte_len(&other)] {
        let slices = [own_slice.clone(), slice(1, other_begin, end)].concat();
        calls.push(Call::new(Opcode::CompareSlices, slices));
    }
    for string in [&[0x61][..], &[0xD83D], &[]] {
        calls.push(from_units(2, string));
        let operands = [&[Operand::Register(2)][..], &own_slice].concat();
        calls.push(Call::new(Opcode::PushSlice, operands));
        calls.extend(on(2, &[Opcode::AsStr, Opcode::ToStringLossy]));
    }
    calls
}

/// A lone surrogate and, after it, letters of three and two bytes among ASCII, in strings of each length from 8 to 130:
/// `into_string` must not take the string for UTF-8 since no later unit is a surrogate. `as_str` would search for one.
fn letters_after_a_surrogate() -> Vec<Call> {
    let ended = |len| {
        let units = changed(&vec![0x61; len], &[(1, 0xD800), (3, 0x4E2D), (5, 0xE9)]);
        [&[from_units(0, &units)][..], &on(0, &[Opcode::IntoString])].concat()
    };
    (8..=130).flat_map(ended).collect()
}

/// Lossy texts of a string of 3,060 bytes with a surrogate in the middle and at both ends.
fn long_lossy_texts() -> Vec<Call> {
    let surrogates = [(0, 0xD800), (510, 0xDBFF), (1019, 0xDC00)];
    let mut calls = string_in(0, &changed(&string_of(BASES[3], 1020), &surrogates));
    calls.extend(on(0, &[Opcode::ToStringLossy, Opcode::IntoStringLossy]));
    calls
}

/// A part of these scripts, and some on long strings, for the fixed list that the gate replays.
pub fn chosen() -> Vec<Vec<Call>> {
    let mut scripts: Vec<Vec<Call>> = inside().into_iter().step_by(19).collect();
    for base in [BASES[0], BASES[3], BASES[6]] {
        let units = string_of(base, 100);
        scripts.push(changed_at(&units, [7, 16, 40, 99]));
        scripts.push(with_surrogate_at(&units, [9, 30, 31, 96, 99]));
    }
    let units = [string_of(BASES[6], 64), vec![0xD800]].concat();
    scripts.push(cut_by_units_at(&units, [0, 3, 4, 32, 33, 63, 64, 65]));
    for len in [33, 126] {
        scripts.push(joined_in_the_middle(&string_of(BASES[0], len)));
    }
    let units = string_of(BASES[0], 1200);
    let mut calls = string_in(0, &units);
    calls.extend(string_in(1, &changed(&units, &[(1199, 0xDC00)])));
    calls.push(registers(Opcode::Comparisons, 0, 1));
    calls.extend(on(1, &[Opcode::AsStr, Opcode::ToStringLossy, Opcode::Hash]));
    scripts.push(calls);
    scripts.extend([letters_after_a_surrogate(), long_lossy_texts()]);
    scripts
}

/// The length in bytes of the string of `units`.
pub fn byte_len(units: &[u16]) -> u16 {
    let points = char::decode_utf16(units.iter().copied());
    let lens = points.map(|point| point.map_or(3, char::len_utf8));
    lens.sum::<usize>() as u16
}
