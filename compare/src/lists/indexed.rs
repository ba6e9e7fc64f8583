//! Scripts of calls on the indexed string, with marks and without.

use crate::lists::generate::{self, from_units, operand, pushed, registers, runs, unit_lists};
use crate::lists::long::{on, string_in};
use crate::lists::worked::JOINING;
use crate::random::Random;
use crate::script::{Call, Kind, Opcode, Operand, Step};

/// The number of units between one mark and the next.
const SPACING: usize = 128;

/// Units that long strings repeat: of each encoded length, pairs, pairs that a mark divides, and all with surrogates.
const KINDS: [&[u16]; 6] = [
    &[0x61],
    &[0xE9],
    &[0x3042],
    &[0xD83D, 0xDCA9],
    &[0xDCA9, 0xD83D],
    &[0x61, 0xE9, 0x3042, 0xD83D, 0xDCA9, 0xD83D, 0xDC00],
];

/// The longest string before the random calls, in units.
const LONGEST: usize = 2 * 255;

fn call(opcode: Opcode) -> Call {
    Call::new(opcode, Vec::new())
}

fn number(opcode: Opcode, number: usize) -> Call {
    Call::new(opcode, vec![Operand::Number(number as u16)])
}

fn units_of(opcode: Opcode, units: &[u16]) -> Call {
    Call::new(opcode, vec![Operand::Units(units.to_vec())])
}

fn value(opcode: Opcode, value: u32) -> Call {
    Call::new(opcode, vec![Operand::Value(value)])
}

/// The units from one index to another, appended to the string of a register.
fn slice(register: u8, begin: usize, end: usize) -> Call {
    let ends = [begin, end].map(|index| Operand::Number(index as u16));
    let mut operands = vec![Operand::Register(register)];
    operands.extend(ends);
    Call::new(Opcode::IndexedPushSlice, operands)
}

/// The units of the string of a register from one index to another, appended to the indexed string.
fn pushed_slice(register: u8, begin: usize, end: usize) -> Call {
    Call::new(
        Opcode::IndexedPushUnitSlice,
        slice(register, begin, end).operands,
    )
}

/// The units from one index to another, copied before other units.
fn copied(begin: usize, end: usize, after: &[u16]) -> Call {
    let operands = vec![
        Operand::Number(begin as u16),
        Operand::Number(end as u16),
        Operand::Units(after.to_vec()),
    ];
    Call::new(Opcode::CopyUnits, operands)
}

/// The units from one index to another, replaced by others.
fn replaced(begin: usize, end: usize, units: &[u16]) -> Call {
    let operands = vec![
        Operand::Number(begin as u16),
        Operand::Number(end as u16),
        Operand::Units(units.to_vec()),
    ];
    Call::new(Opcode::IndexedReplaceUnits, operands)
}

/// The units from one index to another, replaced by the string of a register.
fn replaced_by(begin: usize, end: usize, register: u8) -> Call {
    let operands = vec![
        Operand::Number(begin as u16),
        Operand::Number(end as u16),
        Operand::Register(register),
    ];
    Call::new(Opcode::IndexedReplace, operands)
}

fn units_from(index: usize, steps: &[Step]) -> Call {
    let operands = vec![
        Operand::Number(index as u16),
        Operand::Steps(steps.to_vec()),
    ];
    Call::new(Opcode::UnitsFrom, operands)
}

/// Makes the indexed string of that of register 0, with marks or without.
fn indexed(is_marked: bool) -> Vec<Call> {
    let mut calls = on(0, &[Opcode::FromBuf]);
    if is_marked {
        calls.push(call(Opcode::MarkUnits));
    }
    calls
}

/// Reads at an index: the unit, the position, and some units from there and up to there.
fn read_at(index: usize) -> Vec<Call> {
    vec![
        number(Opcode::IndexedUnitAt, index),
        number(Opcode::PositionAt, index),
        copied(index, index + 3, &[0x62]),
        copied(index.saturating_sub(SPACING + 1), index, &[]),
    ]
}

/// Every list of up to three units, read at every index and position, and cut there.
pub fn up_to_three_units() -> Vec<Vec<Call>> {
    unit_lists(3)
        .iter()
        .map(|units| each_index(units))
        .collect()
}

fn each_index(units: &[u16]) -> Vec<Call> {
    let mut calls = vec![from_units(0, units)];
    for begin in 0..=units.len() + 1 {
        calls.extend(indexed(begin % 2 == 0));
        calls.extend(read_at(begin));
        calls.push(units_from(
            begin,
            &[Step::SizeHint, Step::Next, Step::Drain],
        ));
        for end in 0..=units.len() + 1 {
            calls.push(Call::new(Opcode::New, vec![Operand::Register(1)]));
            calls.extend([
                slice(1, 0, begin),
                slice(1, begin, end),
                copied(begin, end, &[0x62]),
            ]);
        }
        calls.push(number(Opcode::IndexedTruncateUnits, begin));
        calls.extend(on(
            0,
            &[Opcode::IndexedComparisons, Opcode::IndexedPushWtf8],
        ));
    }
    for position in 0..=3 * units.len() + 1 {
        calls.extend(indexed(position % 2 == 0));
        calls.push(number(Opcode::UnitBefore, position));
        calls.push(number(Opcode::IndexedTruncate, position));
        calls.extend(on(2, &[Opcode::IntoBuf, Opcode::IntoString]));
    }
    calls
}

/// Every list of up to three units, divided at each index: the second part appended to the first by each call, and both
/// as slices of the whole to an empty string.
pub fn divided() -> Vec<Vec<Call>> {
    unit_lists(3)
        .iter()
        .map(|units| pushed_from_each_index(units))
        .collect()
}

fn pushed_from_each_index(units: &[u16]) -> Vec<Call> {
    let mut calls = vec![from_units(0, units)];
    for index in 0..=units.len() {
        let (front, back) = units.split_at(index);
        calls.push(from_units(1, back));
        for appended in ways(back) {
            calls.push(units_of(Opcode::IndexedFromUnits, front));
            calls.extend(appended);
            calls.extend(on(0, &[Opcode::IndexedComparisons]));
        }
        calls.extend([
            call(Opcode::IndexedNew),
            pushed_slice(0, 0, index),
            pushed_slice(0, index, units.len()),
        ]);
        calls.extend(on(0, &[Opcode::IndexedComparisons]));
    }
    calls.extend([call(Opcode::IndexedHash), call(Opcode::IndexedDebug)]);
    calls
}

/// The calls that append these units, by each way that takes them; the string of register 1 has them too.
fn ways(units: &[u16]) -> Vec<Vec<Call>> {
    let each = |opcode| {
        let push = |unit: &u16| match opcode {
            Opcode::IndexedPushUnit => number(opcode, usize::from(*unit)),
            _ => value(opcode, u32::from(*unit)),
        };
        units.iter().map(push).collect()
    };
    let mut ways: Vec<Vec<Call>> = vec![
        each(Opcode::IndexedPush),
        each(Opcode::IndexedPushUnit),
        vec![units_of(Opcode::IndexedPushUnits, units)],
        on(1, &[Opcode::IndexedPushWtf8]),
    ];
    if let Ok(text) = String::from_utf16(units) {
        let push_char = |c: char| value(Opcode::IndexedPushChar, u32::from(c));
        ways.push(text.chars().map(push_char).collect());
        ways.push(vec![Call::new(
            Opcode::IndexedPushStr,
            vec![Operand::Text(text)],
        )]);
    }
    ways
}

/// Strings of lengths about the multiples of `SPACING`, with marks and without: read about each multiple and about the
/// end, grown by each call and read again, and cut about each multiple.
pub fn about_marks() -> Vec<Vec<Call>> {
    let lengths = [126, 127, 128, 129, 130, 255, 256, 257, 300, 385];
    let mut scripts = Vec::new();
    for kind in KINDS {
        for length in lengths {
            scripts.extend([false, true].map(|is_marked| grown_and_cut(kind, length, is_marked)));
        }
    }
    scripts
}

/// Some of `about_marks`, texts whose units are counted, and some of `replacements`, for the fixed list.
pub fn chosen() -> Vec<Vec<Call>> {
    let kinds = [KINDS[2], KINDS[4]].into_iter();
    let grown = kinds.map(|kind| grown_and_cut(kind, SPACING + 1, true));
    let cut = [true, false].map(cut_and_grown_by_letters);
    let replaced = JOINING.map(replaced_everywhere);
    let about_marks = [KINDS[2], KINDS[4]].map(replaced_about_marks);
    let by_strings = JOINING.map(replaced_by_strings);
    let long_strings = [KINDS[2], KINDS[4]].map(replaced_by_strings_about_marks);
    let scripts = grown.chain(counted()).chain(cut);
    let scripts = scripts.chain(replaced).chain(about_marks);
    scripts.chain(by_strings).chain(long_strings).collect()
}

/// What is put in place of units: nothing, a letter, halves of pairs, and both in either order.
const PUT: [&[u16]; 6] = [
    &[],
    &[0x61],
    &[0xD83D],
    &[0xDCA9],
    &[0xDCA9, 0xD83D],
    &[0xD83D, 0xDCA9],
];

/// Every list of up to three units, in which each part is replaced by each list of `PUT`, and long strings in which units
/// about marks are.
pub fn replacements() -> Vec<Vec<Call>> {
    let lists = unit_lists(3);
    let short = lists.iter().map(|units| replaced_everywhere(units));
    short.chain(KINDS.map(replaced_about_marks)).collect()
}

/// The lists and the long strings of `replacements`, replaced likewise by strings.
pub fn replacements_by_strings() -> Vec<Vec<Call>> {
    let lists = unit_lists(3);
    let short = lists.iter().map(|units| replaced_by_strings(units));
    short
        .chain(KINDS.map(replaced_by_strings_about_marks))
        .collect()
}

fn replaced_everywhere(units: &[u16]) -> Vec<Call> {
    let mut calls = vec![from_units(0, units)];
    for begin in 0..=units.len() {
        for end in begin..=units.len() + 1 {
            for put in PUT {
                calls.extend(on(0, &[Opcode::FromBuf]));
                calls.push(replaced(begin, end, put));
            }
        }
    }
    calls.push(replaced(1, 0, &[]));
    calls.extend(on(2, &[Opcode::IntoBuf, Opcode::IntoString]));
    calls
}

/// Each part of a list, and a part that ends past it, replaced by the string of each list of `PUT`, and by that of the
/// whole list.
fn replaced_by_strings(units: &[u16]) -> Vec<Call> {
    let mut calls = vec![from_units(0, units)];
    for put in PUT.into_iter().chain([units]) {
        calls.push(from_units(1, put));
        for begin in 0..=units.len() {
            for end in begin..=units.len() + 1 {
                calls.extend(on(0, &[Opcode::FromBuf]));
                calls.push(replaced_by(begin, end, 1));
            }
        }
    }
    calls.push(replaced_by(1, 0, 1));
    calls.extend(on(2, &[Opcode::IntoBuf, Opcode::IntoString]));
    calls
}

/// A marked string of some hundred units of a kind, in which a string is inserted before, at and after a mark, and then
/// replaced by the whole string, read about each mark after each change. The string is longer than the distance between
/// marks, and a pair is joined at each end of it where there is a half of one.
fn replaced_by_strings_about_marks(kind: &[u16]) -> Vec<Call> {
    let inserted = SPACING + 2;
    let mut piece = string_of(kind, inserted);
    (piece[0], piece[inserted - 1]) = (0xDCA9, 0xD83D);
    let mut calls = string_in(0, &string_of(kind, 2 * SPACING + 40));
    calls.push(from_units(1, &piece));
    for index in [1, SPACING - 1, SPACING, SPACING + 1, 2 * SPACING + 1] {
        calls.extend(indexed(true));
        calls.push(replaced_by(index, index, 1));
        calls.extend(reads_about(index + inserted));
        calls.push(replaced_by(index, index + inserted, 0));
        calls.extend(reads_about(4 * SPACING));
    }
    calls.extend(on(2, &[Opcode::IntoBuf, Opcode::IntoString]));
    calls
}

/// A marked string of some hundred units of a kind, in which units before, at and after a mark are inserted, removed and
/// replaced, read about each mark after each change.
fn replaced_about_marks(kind: &[u16]) -> Vec<Call> {
    let length = 2 * SPACING + 40;
    let mut calls = string_in(0, &string_of(kind, length));
    calls.extend(indexed(true));
    for index in [1, SPACING - 1, SPACING, SPACING + 1, 2 * SPACING + 1] {
        calls.push(replaced(index, index, &[0xDCA9, 0x61, 0xD83D]));
        calls.extend(reads_about(SPACING));
        calls.push(replaced(index, index + 1, &[]));
        calls.push(replaced(index - 1, index + 2, &[0xE9]));
        calls.extend(reads_about(2 * SPACING));
    }
    calls.extend(on(2, &[Opcode::IntoBuf, Opcode::IntoString]));
    calls
}

/// Code points about U+10000, the first of two units, and of each encoded length.
const COUNTED: [char; 6] = [
    'a',
    '\u{E9}',
    '\u{D7FF}',
    '\u{FFFF}',
    '\u{10000}',
    '\u{10FFFF}',
];

/// The number of units after each code point of `COUNTED` is pushed, by each call that takes it, and after texts of up to
/// nine bytes of it: its last unit, one past it, and the units before each position.
pub fn counted() -> Vec<Vec<Call>> {
    COUNTED.map(counted_pushes).to_vec()
}

fn counted_pushes(c: char) -> Vec<Call> {
    let text = |count| c.to_string().repeat(count);
    let push_str = |count| Call::new(Opcode::IndexedPushStr, vec![Operand::Text(text(count))]);
    let mut pushes = vec![
        value(Opcode::IndexedPush, u32::from(c)),
        value(Opcode::IndexedPushChar, u32::from(c)),
    ];
    pushes.extend((0..=9 / c.len_utf8()).map(push_str));
    // "é", so that units are counted by marks and not by bytes.
    let mut calls = vec![from_units(0, &[0xE9])];
    for push in pushes {
        calls.extend(indexed(true));
        calls.push(push);
        calls.extend([
            number(Opcode::IndexedPushUnit, 0x7A),
            number(Opcode::UnitBefore, 0xFFFF),
        ]);
        calls.extend((1..=4).map(|index| number(Opcode::IndexedUnitAt, index)));
    }
    calls
}

/// A marked string of 510 units of two bytes, cut at a position or at a number of units before its marks, and grown by
/// letters: the marks that it had would be wrong for these.
fn cut_and_grown_by_letters(by_position: bool) -> Vec<Call> {
    let mut calls = string_in(0, &string_of(&[0xE9], LONGEST));
    calls.extend(indexed(true));
    calls.push(match by_position {
        true => number(Opcode::IndexedTruncate, 200),
        false => number(Opcode::IndexedTruncateUnits, 100),
    });
    for _ in 0..2 {
        calls.push(units_of(Opcode::IndexedPushUnits, &[0x61; 200]));
    }
    calls.extend(reads_about(500));
    calls
}

/// `len` units of a kind.
fn string_of(kind: &[u16], len: usize) -> Vec<u16> {
    kind.iter().copied().cycle().take(len).collect()
}

/// Reads about each multiple of `SPACING` up to a length, and about the length.
fn reads_about(length: usize) -> Vec<Call> {
    let edges = (0..length).step_by(SPACING).chain([length]);
    let indexes = edges.flat_map(|edge| edge.saturating_sub(2)..=edge + 2);
    indexes.flat_map(read_at).collect()
}

/// A string whose second half is the same as the first, so that a pair may be divided where they meet.
fn grown_and_cut(kind: &[u16], length: usize, is_marked: bool) -> Vec<Call> {
    let units = string_of(kind, length);
    let mut calls = string_in(0, &units);
    calls.extend(indexed(is_marked));
    calls.extend(reads_about(length));
    calls.extend(on(0, &[Opcode::IndexedPushWtf8]));
    calls.extend(reads_about(2 * length));
    calls.push(units_of(Opcode::IndexedPushUnits, &string_of(kind, 140)));
    for index in [length - 1, length, 2 * length - 1, 2 * length] {
        calls.push(units_from(index, &[]));
    }
    calls.extend(cuts(2 * length + 140, length));
    calls.push(call(Opcode::IndexedShrinkToFit));
    calls.extend(reads_about(length));
    calls.push(pushed_slice(0, 1, length));
    calls.extend(reads_about(2 * length - 1));
    calls.push(number(Opcode::IndexedTruncateUnits, length));
    calls.push(call(Opcode::IndexedClone));
    calls.extend(reads_about(length));
    calls.push(call(Opcode::IndexedClear));
    calls.push(units_of(Opcode::IndexedPushUnits, &string_of(kind, 130)));
    calls.extend(reads_about(130));
    calls.extend(on(2, &[Opcode::IntoBuf, Opcode::IntoString]));
    calls
}

/// Cuts a string of `length` units from the end, about each multiple of `SPACING` above `least` and to `least`, and appends a unit
/// after each cut.
fn cuts(length: usize, least: usize) -> Vec<Call> {
    let multiples = (0..length / SPACING)
        .rev()
        .map(|count| SPACING * (count + 1));
    let indexes = multiples
        .flat_map(|edge| [edge + 1, edge, edge - 1])
        .chain([least]);
    let indexes = indexes.filter(|index| (least..=length).contains(index));
    let cut = |index| {
        [
            number(Opcode::IndexedTruncateUnits, index),
            number(Opcode::UnitBefore, 0xFFFF),
            number(Opcode::IndexedPushUnit, 0xDCA9),
            number(Opcode::IndexedUnitAt, index),
            number(Opcode::PositionAt, index),
            number(Opcode::IndexedTruncateUnits, index),
        ]
    };
    indexes.flat_map(cut).collect()
}

/// A random script of up to 25 calls on a string that is mostly longer than some distances between marks.
pub fn random_script(random: &mut Random) -> Vec<Call> {
    let count = random.between(0, 255) as usize;
    let mut calls = vec![from_units(0, &runs(random, count))];
    let mut length = count;
    if random.below(2) == 0 {
        calls.push(registers(Opcode::PushWtf8, 0, 0));
        length *= 2;
    }
    calls.push(Call::new(
        Opcode::FromIllFormedUtf16,
        vec![Operand::Register(1), operand(random, Kind::Units)],
    ));
    // Marks are made at once, or by the push, or not.
    match random.below(4) {
        0 => calls.extend(indexed(false)),
        1 => {
            calls.extend([call(Opcode::IndexedNew), call(Opcode::MarkUnits)]);
            calls.extend(on(0, &[Opcode::IndexedPushWtf8]));
        }
        _ => calls.extend(indexed(true)),
    }
    for _ in 0..random.between(1, 25) {
        calls.extend(random_calls(random, &mut length));
    }
    calls
}

/// One random call, or a few related ones, on an indexed string of about `length` units.
fn random_calls(random: &mut Random, length: &mut usize) -> Vec<Call> {
    let index = index_about(random, *length);
    let register = random.below(4) as u8;
    match random.below(35) {
        0 => vec![call(Opcode::MarkUnits)],
        1 => vec![call(Opcode::IndexedClone)],
        2..=9 => appending(random, length),
        10 | 11 => cutting(random, length, index),
        12 => on(
            register,
            &[Opcode::IntoBuf, Opcode::IntoString, Opcode::FromBuf],
        ),
        13 => on(register, &[Opcode::IndexedComparisons]),
        14 => vec![call(
            random.pick(&[Opcode::IndexedHash, Opcode::IndexedDebug]),
        )],
        15 | 16 => {
            let mut operands = vec![Operand::Number(index as u16)];
            operands.push(operand(random, Kind::Steps));
            vec![Call::new(Opcode::UnitsFrom, operands)]
        }
        17..=19 => vec![slice(register, index, end_after(random, index, *length))],
        20..=22 => vec![copied(index, end_after(random, index, *length), &[0xD800])],
        23..=25 => vec![number(Opcode::PositionAt, index)],
        26..=28 => vec![number(Opcode::UnitBefore, position_about(random, index))],
        29 => vec![call(Opcode::IndexedShrinkToFit)],
        30 | 31 => replacing(random, length, index),
        _ => vec![number(Opcode::IndexedUnitAt, index)],
    }
}

/// An index in a string of about `length` units or a little past it, mostly about a multiple of `SPACING` or the end.
fn index_about(random: &mut Random, length: usize) -> usize {
    let edge = match random.below(4) {
        0 => return random.below(length as u64 + 3) as usize,
        1 => length,
        _ => SPACING * random.below((length / SPACING) as u64 + 1) as usize,
    };
    (edge + random.below(5) as usize).saturating_sub(2)
}

/// An index at or, seldom, before another one.
fn end_after(random: &mut Random, index: usize, length: usize) -> usize {
    match random.below(8) {
        0 => index_about(random, length),
        1 => length,
        2 => index + SPACING,
        _ => index + random.below(6) as usize,
    }
}

/// A position about that of an index, if the units before it have one, two or three bytes each.
fn position_about(random: &mut Random, index: usize) -> usize {
    (index * random.between(1, 3) as usize + random.below(3) as usize).saturating_sub(1)
}

/// A call that appends, or reserves. Adds the number of units to `length`.
fn appending(random: &mut Random, length: &mut usize) -> Vec<Call> {
    let opcode = random.pick(&[
        Opcode::IndexedReserve,
        Opcode::IndexedPush,
        Opcode::IndexedPush,
        Opcode::IndexedPushUnit,
        Opcode::IndexedPushChar,
        Opcode::IndexedPushStr,
        Opcode::IndexedPushUnits,
        Opcode::IndexedPushUnits,
        Opcode::IndexedPushWtf8,
        Opcode::IndexedPushUnitSlice,
        Opcode::IndexedPushUnitSlice,
    ]);
    let call = match opcode {
        Opcode::IndexedPushWtf8 => on(1, &[opcode]).remove(0),
        Opcode::IndexedPushUnitSlice => {
            let begin = random.below(20) as usize;
            pushed_slice(
                random.below(2) as u8,
                begin,
                end_after(random, begin, begin),
            )
        }
        Opcode::IndexedPushUnits if *length < LONGEST && random.below(3) == 0 => {
            let count = random.between(1, 255) as usize;
            units_of(opcode, &runs(random, count))
        }
        Opcode::IndexedPushUnit => number(opcode, usize::from(generate::unit(random))),
        _ => generate::call_of(random, opcode),
    };
    *length += match &call.operands[..] {
        [Operand::Units(units)] => units.len(),
        [Operand::Text(text)] => text.encode_utf16().count(),
        [_, Operand::Number(begin), Operand::Number(end)] => end.saturating_sub(*begin).into(),
        _ => 1,
    };
    vec![call]
}

/// A call that inserts, removes or replaces units, by units, by a string, or by the string itself. Changes `length` as it
/// does.
fn replacing(random: &mut Random, length: &mut usize, index: usize) -> Vec<Call> {
    let end = match random.below(3) {
        0 => index,
        _ => end_after(random, index, *length),
    };
    let units = put(random);
    let mut put = units.len();
    let calls = match random.below(4) {
        0 | 1 => vec![replaced(index, end, &units)],
        2 if *length < LONGEST => {
            put = *length;
            let mut calls = on(3, &[Opcode::IntoBuf, Opcode::FromBuf]);
            calls.push(replaced_by(index, end, 3));
            calls
        }
        _ => vec![from_units(3, &units), replaced_by(index, end, 3)],
    };
    if index <= end && end <= *length {
        *length = *length + index + put - end;
    }
    calls
}

/// Units that a call puts in place of others: mostly a few, sometimes more than there are between marks.
fn put(random: &mut Random) -> Vec<u16> {
    let most = match random.below(8) {
        0 | 1 => return random.pick(&PUT).to_vec(),
        2 => 255,
        _ => 12,
    };
    let count = random.below(most) as usize;
    runs(random, count)
}

/// A call that truncates the string, mostly not far from its end.
fn cutting(random: &mut Random, length: &mut usize, index: usize) -> Vec<Call> {
    match random.below(8) {
        0 => {
            *length = 0;
            let mut calls = vec![call(Opcode::IndexedClear)];
            calls.extend(appending(random, length));
            calls
        }
        1 | 2 => vec![number(
            Opcode::IndexedTruncate,
            position_about(random, index),
        )],
        _ => {
            let back = random.below(*length as u64 + 1) as usize;
            let cut = match random.below(2) {
                0 => length.saturating_sub(back % 140),
                _ => index,
            };
            *length = cut.min(*length);
            vec![number(Opcode::IndexedTruncateUnits, cut)]
        }
    }
}

/// The units of the worked examples: "a" and a pair.
const EXAMPLE: [u16; 3] = [0x61, 0xD83D, 0xDCA9];

/// Worked examples, each a short script on its own input. `gate/worked_examples.txt` has the calls and the result of each
/// in words.
pub fn worked() -> Vec<Vec<Call>> {
    let made = || {
        let mut calls = vec![from_units(0, &EXAMPLE)];
        calls.extend(indexed(false));
        calls
    };
    let after = |more: Vec<Call>| [made(), more].concat();
    let lead = || vec![from_units(0, &[0xD83D]), from_units(1, &[0xDCA9])];
    let to_lead = |more: Call| [lead(), indexed(false), vec![more]].concat();
    let text = Operand::Text("\u{E9}".to_owned());
    let mut scripts = vec![
        after(vec![call(Opcode::IndexedNew)]),
        [pushed(0, &[]), vec![number(Opcode::IndexedWithCapacity, 4)]].concat(),
        [
            pushed(0, &[]),
            vec![units_of(Opcode::IndexedFromUnits, &EXAMPLE)],
        ]
        .concat(),
        made(),
        after(vec![
            call(Opcode::IndexedClone),
            number(Opcode::IndexedUnitAt, 2),
        ]),
        after(vec![
            call(Opcode::MarkUnits),
            number(Opcode::IndexedUnitAt, 2),
        ]),
        after(vec![number(Opcode::IndexedReserve, 100)]),
        to_lead(value(Opcode::IndexedPush, 0xDCA9)),
        to_lead(number(Opcode::IndexedPushUnit, 0xDCA9)),
        to_lead(value(Opcode::IndexedPushChar, 0x1F4A9)),
        to_lead(value(Opcode::IndexedPushChar, 0xDCA9)),
        to_lead(Call::new(Opcode::IndexedPushStr, vec![text])),
        to_lead(units_of(Opcode::IndexedPushUnits, &[0xDCA9, 0xD83D])),
        to_lead(on(1, &[Opcode::IndexedPushWtf8]).remove(0)),
        after(vec![
            number(Opcode::IndexedTruncate, 1),
            number(Opcode::UnitBefore, 9),
        ]),
        after(vec![number(Opcode::IndexedTruncate, 2)]),
        after(vec![number(Opcode::IndexedTruncateUnits, 2)]),
        after(vec![number(Opcode::IndexedTruncateUnits, 4)]),
        after(vec![
            call(Opcode::IndexedClear),
            number(Opcode::IndexedUnitAt, 0),
        ]),
        after(
            (0..4)
                .map(|index| number(Opcode::IndexedUnitAt, index))
                .collect(),
        ),
        after(vec![slice(1, 0, 2), slice(1, 2, 3)]),
        after(vec![slice(1, 2, 1)]),
        after(vec![pushed_slice(0, 1, 2), pushed_slice(0, 2, 3)]),
        after(vec![pushed_slice(0, 1, 4)]),
        after(vec![pushed_slice(0, 2, 1)]),
        after(vec![
            call(Opcode::MarkUnits),
            number(Opcode::IndexedReserve, 100),
            call(Opcode::IndexedShrinkToFit),
            number(Opcode::IndexedUnitAt, 2),
        ]),
        after(vec![replaced(2, 2, &[0x62]), replaced(2, 3, &[])]),
        after(vec![replaced(0, 3, &[0xD83D]), replaced(1, 2, &[])]),
        after(vec![from_units(1, &[0xDCA9, 0xD83D]), replaced_by(2, 2, 1)]),
        after(vec![replaced_by(1, 2, 0), replaced_by(1, 7, 0)]),
        after(vec![copied(1, 2, &[0x62])]),
        after(vec![copied(1, 4, &[])]),
        after(vec![units_from(2, &[Step::Next, Step::SizeHint])]),
        after(vec![units_from(4, &[])]),
        after(
            (0..5)
                .map(|index| number(Opcode::PositionAt, index))
                .collect(),
        ),
        after(
            [0, 1, 2, 4, 5, 6]
                .map(|position| number(Opcode::UnitBefore, position))
                .to_vec(),
        ),
        after(on(0, &[Opcode::IndexedComparisons])),
        [
            vec![from_units(1, &[0xFFFF])],
            after(on(1, &[Opcode::IndexedComparisons])),
        ]
        .concat(),
        after(vec![call(Opcode::IndexedHash)]),
        after(vec![call(Opcode::IndexedDebug)]),
        after(
            [
                on(1, &[Opcode::IntoBuf, Opcode::IntoString]),
                vec![number(Opcode::IndexedUnitAt, 0)],
            ]
            .concat(),
        ),
    ];
    scripts.extend(JOINING.map(pushed_from_each_index));
    scripts
}
