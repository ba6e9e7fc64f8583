//! Lists of scripts on a code point or units that are pushed to strings of every length, and on strings of 6,000 units.

use crate::lists::generate::{call_on, from_units, push, push_units, registers, with_units};
use crate::lists::long::{changed, on, string_in, BASES};
use crate::script::{Call, Opcode, Operand, Step};

/// Code points of each encoded length, the first and last lead and trail surrogates, and their neighbours.
const PUSHED: [u32; 10] = [
    0x61, 0xE9, 0x20AC, 0xD7FF, 0xD800, 0xDBFF, 0xDC00, 0xDFFF, 0xE000, 0x1F4A9,
];

/// The number of units in the longest strings of this list.
const FAR: usize = 6000;

fn string_of(base: &[u16], len: usize) -> Vec<u16> {
    base.iter().copied().cycle().take(len).collect()
}

/// A code point pushed to a string of every length up to 130, without and with a letter after it: `as_str`,
/// `into_string` and `into_string_lossy`.
pub fn after_each_length() -> Vec<Vec<Call>> {
    let mut scripts = Vec::new();
    for base in BASES {
        for len in 0..=130 {
            scripts.push(pushed_after(&string_of(base, len)));
        }
    }
    scripts
}

fn pushed_after(units: &[u16]) -> Vec<Call> {
    let mut calls = string_in(0, units);
    for value in PUSHED {
        for ends in [Opcode::IntoString, Opcode::IntoStringLossy] {
            calls.extend([registers(Opcode::Clone, 1, 0), push(1, value)]);
            calls.extend(on(1, &[Opcode::AsStr, ends]));
            calls.extend([
                registers(Opcode::Clone, 1, 0),
                push(1, value),
                push(1, 0x7A),
            ]);
            calls.extend(on(1, &[ends]));
        }
    }
    calls
}

/// The most units of a string in `units_from_each_index`.
const MOST_CUT: usize = 70;

/// Strings of every length up to `MOST_CUT`, cut at each index, unchanged and with a pair cut in two or another
/// surrogate at the cut: the units after it appended by `push_ill_formed_utf16`, `into_string`, and `write_units`.
pub fn units_from_each_index() -> Vec<Vec<Call>> {
    let mut scripts = Vec::new();
    for base in BASES {
        for len in 1..=MOST_CUT {
            let units = string_of(base, len);
            scripts.push(
                (1..len)
                    .flat_map(|cut| cut_and_pushed(&units, cut))
                    .collect(),
            );
        }
    }
    scripts
}

fn cut_and_pushed(units: &[u16], cut: usize) -> Vec<Call> {
    let pair = changed(units, &[(cut - 1, 0xD83D), (cut, 0xDCA9)]);
    let surrogate = changed(units, &[(cut, 0xDCA9)]);
    let lists = [units, &pair, &surrogate].into_iter();
    lists
        .flat_map(|units| {
            [
                from_units(0, &units[..cut]),
                push_units(0, &units[cut..]),
                call_on(0, Opcode::IntoString),
                with_units(0, Opcode::WriteUnits, &[0xD800]),
            ]
        })
        .collect()
}

/// Strings of 6,000 units: with a surrogate or another unit at some indexes, joined in the middle of a pair as units
/// and as a view, and read by both iterators with their size hints.
pub fn far() -> Vec<Vec<Call>> {
    BASES
        .into_iter()
        .map(|base| calls_far(&string_of(base, FAR)))
        .collect()
}

fn calls_far(units: &[u16]) -> Vec<Call> {
    let mut calls = string_in(0, units);
    for index in [0, 2999, 4100, FAR - 1] {
        for unit in [0x62, 0xD800, 0xDC00] {
            calls.extend(string_in(1, &changed(units, &[(index, unit)])));
            calls.extend(compared());
            calls.extend(on(
                1,
                &[Opcode::AsStr, Opcode::ToStringLossy, Opcode::IntoString],
            ));
        }
    }
    let half = FAR / 2;
    let whole = [&units[..half], &[0xD83D, 0xDCA9], &units[half..]].concat();
    calls.extend(string_in(0, &whole));
    calls.extend(string_in(2, &whole[half + 1..]));
    for opcode in [Opcode::PushUnitsOf, Opcode::PushWtf8] {
        calls.extend(string_in(1, &whole[..=half]));
        calls.push(registers(opcode, 1, 2));
        calls.extend(compared());
    }
    // A size hint before each of some steps.
    let mut steps = [Step::SizeHint, Step::Next].repeat(20);
    steps.extend([
        Step::SizeHint,
        Step::Skip,
        Step::SizeHint,
        Step::Last,
        Step::Collect,
    ]);
    for opcode in [Opcode::CodePoints, Opcode::ToIllFormedUtf16] {
        let operands = vec![Operand::Register(1), Operand::Steps(steps.clone())];
        calls.push(Call::new(opcode, operands));
    }
    calls
}

fn compared() -> [Call; 4] {
    [
        registers(Opcode::Comparisons, 0, 1),
        registers(Opcode::Comparisons, 1, 0),
        registers(Opcode::CmpUnits, 0, 1),
        registers(Opcode::CmpUnits, 1, 0),
    ]
}
