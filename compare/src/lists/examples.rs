//! Lists of worked examples: strings in the order of their code points, hash inputs, iterators in each state, orders by
//! code units, and runs of one kind with another kind at each index.

use crate::lists::generate::{
    call_on, calls_on, cut_and_joined, from_units, point_calls, push, pushed, registers, with_text,
};
use crate::lists::worked::JOINING;
use crate::script::{Call, Opcode, Operand, Step};

/// Strings as code points, in ascending order.
const IN_ORDER: [&[u32]; 14] = [
    &[],
    &[0x0000],
    &[0x0061],
    &[0x0061, 0x0000],
    &[0x007F],
    &[0x0080],
    &[0xD7FF],
    &[0xD800],
    &[0xD83D],
    &[0xDFFF],
    &[0xE000],
    &[0xFFFF],
    &[0x10000],
    &[0xD83D, 0xDCA9],
];

/// A text with characters of one, two and four bytes.
const TEXT: &[u16] = &[0x0061, 0x00E9, 0x0020, 0xD83D, 0xDCA9];

/// No units, units with surrogates that join or stay lone, and `TEXT`.
fn joining() -> impl Iterator<Item = &'static [u16]> {
    let joining = [&[][..]].into_iter().chain(JOINING);
    joining.chain([TEXT])
}

/// Lists of units to compare, some of which have another order by code units than by code points.
const BY_UNITS: [(&[u16], &[u16]); 12] = [
    (&[0xE000], &[0xD800, 0xDC00]),
    (&[0xFFFF], &[0xD800, 0xDC00]),
    (&[0xD83D], &[0xD83D, 0xDCA9]),
    (&[0xD83E], &[0xD83D, 0xDCA9]),
    (&[0xD83D, 0xE000], &[0xD83D, 0xDCA9]),
    (&[0xD83D, 0xD83D, 0xDCA9], &[0xD83D, 0xDCA9]),
    (&[0xDC00], &[0xDBFF, 0xDFFF]),
    (&[0xD7FF], &[0xD800, 0xDC00]),
    (&[0x61, 0xD83D, 0xDCA8], &[0x61, 0xD83D, 0xDCA9]),
    (&[0xD83D, 0xDCA9], &[]),
    (&[0x61], &[0x61, 0xD83D, 0xDCA9]),
    (&[], &[]),
];

/// Lists of units, some with surrogates at both ends.
const LISTS: [&[u16]; 6] = [
    &[],
    &[0xDCA9, 0x61, 0xE9, 0xFFFF, 0xD83D],
    &[0xD83D, 0xDCA9, 0x61, 0xDBFF, 0xDFFF],
    &[0xDC00, 0xD800, 0xDC00, 0xD800],
    &[0xD800, 0xD800, 0xDC00, 0xDC00],
    &[0x61, 0xE9, 0x20, 0xD83D, 0xD83D, 0xDCA9],
];

/// One code point of each encoded length, a lone lead and a lone trail.
const KINDS: [&[u16]; 6] = [
    &[0x61],
    &[0xE9],
    &[0x4E2D],
    &[0xD83D, 0xDCA9],
    &[0xD800],
    &[0xDFFF],
];

/// Code points beside the edges of the encoding, and numbers of none.
const NUMBERS: [u32; 11] = [
    0x07, 0x61, 0xABCD, 0xDEAD, 0xD83D, 0xDCA9, 0x1F4A9, 0x10FFFF, 0x110000, 0x7FFFFFFF, 0xFFFFFFFF,
];

/// Lists of code points with characters that a literal of Rust escapes, and with lone surrogates.
const SHOWN: [&[u32]; 9] = [
    &[0x61, 0x22, 0x62],
    &[0x0A, 0x5C, 0x27, 0x00],
    &[0x07, 0xDEAD, 0x07],
    &[0xABCD, 0xDABC],
    &[0x5C, 0x75, 0x7B, 0x44, 0x38, 0x30, 0x30, 0x7D],
    &[0xD55C, 0xDBFF],
    &[0xD800, 0xD800, 0xD55C],
    &[0xDFFF, 0x61],
    &[0xD83D, 0x1F4A9, 0xDCA9],
];

/// Two lists of units that are joined, of which one is empty, or a surrogate is at the seam.
const SEAMS: [(&[u16], &[u16]); 7] = [
    (&[0x61, 0xD83D], &[0xDCA9, 0x62]),
    (&[0xD83D], &[0xDCA9, 0xDCA9]),
    (&[], &[0xDCA9]),
    (&[0xD83D], &[]),
    (&[0xD83D], &[0xD83D, 0xDCA9]),
    (&[0xDCA9], &[0xDCA9]),
    (&[0xD83D, 0x61], &[0xDCA9]),
];

/// The examples that are short enough to be recorded.
pub fn recorded() -> Vec<Vec<Call>> {
    let mut scripts: Vec<Vec<Call>> = IN_ORDER.iter().map(|own| compared_by_points(own)).collect();
    scripts.extend(joining().map(iterated));
    scripts.push(
        BY_UNITS
            .iter()
            .flat_map(|(own, others)| compared_by_units(own, others))
            .collect(),
    );
    for own in LISTS {
        let others = LISTS.into_iter().chain(joining());
        scripts.push(
            others
                .flat_map(|others| compared_by_units(own, others))
                .collect(),
        );
    }
    scripts.push(copies_of_every_length());
    scripts.push(followed());
    scripts.push(equal_or_not());
    scripts.extend(joining().chain(LISTS).map(calls_on));
    scripts.extend(NUMBERS.map(point_calls));
    scripts.extend(SHOWN.map(shown));
    scripts.push(
        SEAMS
            .iter()
            .flat_map(|(own, other)| joined(own, other))
            .collect(),
    );
    scripts.push(texts_and_characters());
    scripts.push(hangul());
    scripts.extend([true, false].map(truncated_surrogate));
    scripts.extend([0, 1, 8, 15, 16, 17, 31, 32, 33, 48].map(appended_units));
    scripts
}

/// All examples: the recorded ones, a difference at each index, and runs with another kind at each index.
pub fn all() -> Vec<Vec<Call>> {
    let mut scripts = recorded();
    for letters in 0..70 {
        scripts.extend(
            [0x62, 0xE000, 0xD83E].map(|unit| changed_at_each_index(&long_list(letters), unit)),
        );
    }
    for pairs in 0..20 {
        let list = [0xD83D, 0xDCA9].repeat(pairs);
        scripts.extend([0xDCAA, 0xE000, 0xD83D].map(|unit| changed_at_each_index(&list, unit)));
    }
    for run in &KINDS[..3] {
        for length in [8, 16, 17, 40] {
            scripts.extend((0..length).map(|index| broken(run, length, index)));
        }
    }
    scripts
}

/// Makes the string of register 0 from a text.
fn from_text(text: &str) -> Call {
    with_text(0, Opcode::FromStr, text)
}

fn steps(register: u8, opcode: Opcode, steps: Vec<Step>) -> Call {
    Call::new(
        opcode,
        vec![Operand::Register(register), Operand::Steps(steps)],
    )
}

/// A string compared with each one of `IN_ORDER`, and the bytes that it feeds a hasher.
fn compared_by_points(own: &[u32]) -> Vec<Call> {
    let mut calls = pushed(0, own);
    calls.push(call_on(0, Opcode::Hash));
    for other in IN_ORDER {
        calls.extend(pushed(1, other));
        calls.push(registers(Opcode::Comparisons, 0, 1));
    }
    calls
}

/// Both iterators of a string with their size hints before each item and after the end, and clones made after each
/// number of items: drained while the iterator goes on, dropped early, and used in its place.
fn iterated(units: &[u16]) -> Vec<Call> {
    let mut calls = vec![from_units(0, units)];
    for opcode in [Opcode::CodePoints, Opcode::ToIllFormedUtf16] {
        calls.push(steps(
            0,
            opcode,
            [Step::SizeHint, Step::Next].repeat(units.len() + 2),
        ));
        for count in 0..units.len() + 2 {
            let mut clones = vec![Step::Next; count];
            clones.extend([
                Step::Drain,
                Step::Skip,
                Step::Replace,
                Step::Drain,
                Step::Skip,
            ]);
            calls.push(steps(0, opcode, clones));
        }
    }
    calls
}

/// Compares two lists by code units and by code points.
fn compared_by_units(own: &[u16], others: &[u16]) -> Vec<Call> {
    vec![
        from_units(0, own),
        from_units(1, others),
        registers(Opcode::CmpUnits, 0, 1),
        registers(Opcode::Comparisons, 0, 1),
    ]
}

/// `letters` ASCII letters, then code points of two, three and four bytes, and a lone lead.
fn long_list(letters: usize) -> Vec<u16> {
    let mut units = vec![0x61; letters];
    units.extend([0xE9, 0xFFFF, 0xD83D, 0xDCA9, 0xDBFF, 0xDFFF, 0xD83D]);
    units
}

/// A list compared with a copy that has `unit` at each index in turn, and that copy with the units before the index.
fn changed_at_each_index(list: &[u16], unit: u16) -> Vec<Call> {
    let mut calls = vec![from_units(0, list)];
    for index in 0..list.len() {
        let mut other = list.to_vec();
        other[index] = unit;
        calls.push(from_units(1, &other));
        calls.push(from_units(2, &list[..index]));
        calls.push(registers(Opcode::CmpUnits, 0, 1));
        calls.push(registers(Opcode::CmpUnits, 1, 2));
    }
    calls
}

/// A run of `length` equal code points with one of each kind at `index`: its bytes, and its units by index.
fn broken(run: &[u16], length: usize, index: usize) -> Vec<Call> {
    let with = |other: &[u16]| {
        let units: Vec<u16> = (0..length)
            .flat_map(|at| if at == index { other } else { run }.to_vec())
            .collect();
        [from_units(0, &units), call_on(0, Opcode::UnitAt)]
    };
    KINDS.iter().flat_map(|other| with(other)).collect()
}

/// A string of every length up to 130 bytes, a clone of it, and its view appended to an empty string.
fn copies_of_every_length() -> Vec<Call> {
    let mut calls = vec![call_on(0, Opcode::New)];
    for length in 0..131 {
        calls.extend([
            registers(Opcode::Clone, 1, 0),
            registers(Opcode::Comparisons, 0, 1),
        ]);
        calls.extend([call_on(2, Opcode::New), registers(Opcode::PushWtf8, 2, 0)]);
        calls.push(push(0, 0x21 + length % 94));
    }
    calls
}

/// Strings made of texts, compared with strings of code points: equal if their units are, and different if a text only
/// spells a surrogate in ASCII.
fn equal_or_not() -> Vec<Call> {
    let mut calls = Vec::new();
    for (text, points) in [
        ("a\u{E9}", &[0x61, 0xE9][..]),
        ("ae", &[0x61, 0xE9]),
        ("\u{1F4A9}", &[0xD83D, 0xDCA9]),
        ("\\u{D800}", &[0xD800]),
    ] {
        calls.push(from_text(text));
        calls.extend(pushed(1, points));
        calls.push(registers(Opcode::Comparisons, 0, 1));
    }
    calls
}

/// The items of a string whose last lead a trail completes, and of one with a character pushed after a lead.
fn followed() -> Vec<Call> {
    let items = || {
        [
            steps(0, Opcode::CodePoints, Vec::new()),
            steps(0, Opcode::ToIllFormedUtf16, Vec::new()),
        ]
    };
    let mut calls = vec![from_text("\u{E9} ")];
    for unit in [0xD83D, 0xDCA9] {
        calls.push(push(0, unit));
        calls.extend(items());
    }
    calls.extend([from_text("a\u{E9} "), push(0, 0xD83D)]);
    calls.push(Call::new(
        Opcode::PushChar,
        vec![Operand::Register(0), Operand::Value(0x1F4A9)],
    ));
    calls.extend(items());
    calls
}

/// A string of code points with its debug texts, its texts, and its bytes for a hasher.
fn shown(points: &[u32]) -> Vec<Call> {
    let mut calls = pushed(0, points);
    for opcode in [
        Opcode::Debug,
        Opcode::Hash,
        Opcode::AsStr,
        Opcode::ToStringLossy,
        Opcode::IntoString,
        Opcode::IntoStringLossy,
    ] {
        calls.push(call_on(0, opcode));
    }
    calls
}

/// Two lists of units as one string, by each call that joins strings, and each of the two made anew.
fn joined(own: &[u16], other: &[u16]) -> Vec<Call> {
    let mut calls = vec![from_units(0, &[own, other].concat())];
    calls.extend(cut_and_joined(&[own, other].concat(), own.len()));
    calls.extend([from_units(0, own), from_units(1, other)]);
    calls.extend([registers(Opcode::PushWtf8, 0, 1), call_on(0, Opcode::New)]);
    calls.push(registers(Opcode::PushWtf8, 0, 1));
    calls
}

/// Texts and characters that are appended to a text and to a lead, which they do not join, and which a trail then does
/// if only an empty text is between them.
fn texts_and_characters() -> Vec<Call> {
    let mut calls = Vec::new();
    for (first, second) in [
        ("", "a\u{E9} \u{1F4A9}"),
        ("a\u{E9} ", "\u{1F4A9}"),
        ("a", ""),
    ] {
        calls.extend([
            with_text(0, Opcode::FromString, first),
            with_text(0, Opcode::PushStr, second),
        ]);
    }
    for text in ["", "\u{1F4A9}"] {
        calls.extend([
            from_units(0, &[0xD83D]),
            with_text(0, Opcode::PushStr, text),
        ]);
        calls.push(push(0, 0xDCA9));
        calls.extend([
            from_units(0, &[0xD83D]),
            with_text(1, Opcode::FromStr, text),
        ]);
        calls.extend([registers(Opcode::PushWtf8, 0, 1), push(0, 0xDCA9)]);
    }
    calls.push(from_units(0, &[0xD83D]));
    let operands = vec![Operand::Register(0), Operand::Value(0x1F4A9)];
    calls.push(Call::new(Opcode::PushChar, operands));
    for count in [0, 1, 4, 100] {
        let number = || vec![Operand::Register(0), Operand::Number(count)];
        calls.push(Call::new(Opcode::WithCapacity, number()));
        calls.push(with_text(0, Opcode::PushStr, "a\u{E9}"));
        calls.push(Call::new(Opcode::Reserve, number()));
    }
    calls
}

/// 40 characters whose first byte is that of surrogates too, of units and of code points.
fn hangul() -> Vec<Call> {
    let mut calls = vec![from_units(0, &[0xD55C; 40])];
    calls.extend([Opcode::AsStr, Opcode::IntoString].map(|opcode| call_on(0, opcode)));
    calls.extend(pushed(1, &[0xD55C; 40]));
    calls.extend([
        call_on(1, Opcode::IntoString),
        registers(Opcode::Comparisons, 0, 1),
    ]);
    calls
}

/// "a", with a surrogate that was pushed and truncated before the letter, or after it, compared with "a".
fn truncated_surrogate(is_before: bool) -> Vec<Call> {
    let cut = |position| {
        let operands = vec![Operand::Register(0), Operand::Number(position)];
        [push(0, 0xD800), Call::new(Opcode::Truncate, operands)]
    };
    let mut calls = vec![call_on(0, Opcode::New)];
    if is_before {
        calls.extend(cut(0));
    }
    calls.push(push(0, 0x61));
    if !is_before {
        calls.extend(cut(1));
    }
    calls.extend([call_on(0, Opcode::Hash), with_text(1, Opcode::FromStr, "a")]);
    calls.extend([
        call_on(1, Opcode::Hash),
        registers(Opcode::Comparisons, 0, 1),
    ]);
    calls
}

/// The units of strings of `letters` letters and of one of each of `KINDS`, appended to units, and read one by one.
fn appended_units(letters: usize) -> Vec<Call> {
    let mut calls = Vec::new();
    for kind in KINDS {
        for units in [
            [vec![0x61; letters], kind.to_vec()].concat(),
            kind.repeat(letters),
        ] {
            calls.extend([from_units(0, &units), call_on(0, Opcode::UnitAt)]);
            let operands = vec![Operand::Register(0), Operand::Units(vec![0xDC00, 0x61])];
            calls.push(Call::new(Opcode::AppendUnits, operands));
        }
    }
    calls
}
