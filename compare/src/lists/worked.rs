//! Worked examples of the calls on strings, each a short script on its own input. `gate/worked_examples.txt` has the
//! calls and the result of each in words.

use crate::lists::generate::{
    call_on, from_units, push, push_units, pushed, registers, with_points, with_text, with_units,
};
use crate::lists::long::changed;
use crate::script::{Build, Call, Opcode, Operand, Step, UNBOUNDED};

/// A text with characters of one, two and four bytes.
const TEXT: &str = "a\u{E9} \u{1F4A9}";

/// Lists of units in which surrogates join, or stay lone.
pub const JOINING: [&[u16]; 10] = [
    &[0xD83D, 0xDCA9],
    &[0xD83D, 0x0020, 0xDCA9],
    &[0xD800, 0xDBFF],
    &[0xD800, 0xE000],
    &[0xD7FF, 0xDC00],
    &[0x0061, 0xDC00],
    &[0xDC00],
    &[0xD83D, 0xD83D, 0xDCA9],
    &[0xD83D, 0xDCA9, 0xDCA9],
    &[0xDCA9, 0xD83D],
];

/// Code points at the limits of encoded lengths, of lead bytes and of the surrogates.
const EDGES: [u32; 20] = [
    0x0000, 0x007F, 0x0080, 0x07FF, 0x0800, 0x0FFF, 0x1000, 0xCFFF, 0xD000, 0xD7FF, 0xD800, 0xDBFF,
    0xDC00, 0xDFFF, 0xE000, 0xFFFD, 0xFFFF, 0x10000, 0x1F4A9, 0x10FFFF,
];

/// Numbers of code points, of a scalar value or a surrogate, and two of none.
const NUMBERS: [u32; 12] = [
    0x0000,
    0x0061,
    0x0FFF,
    0xD7FF,
    0xD800,
    0xDC00,
    0xDFFF,
    0xE000,
    0x1F4A9,
    0x10FFFF,
    0x110000,
    0xFFFF_FFFF,
];

/// Two lists of code points, of which the first is less.
const LESS: [(&[u32], &[u32]); 7] = [
    (&[], &[0x00]),
    (&[0x7F], &[0x80]),
    (&[0xD7FF], &[0xD800]),
    (&[0xDFFF], &[0xE000]),
    (&[0xFFFF], &[0x10000]),
    (&[0xD83D], &[0xD83D, 0xDCA9]),
    (&[0x61], &[0x61, 0x00]),
];

/// All worked examples.
pub fn scripts() -> Vec<Vec<Call>> {
    let mut scripts: Vec<Vec<Call>> = NUMBERS.map(number).to_vec();
    scripts.extend(EDGES.map(encoded));
    scripts.extend(made_of_text());
    scripts.extend(appended());
    scripts.extend(positions());
    scripts.extend(texts());
    scripts.extend(read());
    scripts.extend(lists_of_calls());
    for units in JOINING {
        scripts.extend(joined(units));
    }
    scripts.extend((0..=3).map(copies_of_lists));
    scripts.push(under_a_higher_hint());
    scripts.extend(units_of_strings());
    scripts
}

fn number(value: u32) -> Vec<Call> {
    vec![Call::new(Opcode::CodePoint, vec![Operand::Value(value)])]
}

/// Bytes and units of a string of one code point.
fn encoded(point: u32) -> Vec<Call> {
    let mut calls = pushed(0, &[point]);
    calls.push(items(Opcode::ToIllFormedUtf16));
    calls
}

fn with_number(register: u8, opcode: Opcode, number: u16) -> Call {
    Call::new(
        opcode,
        vec![Operand::Register(register), Operand::Number(number)],
    )
}

/// A call on register 1 with the string of register 0 and positions in it.
fn part(opcode: Opcode, positions: &[u16]) -> Call {
    let mut operands = vec![Operand::Register(1), Operand::Register(0)];
    operands.extend(positions.iter().map(|position| Operand::Number(*position)));
    Call::new(opcode, operands)
}

/// All items of an iterator over the string in register 0.
fn items(opcode: Opcode) -> Call {
    with_steps(opcode, Vec::new())
}

fn with_steps(opcode: Opcode, steps: Vec<Step>) -> Call {
    Call::new(opcode, vec![Operand::Register(0), Operand::Steps(steps)])
}

/// Strings and views made of texts, and strings to which a text is appended.
fn made_of_text() -> Vec<Vec<Call>> {
    let mut scripts = vec![vec![call_on(0, Opcode::New)]];
    for text in ["", TEXT] {
        scripts.push(vec![with_text(0, Opcode::FromStr, text)]);
        scripts.push(vec![with_text(0, Opcode::FromString, text)]);
        let text = Operand::Text(text.to_owned());
        scripts.push(vec![Call::new(Opcode::ViewFromStr, vec![text])]);
    }
    scripts.push(vec![from_units(0, &[])]);
    scripts.push(vec![from_units(
        0,
        &[0x61, 0xE9, 0x20, 0xD83D, 0xD83D, 0xDCA9],
    )]);
    scripts.push(vec![
        from_units(0, &[0xD83D, 0xD83D, 0xDCA9]),
        items(Opcode::ToIllFormedUtf16),
    ]);
    scripts.push(vec![
        with_text(0, Opcode::FromStr, "a\u{E9}"),
        with_text(1, Opcode::FromStr, "a\u{E9}"),
        registers(Opcode::Comparisons, 0, 1),
    ]);
    scripts
}

/// Texts, characters, code points and views appended to a string.
fn appended() -> Vec<Vec<Call>> {
    let start = with_text(0, Opcode::FromStr, "a\u{E9} ");
    let supplementary =
        |opcode| Call::new(opcode, vec![Operand::Register(0), Operand::Value(0x1F4A9)]);
    let view = |front: Vec<Call>, other: Call| {
        let push_view = registers(Opcode::PushWtf8, 0, 1);
        [&front[..], &[other, push_view]].concat()
    };
    let lead = || pushed(0, &[0xD83D]);
    let empty_view = view(lead(), with_text(1, Opcode::FromStr, ""));
    vec![
        vec![call_on(0, Opcode::New), with_text(0, Opcode::PushStr, TEXT)],
        vec![start.clone(), supplementary(Opcode::PushChar)],
        vec![start, supplementary(Opcode::Push)],
        view(
            vec![with_text(0, Opcode::FromStr, "a\u{E9}")],
            with_text(1, Opcode::FromStr, " \u{1F4A9}"),
        ),
        vec![with_points(
            0,
            Opcode::FromIter,
            &[0x61, 0xE9, 0x20, 0x1F4A9],
        )],
        vec![
            with_points(0, Opcode::FromIter, &[0x61, 0xE9]),
            with_points(0, Opcode::Extend, &[0x20, 0x1F4A9]),
        ],
        [
            lead(),
            vec![with_text(0, Opcode::PushStr, ""), push(0, 0xDCA9)],
        ]
        .concat(),
        [empty_view, vec![push(0, 0xDCA9)]].concat(),
        view(lead(), from_units(1, &[0xDCA9, 0xDCA9])),
        [lead(), vec![supplementary(Opcode::PushChar)]].concat(),
        view(vec![call_on(0, Opcode::New)], from_units(1, &[0xDCA9])),
        view(
            vec![with_text(0, Opcode::FromStr, "a"), push(0, 0xD83D)],
            from_units(1, &[0xDCA9, 0x62]),
        ),
    ]
}

/// Boundaries, slices and truncations, also off a boundary and past the end.
fn positions() -> Vec<Vec<Call>> {
    let text = || with_text(0, Opcode::FromStr, TEXT);
    let cut = |position| with_number(0, Opcode::Truncate, position);
    let spaced = from_units(0, &[0xD83D, 0x20, 0xDCA9]);
    let short = || with_text(0, Opcode::FromStr, "a\u{E9}");
    let mut bounded = vec![text(), call_on(0, Opcode::Boundaries)];
    for position in [2, 5, 6, 7, 9, 10, 11] {
        bounded.push(part(Opcode::SliceFrom, &[position]));
        bounded.push(part(Opcode::SliceTo, &[position]));
        bounded.push(cut(position));
    }
    let at = |position| with_number(0, Opcode::AsciiByteAt, position);
    let mut scripts = vec![
        bounded,
        vec![text(), part(Opcode::Slice, &[1, 4])],
        vec![text(), part(Opcode::Slice, &[3, 3])],
        vec![text(), part(Opcode::SliceTo, &[4])],
        vec![text(), part(Opcode::SliceFrom, &[1])],
        [vec![text()], [0, 1, 2, 3, 4].map(at).to_vec()].concat(),
        vec![
            spaced.clone(),
            call_on(0, Opcode::Boundaries),
            part(Opcode::SliceTo, &[8]),
            part(Opcode::SliceTo, &[9]),
            part(Opcode::Slice, &[3, 4]),
        ],
        [pushed(0, &[0xD83D, 0xDCA9]), vec![cut(3), cut(4)]].concat(),
        vec![
            call_on(0, Opcode::New),
            call_on(0, Opcode::Boundaries),
            cut(1),
        ],
        vec![short(), cut(2), cut(4), cut(1)],
        whole_again(text(), &[0, 1, 3, 4, 8]),
    ];
    scripts.extend(JOINING.map(|units| whole_again(from_units(0, units), &boundaries(units))));
    scripts
}

/// The boundaries of the string of `units`.
fn boundaries(units: &[u16]) -> Vec<u16> {
    let points = char::decode_utf16(units.iter().copied());
    let lens = points.map(|point| point.map_or(3, char::len_utf8) as u16);
    let ends = lens.scan(0, |end, len| {
        *end += len;
        Some(*end)
    });
    [0].into_iter().chain(ends).collect()
}

/// At each boundary the part before it, the part after it, and both joined, compared with the whole.
fn whole_again(made: Call, boundaries: &[u16]) -> Vec<Call> {
    let mut calls = vec![made];
    for position in boundaries {
        let from = vec![
            Operand::Register(2),
            Operand::Register(0),
            Operand::Number(*position),
        ];
        calls.push(part(Opcode::SliceTo, &[*position]));
        calls.push(Call::new(Opcode::SliceFrom, from));
        calls.push(registers(Opcode::PushWtf8, 1, 2));
        calls.push(registers(Opcode::Comparisons, 1, 0));
    }
    calls
}

/// Strings as texts: borrowed, owned, lossy, and refused if they have a surrogate.
fn texts() -> Vec<Vec<Call>> {
    let ends = [
        Opcode::AsStr,
        Opcode::ToStringLossy,
        Opcode::IntoString,
        Opcode::IntoStringLossy,
    ];
    let each = |front: Vec<Call>| {
        let calls = ends.map(|opcode| call_on(0, opcode));
        [front, calls.to_vec()].concat()
    };
    let text = || with_text(0, Opcode::FromStr, TEXT);
    vec![
        each(vec![call_on(0, Opcode::New)]),
        each(vec![text()]),
        each(vec![text(), push(0, 0xD800)]),
        each(vec![from_units(0, &[0xD83D, 0xDCA9])]),
        each(vec![from_units(0, &[0xD83D, 0x20, 0xDCA9])]),
        each(vec![from_units(0, &[0xDC00])]),
        each(pushed(0, &[0xD800])),
        each(pushed(0, &[0xD55C])),
        vec![from_units(0, &[0xD55C; 40]), call_on(0, Opcode::AsStr)],
        with_letter_after_surrogate(0xE9),
        with_letter_after_surrogate(0x4E2D),
        into_string_after(&[push(0, 0xD800)]),
        into_string_after(&[push(0, 0xD83D), push(0, 0xDCA9)]),
        letter_again(),
    ]
}

/// A lone surrogate and then `letter` among 16 units of ASCII: `into_string` must not forget the surrogate, which `as_str`
/// searches for.
fn with_letter_after_surrogate(letter: u16) -> Vec<Call> {
    let units = changed(&[0x61; 16], &[(1, 0xD800), (3, letter)]);
    vec![from_units(0, &units), call_on(0, Opcode::IntoString)]
}

/// `into_string` of "a" after calls on it.
fn into_string_after(calls: &[Call]) -> Vec<Call> {
    let letter = with_text(0, Opcode::FromStr, "a");
    [&[letter][..], calls, &[call_on(0, Opcode::IntoString)]].concat()
}

/// "a", "a" after a surrogate that is truncated, and "a" before one: compared, and fed to a hasher.
fn letter_again() -> Vec<Call> {
    let cut = |register, position| {
        let truncate = with_number(register, Opcode::Truncate, position);
        [push(register, 0xD800), truncate]
    };
    let mut calls = vec![with_text(0, Opcode::FromStr, "a"), call_on(1, Opcode::New)];
    calls.extend(cut(1, 0));
    calls.push(push(1, 0x61));
    calls.push(from_units(2, &[0x61]));
    calls.extend(cut(2, 1));
    calls.extend([0, 1, 2].map(|register| call_on(register, Opcode::Hash)));
    calls.push(registers(Opcode::Comparisons, 0, 1));
    calls.push(registers(Opcode::Comparisons, 1, 2));
    calls
}

/// Debug texts, hash inputs, orders, and the items and hints of iterators.
fn read() -> Vec<Vec<Call>> {
    let text = || with_text(0, Opcode::FromStr, TEXT);
    let hinted = |opcode| with_steps(opcode, vec![Step::SizeHint, Step::Drain]);
    let after_each = |count| [Step::SizeHint, Step::Next].repeat(count);
    let units = |points: &[u32], steps| {
        let steps = with_steps(Opcode::ToIllFormedUtf16, steps);
        [pushed(0, points), vec![steps]].concat()
    };
    let points = |front: Vec<Call>| [front, vec![hinted(Opcode::CodePoints)]].concat();
    let debug = call_on(0, Opcode::Debug);
    let mut scripts = vec![
        vec![text(), push(0, 0xD800), debug.clone()],
        vec![
            with_text(0, Opcode::FromStr, "\\u{D800}"),
            debug.clone(),
            call_on(1, Opcode::New),
            push(1, 0xD800),
            call_on(1, Opcode::Debug),
            registers(Opcode::Comparisons, 0, 1),
        ],
        vec![with_text(0, Opcode::FromStr, "a\"b"), debug],
        vec![with_text(0, Opcode::FromStr, "a"), call_on(0, Opcode::Hash)],
        vec![
            from_units(0, &[0xE000]),
            from_units(1, &[0xD800, 0xDC00]),
            registers(Opcode::Comparisons, 0, 1),
            registers(Opcode::CmpUnits, 0, 1),
        ],
        vec![
            text(),
            hinted(Opcode::CodePoints),
            hinted(Opcode::ToIllFormedUtf16),
        ],
        points(vec![call_on(0, Opcode::New)]),
        points(pushed(0, &[0x1F4A9])),
        units(&[0x1F4A9], after_each(2)),
        units(&[0x10000], after_each(4)),
        units(&[0x1F4A9, 0x61], after_each(4)),
        vec![
            with_text(0, Opcode::FromStr, "a\u{E9} "),
            push(0, 0xD83D),
            Call::new(
                Opcode::PushChar,
                vec![Operand::Register(0), Operand::Value(0x1F4A9)],
            ),
            items(Opcode::ToIllFormedUtf16),
        ],
    ];
    for points in [&[][..], &[0xD83D], &[0xD83D, 0xDCA9]] {
        let mut calls = vec![with_text(0, Opcode::FromStr, "\u{E9} ")];
        calls.extend(points.iter().map(|point| push(0, *point)));
        calls.push(items(Opcode::CodePoints));
        scripts.push(calls);
    }
    scripts.push([pushed(0, &OF_EACH_LENGTH), vec![call_on(0, Opcode::Left)]].concat());
    scripts.extend([9, 17].map(another_letter_at_each_index));
    for (own, other) in LESS {
        let compared = registers(Opcode::Comparisons, 0, 1);
        scripts.push([pushed(0, own), pushed(1, other), vec![compared]].concat());
    }
    scripts
}

/// The first and the last code point of each encoded length, and those about the surrogates. A trail comes before a lead,
/// so that they do not join.
const OF_EACH_LENGTH: [u32; 12] = [
    0x0000, 0x007F, 0x0080, 0x07FF, 0x0800, 0xD7FF, 0xDFFF, 0xD800, 0xE000, 0xFFFF, 0x10000,
    0x10FFFF,
];

/// A string of `len` letters, one more than the least that is compared by two loads of a size, against those with another
/// letter at one index: the loads overlap, and each byte must be in one of them.
fn another_letter_at_each_index(len: usize) -> Vec<Call> {
    let letters = vec![0x61; len];
    let mut calls = vec![from_units(0, &letters)];
    for index in 0..len {
        calls.push(from_units(1, &changed(&letters, &[(index, 0x62)])));
        calls.push(registers(Opcode::Comparisons, 0, 1));
    }
    calls
}

/// Lists of building calls on the empty string.
fn lists_of_calls() -> Vec<Vec<Call>> {
    let lists = [
        vec![],
        vec![Build::Extend(1), Build::Extend(3)],
        vec![Build::Push(0xD83D), Build::Truncate(3), Build::Push(0xDCA9)],
        vec![
            Build::Push(0xD83D),
            Build::Push(0xDCA9),
            Build::Truncate(3),
            Build::Truncate(0),
            Build::Truncate(1),
        ],
        vec![
            Build::PushStr("a".to_owned()),
            Build::Truncate(2),
            Build::Push(0xD83D),
            Build::Push(0xDCA9),
            Build::Truncate(4),
            Build::Truncate(5),
        ],
    ];
    let all = |list| vec![call_on(0, Opcode::New), apply_all(list)];
    lists.map(all).to_vec()
}

/// The code points to which the extensions of `lists_of_calls` refer.
const EXTENDED: [u32; 3] = [0xD83D, 0xDCA9, 0x61];

fn apply_all(list: Vec<Build>) -> Call {
    let operands = vec![
        Operand::Register(0),
        Operand::Number(0),
        Operand::Number(UNBOUNDED),
        Operand::Points(EXTENDED.to_vec()),
        Operand::Builds(list),
    ];
    Call::new(Opcode::ApplyAll, operands)
}

/// A list of units as one string, by each way to build it, and the string's boundaries, items and clones.
fn joined(units: &[u16]) -> Vec<Vec<Call>> {
    let points: Vec<u32> = units.iter().copied().map(u32::from).collect();
    let pushes: Vec<Build> = points.iter().copied().map(Build::Push).collect();
    let operands = vec![
        Operand::Register(0),
        Operand::Points(Vec::new()),
        Operand::Builds(pushes.clone()),
    ];
    vec![
        pushed(0, &points),
        pushed_as_views(units),
        extended_from_each_index(&points),
        vec![call_on(0, Opcode::New), Call::new(Opcode::Apply, operands)],
        vec![call_on(0, Opcode::New), apply_all(pushes)],
        in_two_pieces(units),
        in_three_pieces(units),
        whole_read(units),
        units_pushed_from_each_index(units),
        pushed_and_written(units),
    ]
}

/// `push_wtf8` of the string of each unit in turn.
fn pushed_as_views(units: &[u16]) -> Vec<Call> {
    let mut calls = vec![call_on(0, Opcode::New)];
    for unit in units {
        calls.extend([from_units(1, &[*unit]), registers(Opcode::PushWtf8, 0, 1)]);
    }
    calls
}

/// `from_iter` of the first code points and `extend` by the others, at each index, and `from_iter` of all.
fn extended_from_each_index(points: &[u32]) -> Vec<Call> {
    let mut calls = vec![with_points(0, Opcode::FromIter, points)];
    for index in 0..=points.len() {
        calls.push(with_points(0, Opcode::FromIter, &points[..index]));
        calls.push(with_points(0, Opcode::Extend, &points[index..]));
    }
    calls
}

/// The strings of two pieces, cut at each index, joined by `push_wtf8`.
fn in_two_pieces(units: &[u16]) -> Vec<Call> {
    let joined = |index| {
        [
            from_units(0, &units[..index]),
            from_units(1, &units[index..]),
            registers(Opcode::PushWtf8, 0, 1),
        ]
    };
    (0..=units.len()).flat_map(joined).collect()
}

/// The string of the first units with the others appended by `push_ill_formed_utf16`, cut at each index.
fn units_pushed_from_each_index(units: &[u16]) -> Vec<Call> {
    let pushed = |index| {
        [
            from_units(0, &units[..index]),
            push_units(0, &units[index..]),
        ]
    };
    (0..=units.len()).flat_map(pushed).collect()
}

/// `push_unit` of each unit in turn, and `write_units` to a slice with room for one more.
fn pushed_and_written(units: &[u16]) -> Vec<Call> {
    let push_unit = |unit| with_number(0, Opcode::PushUnit, unit);
    let mut calls = vec![call_on(0, Opcode::New)];
    calls.extend(units.iter().copied().map(push_unit));
    calls.push(with_units(0, Opcode::WriteUnits, &[0x0062]));
    calls
}

/// The strings of three pieces, cut at each two indexes, joined by `push_wtf8`.
fn in_three_pieces(units: &[u16]) -> Vec<Call> {
    let mut calls = Vec::new();
    for first in 0..=units.len() {
        for second in first..=units.len() {
            calls.push(from_units(0, &units[..first]));
            for piece in [&units[first..second], &units[second..]] {
                calls.push(from_units(1, piece));
                calls.push(registers(Opcode::PushWtf8, 0, 1));
            }
        }
    }
    calls
}

/// The string of `units`: its boundaries, its positions past the end, its items and size hints by iterators that are
/// cloned before each item and after the end, and the string that its code points give again.
fn whole_read(units: &[u16]) -> Vec<Call> {
    let mut calls = vec![from_units(0, units), call_on(0, Opcode::Boundaries)];
    let end = boundaries(units).last().copied().unwrap_or_default();
    calls.extend((end + 1..=end + 3).map(|position| with_number(0, Opcode::Truncate, position)));
    let step = [
        Step::SizeHint,
        Step::Drain,
        Step::Skip,
        Step::Replace,
        Step::Next,
    ];
    let steps = step.repeat(units.len() + 2);
    for opcode in [Opcode::ToIllFormedUtf16, Opcode::CodePoints] {
        calls.push(items(opcode));
        calls.push(with_steps(opcode, steps.clone()));
    }
    calls.push(part(Opcode::FromIterCodePoints, &[0]));
    calls.push(registers(Opcode::Comparisons, 1, 0));
    calls
}

/// A letter, a lead, its trail, and the first unit after the surrogates.
const KINDS: [u16; 4] = [0x0061, 0xD83D, 0xDCA9, 0xE000];

/// All lists of `len` units of `KINDS`.
fn lists_of_kinds(len: usize) -> Vec<Vec<u16>> {
    let mut lists = vec![Vec::new()];
    for _ in 0..len {
        let longer = |list: Vec<u16>| KINDS.map(|kind| [&list[..], &[kind]].concat());
        lists = lists.into_iter().flat_map(longer).collect();
    }
    lists
}

/// All lists of `len` units of `KINDS`: the units of the string, and a clone of it for which 100 bytes are reserved.
fn copies_of_lists(len: usize) -> Vec<Call> {
    let copied = |units: Vec<u16>| {
        [
            from_units(0, &units),
            items(Opcode::ToIllFormedUtf16),
            registers(Opcode::Clone, 1, 0),
            with_number(1, Opcode::Reserve, 100),
            registers(Opcode::Comparisons, 0, 1),
        ]
    };
    lists_of_kinds(len).into_iter().flat_map(copied).collect()
}

/// `push_ill_formed_utf16` of the units of a string: of a trail to a lead, and of 510 units to themselves.
fn units_of_strings() -> [Vec<Call>; 2] {
    let letters = [0x0061, 0x00E9, 0xD55C].repeat(85);
    [
        vec![
            from_units(0, &[0xD83D]),
            from_units(1, &[0xDCA9]),
            registers(Opcode::PushUnitsOf, 0, 1),
        ],
        vec![
            from_units(0, &letters),
            registers(Opcode::PushWtf8, 0, 0),
            registers(Opcode::PushUnitsOf, 0, 0),
        ],
    ]
}

/// Two code points of an iterator whose lower size hint is five, collected, and appended to a lead.
fn under_a_higher_hint() -> Vec<Call> {
    let hinted = |opcode| {
        let points = Operand::Points(vec![0xDCA9, 0xDCA9]);
        let operands = vec![Operand::Register(0), Operand::Number(5), points];
        Call::new(opcode, operands)
    };
    let mut calls = vec![hinted(Opcode::FromIterHinted)];
    calls.extend(pushed(0, &[0xD83D]));
    calls.push(hinted(Opcode::ExtendHinted));
    calls
}
