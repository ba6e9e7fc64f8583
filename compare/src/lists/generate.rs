//! Random scripts, and scripts for the exhaustive lists.

use crate::random::Random;
use crate::script::{
    Build, Call, Kind, Opcode, Operand, Step, CALLS, CALLS_BETWEEN, RANDOM_CALLS, UNBOUNDED,
};

/// Code points, among them the ends of each encoded length, and two numbers above U+10FFFF.
pub const EDGES: [u32; 32] = [
    0x0000,
    0x0001,
    0x0022,
    0x0041,
    0x005C,
    0x007F,
    0x0080,
    0x00E9,
    0x07FF,
    0x0800,
    0x0FFF,
    0x1000,
    0x20AC,
    0xCFFF,
    0xD000,
    0xD7FF,
    0xD800,
    0xDBFF,
    0xDC00,
    0xDFFF,
    0xE000,
    0xFEFF,
    0xFFFD,
    0xFFFE,
    0xFFFF,
    0x10000,
    0x103FF,
    0x10400,
    0x1F4A9,
    0x10FFFF,
    0x110000,
    0xFFFF_FFFF,
];

/// The units of the exhaustive lists: one of each encoded length, the ends of the surrogates, and their neighbours.
pub const ALPHABET: [u16; 9] = [
    0x41, 0xE9, 0x20AC, 0xD7FF, 0xD800, 0xDBFF, 0xDC00, 0xDFFF, 0xE000,
];

/// The least and the greatest code point of each kind: one, two and three bytes, lone leads, lone trails, pairs.
const KINDS: [(u32, u32); 7] = [
    (0x00, 0x7F),
    (0x80, 0x7FF),
    (0x800, 0xD7FF),
    (0xE000, 0xFFFF),
    (0xD800, 0xDBFF),
    (0xDC00, 0xDFFF),
    (0x10000, 0x10FFFF),
];

/// The steps of random calls; `next` is listed more often than any other.
const STEPS: [Step; 10] = [
    Step::Next,
    Step::Next,
    Step::Next,
    Step::SizeHint,
    Step::Drain,
    Step::Replace,
    Step::Nth,
    Step::Last,
    Step::Skip,
    Step::Collect,
];

/// A script of up to twenty calls, with one of `CALLS_BETWEEN` after every fourth on average.
pub fn script_with_all_calls(random: &mut Random) -> Vec<Call> {
    let mut calls = Vec::new();
    for call in script(random) {
        calls.push(call);
        if random.below(4) == 0 {
            let opcode = random.pick(&CALLS_BETWEEN);
            calls.push(call_of(random, opcode));
        }
    }
    calls
}

/// A script of up to twenty calls, as the fixed list has them.
pub fn script(random: &mut Random) -> Vec<Call> {
    let count = random.between(1, 20);
    (0..count).map(|_| call(random)).collect()
}

fn call(random: &mut Random) -> Call {
    // More than half of the calls on average make or change strings, so that the others have something to read.
    let index = match random.below(2) {
        0 => random.below(RANDOM_CALLS as u64) as usize,
        _ => random.between(Opcode::FromString as u32, Opcode::SliceTo as u32) as usize,
    };
    call_of(random, CALLS[index].0)
}

/// The call of an opcode, with random operands.
pub fn call_of(random: &mut Random, opcode: Opcode) -> Call {
    let kinds = opcode.kinds().iter();
    let mut operands: Vec<Operand> = kinds.map(|kind| operand(random, *kind)).collect();
    if opcode == Opcode::ApplyAll {
        operands[2] = Operand::Number(random.pick(&[0, UNBOUNDED]));
    }
    Call { opcode, operands }
}

/// A random building call.
pub fn build(random: &mut Random) -> Build {
    match random.below(16) {
        0..=3 => Build::Push(value(random)),
        4 => Build::PushChar(value(random)),
        5 => Build::PushStr(text(random, 20)),
        6..=8 => Build::PushWtf8(random.below(4) as u8),
        9..=10 => Build::Extend(random.between(0, 40) as u16),
        11 => Build::Reserve(number(random)),
        12..=13 => Build::TruncateUnits(number(random)),
        _ => Build::Truncate(number(random)),
    }
}

fn text(random: &mut Random, most: u32) -> String {
    let count = length(random, most);
    (0..count)
        .filter_map(|_| char::from_u32(value(random)))
        .collect()
}

pub fn operand(random: &mut Random, kind: Kind) -> Operand {
    match kind {
        Kind::Register => Operand::Register(random.below(4) as u8),
        Kind::Number => Operand::Number(number(random)),
        Kind::Value => Operand::Value(value(random)),
        Kind::Text => Operand::Text(text(random, 60)),
        Kind::Builds => {
            let count = length(random, 12);
            Operand::Builds((0..count).map(|_| build(random)).collect())
        }
        Kind::Units => {
            let count = length(random, 255);
            match random.below(4) {
                0 => Operand::Units(runs(random, count as usize)),
                _ => Operand::Units((0..count).map(|_| unit(random)).collect()),
            }
        }
        Kind::Points => {
            let count = length(random, 255);
            Operand::Points((0..count).map(|_| value(random)).collect())
        }
        Kind::Steps => {
            let count = length(random, 12);
            Operand::Steps((0..count).map(|_| random.pick(&STEPS)).collect())
        }
    }
}

/// A length that is mostly short and sometimes up to `most`.
fn length(random: &mut Random, most: u32) -> u32 {
    match random.below(24) {
        0 => random.between(0, most),
        1..=4 => random.between(0, 12),
        _ => random.between(0, 5),
    }
}

/// A position, a capacity or a count: mostly inside a short string.
fn number(random: &mut Random) -> u16 {
    match random.below(12) {
        0 => random.between(0, 600) as u16,
        1..=3 => random.between(0, 40) as u16,
        4..=6 => random.pick(&[0, 3, 4, 6, 7, 8, 9, 10, 12]),
        _ => random.between(0, 14) as u16,
    }
}

/// A number of any encoded length, seldom above U+10FFFF.
fn value(random: &mut Random) -> u32 {
    match random.below(16) {
        0..=3 => random.pick(&EDGES),
        4..=5 => random.between(0, 0x7F),
        6 => random.between(0x80, 0x7FF),
        7 => random.between(0x800, 0xFFFF),
        8..=10 => random.between(0xD800, 0xDBFF),
        11..=13 => random.between(0xDC00, 0xDFFF),
        14 => random.between(0x10000, 0x10FFFF),
        _ => random.between(0xD000, 0xDFFF),
    }
}

/// A unit, a surrogate more often than any other.
pub fn unit(random: &mut Random) -> u16 {
    match random.below(10) {
        0..=1 => random.pick(&ALPHABET),
        2..=4 => random.between(0xD800, 0xDBFF) as u16,
        5..=7 => random.between(0xDC00, 0xDFFF) as u16,
        _ => value(random) as u16,
    }
}

/// `count` units in runs of one kind, as texts have them: the blocks in which units are read and written begin and end
/// anywhere in a run.
pub fn runs(random: &mut Random, count: usize) -> Vec<u16> {
    let mut units = Vec::new();
    while units.len() < count {
        let (least, most) = random.pick(&KINDS);
        for _ in 0..random.between(1, 20) {
            let point = random.between(least, most);
            match char::from_u32(point) {
                Some(c) => units.extend_from_slice(c.encode_utf16(&mut [0; 2])),
                None => units.push(point as u16),
            }
        }
    }
    units.truncate(count);
    units
}

/// All lists of up to `most` units of the alphabet.
pub fn unit_lists(most: usize) -> Vec<Vec<u16>> {
    let mut lists = vec![Vec::new()];
    let mut last = lists.clone();
    for _ in 0..most {
        last = last.iter().flat_map(|list| longer_by_one(list)).collect();
        lists.extend(last.iter().cloned());
    }
    lists
}

fn longer_by_one(list: &[u16]) -> Vec<Vec<u16>> {
    let with = |unit: &u16| list.iter().copied().chain([*unit]).collect();
    ALPHABET.iter().map(with).collect()
}

/// Calls that read the string of `units`, cut it at every index and position, and join the pieces again.
pub fn calls_on(units: &[u16]) -> Vec<Call> {
    let mut calls = vec![from_units(0, units)];
    let round = [
        Step::SizeHint,
        Step::Drain,
        Step::Last,
        Step::Skip,
        Step::Collect,
        Step::Next,
        Step::Replace,
    ];
    let steps = round.repeat(units.len() + 1);
    for opcode in [
        Opcode::Boundaries,
        Opcode::AsStr,
        Opcode::ToStringLossy,
        Opcode::Hash,
        Opcode::Debug,
    ] {
        calls.push(Call::new(opcode, vec![Operand::Register(0)]));
    }
    for opcode in [Opcode::CodePoints, Opcode::ToIllFormedUtf16] {
        let hinted = vec![
            Step::Nth,
            Step::SizeHint,
            Step::Nth,
            Step::SizeHint,
            Step::Nth,
        ];
        let after_next = vec![Step::Next, Step::Nth, Step::SizeHint, Step::Nth, Step::Nth];
        for steps in [steps.clone(), hinted, after_next] {
            let operands = vec![Operand::Register(0), Operand::Steps(steps)];
            calls.push(Call::new(opcode, operands));
        }
    }
    calls.push(Call::new(Opcode::UnitAt, vec![Operand::Register(0)]));
    for cut in 0..=units.len() {
        calls.extend(cut_and_joined(units, cut));
        calls.extend(cut_by_units(units.len(), cut));
    }
    // Up to two past the longest string of these units, which the crate refuses as well.
    for position in 0..=3 * units.len() as u16 + 2 {
        calls.extend(cut_at(position));
    }
    for opcode in [Opcode::IntoString, Opcode::IntoStringLossy] {
        calls.push(registers(Opcode::Clone, 1, 0));
        calls.push(Call::new(opcode, vec![Operand::Register(1)]));
    }
    calls
}

/// The units in two pieces, joined by `push_wtf8`, `extend` and `push`, and compared with the whole in register 0.
pub fn cut_and_joined(units: &[u16], cut: usize) -> Vec<Call> {
    let (front, back) = units.split_at(cut);
    let points = |units: &[u16]| Operand::Points(units.iter().copied().map(u32::from).collect());
    let mut calls = vec![
        from_units(1, front),
        from_units(2, back),
        registers(Opcode::PushWtf8, 1, 2),
        registers(Opcode::Comparisons, 1, 0),
        registers(Opcode::Comparisons, 2, 0),
        Call::new(Opcode::FromIter, vec![Operand::Register(3), points(front)]),
        Call::new(Opcode::Extend, vec![Operand::Register(3), points(back)]),
        registers(Opcode::Comparisons, 0, 3),
        from_units(1, front),
        Call::new(
            Opcode::ExtendCodePoints,
            vec![
                Operand::Register(1),
                Operand::Register(2),
                Operand::Number(0),
            ],
        ),
        from_units(1, front),
    ];
    for unit in back {
        let value = Operand::Value(u32::from(*unit));
        calls.push(Call::new(Opcode::Push, vec![Operand::Register(1), value]));
    }
    calls.push(registers(Opcode::Comparisons, 1, 0));
    calls
}

/// `truncate_units` of a copy of register 0, and `slice_units` from that unit, the last slice past the end.
pub fn cut_by_units(len: usize, cut: usize) -> Vec<Call> {
    let count = Operand::Number(cut as u16);
    let mut calls = vec![
        registers(Opcode::Clone, 1, 0),
        Call::new(
            Opcode::TruncateUnits,
            vec![Operand::Register(1), count.clone()],
        ),
        Call::new(Opcode::IntoString, vec![Operand::Register(1)]),
        registers(Opcode::PushWtf8, 1, 0),
        Call::new(Opcode::AsStr, vec![Operand::Register(1)]),
    ];
    for end in [cut, cut + 1, cut + 2, len, len + 1] {
        let end = Operand::Number(end as u16);
        let operands = vec![Operand::Register(0), count.clone(), end];
        calls.push(Call::new(Opcode::SliceUnits, operands));
    }
    calls
}

/// The calls that take a position or a count, with `position`.
fn cut_at(position: u16) -> Vec<Call> {
    let position_operand = Operand::Number(position);
    let mut calls = vec![
        registers(Opcode::Clone, 1, 0),
        Call::new(
            Opcode::Truncate,
            vec![Operand::Register(1), position_operand.clone()],
        ),
        Call::new(Opcode::IntoString, vec![Operand::Register(1)]),
        Call::new(
            Opcode::AsciiByteAt,
            vec![Operand::Register(0), position_operand.clone()],
        ),
    ];
    for opcode in [
        Opcode::SliceFrom,
        Opcode::SliceTo,
        Opcode::FromIterCodePoints,
    ] {
        let operands = vec![
            Operand::Register(1),
            Operand::Register(0),
            position_operand.clone(),
        ];
        calls.push(Call::new(opcode, operands));
    }
    for end in position.saturating_sub(2)..=position + 4 {
        let (one, zero) = (Operand::Register(1), Operand::Register(0));
        calls.push(Call::new(
            Opcode::Slice,
            vec![one, zero, position_operand.clone(), Operand::Number(end)],
        ));
    }
    calls
}

pub fn from_units(register: u8, units: &[u16]) -> Call {
    with_units(register, Opcode::FromIllFormedUtf16, units)
}

/// Appends units to the string of a register.
pub fn push_units(register: u8, units: &[u16]) -> Call {
    with_units(register, Opcode::PushIllFormedUtf16, units)
}

/// A call on the string of a register with units.
pub fn with_units(register: u8, opcode: Opcode, units: &[u16]) -> Call {
    let operands = vec![Operand::Register(register), Operand::Units(units.to_vec())];
    Call::new(opcode, operands)
}

/// A call on the string of a register with code points.
pub fn with_points(register: u8, opcode: Opcode, points: &[u32]) -> Call {
    let operands = vec![
        Operand::Register(register),
        Operand::Points(points.to_vec()),
    ];
    Call::new(opcode, operands)
}

/// Pushes a code point to the string of a register.
pub fn push(register: u8, value: u32) -> Call {
    let operands = vec![Operand::Register(register), Operand::Value(value)];
    Call::new(Opcode::Push, operands)
}

/// Makes a string of code points, pushed one by one.
pub fn pushed(register: u8, points: &[u32]) -> Vec<Call> {
    let mut calls = vec![call_on(register, Opcode::New)];
    calls.extend(points.iter().map(|point| push(register, *point)));
    calls
}

/// A call on the string of a register with a text.
pub fn with_text(register: u8, opcode: Opcode, text: &str) -> Call {
    let operands = vec![Operand::Register(register), Operand::Text(text.to_owned())];
    Call::new(opcode, operands)
}

/// A call whose only operand is a register.
pub fn call_on(register: u8, opcode: Opcode) -> Call {
    Call::new(opcode, vec![Operand::Register(register)])
}

pub fn registers(opcode: Opcode, first: u8, second: u8) -> Call {
    Call::new(
        opcode,
        vec![Operand::Register(first), Operand::Register(second)],
    )
}

/// The calls of each of `EDGES`, and its comparisons with all of them.
pub fn edge_calls() -> Vec<Vec<Call>> {
    let on_edge = |point: &u32| {
        let mut calls = point_calls(*point);
        for other in EDGES {
            let operands = vec![Operand::Value(*point), Operand::Value(other)];
            calls.push(Call::new(Opcode::CodePointComparisons, operands));
        }
        calls
    };
    EDGES.iter().map(on_edge).collect()
}

/// The calls of one code point, and calls of the string of that code point.
pub fn point_calls(point: u32) -> Vec<Call> {
    let value = || Operand::Value(point);
    let register = || Operand::Register(0);
    let mut calls = vec![
        Call::new(Opcode::CodePoint, vec![value()]),
        Call::new(Opcode::New, vec![register()]),
        Call::new(Opcode::Push, vec![register(), value()]),
        Call::new(Opcode::AsciiByteAt, vec![register(), Operand::Number(0)]),
        Call::new(Opcode::PushChar, vec![register(), value()]),
        Call::new(Opcode::CodePoints, vec![register(), Operand::Steps(vec![])]),
        Call::new(
            Opcode::ToIllFormedUtf16,
            vec![register(), Operand::Steps(vec![])],
        ),
    ];
    for opcode in [Opcode::Boundaries, Opcode::ToStringLossy, Opcode::Debug] {
        calls.push(Call::new(opcode, vec![register()]));
    }
    calls
}
