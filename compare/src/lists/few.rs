//! Lists of scripts on few units that are pushed to a string with room for them, which takes a path of its own, and on
//! strings of one surrogate, of which no call may forget that they are no text.

use crate::lists::generate::{
    call_on, from_units, push, push_units, registers, with_points, with_units,
};
use crate::script::{Call, Opcode, Operand};

/// Units and pairs at the limits of encoded lengths and of the surrogates. A trail comes before a lead, so that they do not
/// join.
const EDGES: [&[u16]; 12] = [
    &[0x7F],
    &[0x80],
    &[0x7FF],
    &[0x800],
    &[0xD7FF],
    &[0xE000],
    &[0xFFFF],
    &[0xD800, 0xDC00],
    &[0xDBFF, 0xDFFF],
    &[0xDC00],
    &[0xD800],
    &[0x61],
];

/// The strings to which units are pushed: empty, ASCII, a text, two that end with a lead, and one with a lone surrogate
/// before its end.
const STARTS: [&[u16]; 6] = [
    &[],
    &[0x61, 0x62],
    &[0x61, 0xE9, 0xD83D, 0xDCA9],
    &[0x61, 0xD83D],
    &[0xDC00, 0xD83D],
    &[0x61, 0xDC00, 0x62],
];

/// Numbers of units about those of longer paths: of a block, of two, and of one more run.
const LONGER: [usize; 9] = [13, 15, 16, 17, 24, 31, 32, 33, 41];

/// The bytes of room of a string with room: more than any list takes.
const ROOM: u16 = 300;

/// `len` units of `EDGES`, repeated from an index on.
fn edges_from(first: usize, len: usize) -> Vec<u16> {
    let edges = EDGES.iter().cycle().skip(first);
    edges
        .flat_map(|units| units.iter().copied())
        .take(len)
        .collect()
}

/// ASCII letters with one of each of `EDGES` after a letter that is not ASCII, in more units than the block that holds both:
/// with room these letters are encoded one by one.
fn letters_in_ascii() -> Vec<Vec<u16>> {
    let with = |(index, edge): (usize, &[u16])| {
        let mut units = vec![0x61; 66];
        units[index] = [0xE9, 0x4E2D][index % 2];
        let at = 31 - index;
        units[at..at + edge.len()].copy_from_slice(edge);
        units
    };
    EDGES.into_iter().enumerate().map(with).collect()
}

/// Lists of up to 12 units that begin at three of `EDGES` each, lists of `LONGER`, about 12 and 16 units of three bytes, and
/// letters in ASCII.
fn lists() -> Vec<Vec<u16>> {
    let edges = EDGES.len();
    let from_three = |len| [0, 4, 8].map(|more| edges_from((len + more) % edges, len));
    let mut lists: Vec<Vec<u16>> = (0..=12).flat_map(from_three).collect();
    lists.extend(LONGER.map(|len| edges_from(len % edges, len)));
    lists.extend([11, 12, 13, 15, 16, 17].map(|len| vec![0xFFFF; len]));
    lists.extend(letters_in_ascii());
    lists
}

/// A script for each of `STARTS`, with room and without: each list pushed to it, then `into_string`.
pub fn pushed() -> Vec<Vec<Call>> {
    let of_start = |start| [true, false].map(|has_room| pushed_to(start, has_room));
    STARTS.into_iter().flat_map(of_start).collect()
}

fn pushed_to(start: &[u16], has_room: bool) -> Vec<Call> {
    // Without room the path is that of any list, so fewer lists are enough.
    let lists = lists().into_iter().step_by(if has_room { 1 } else { 3 });
    let pushed = |units: Vec<u16>| {
        let mut calls = match has_room {
            true => vec![with_room(0), push_units(0, start)],
            false => vec![from_units(0, start)],
        };
        calls.extend([push_units(0, &units), call_on(0, Opcode::IntoString)]);
        calls
    };
    lists.flat_map(pushed).collect()
}

/// Makes an empty string with `ROOM` bytes of room.
fn with_room(register: u8) -> Call {
    Call::new(
        Opcode::WithCapacity,
        vec![Operand::Register(register), Operand::Number(ROOM)],
    )
}

/// A lead and a trail, each as a string of its own made by each call that can, and appended to "a": `into_string` of it,
/// and of a clone.
pub fn one_surrogate() -> Vec<Vec<Call>> {
    [0xD800, 0xDFFF].map(surrogate_by_each_call).to_vec()
}

fn surrogate_by_each_call(unit: u16) -> Vec<Call> {
    let value = u32::from(unit);
    let push_unit = Call::new(
        Opcode::PushUnit,
        vec![Operand::Register(0), Operand::Number(unit)],
    );
    let appending = [
        vec![push(0, value)],
        vec![push_unit],
        vec![push_units(0, &[unit])],
        vec![from_units(2, &[unit]), registers(Opcode::PushWtf8, 0, 2)],
        vec![from_units(2, &[unit]), registers(Opcode::PushUnitsOf, 0, 2)],
        vec![with_points(0, Opcode::Extend, &[value])],
    ];
    let mut calls = Vec::new();
    for start in [
        vec![call_on(0, Opcode::New)],
        vec![from_units(0, &[0x61])],
        vec![with_room(0)],
    ] {
        for appended in &appending {
            calls.extend(start.iter().cloned());
            calls.extend(appended.iter().cloned());
            calls.extend(into_strings());
        }
    }
    calls.push(with_units(0, Opcode::FromIllFormedUtf16, &[unit]));
    calls.extend(into_strings());
    calls.push(with_points(0, Opcode::FromIter, &[value]));
    calls.extend(into_strings());
    calls
}

/// `into_string` of a clone of the string of register 0, and of the string.
fn into_strings() -> [Call; 3] {
    [
        registers(Opcode::Clone, 1, 0),
        call_on(1, Opcode::IntoString),
        call_on(0, Opcode::IntoString),
    ]
}
