//! The list of pairs: leads and trails with each of their ten bits, joined by each call that can, and lone.

use crate::lists::generate::{call_on, from_units, push, registers};
use crate::script::{Call, Opcode};

/// Ten bits: none set, all set, only one set, and all but one.
fn ten_bits() -> Vec<u16> {
    let alone = (0..10).map(|bit| 1 << bit);
    let mut bits = vec![0, 0x3FF];
    bits.extend(alone.clone());
    bits.extend(alone.map(|bit| 0x3FF - bit));
    bits
}

/// Each lead whose low ten bits are among `ten_bits`, joined with each such trail, and each of them lone next to
/// letters.
pub fn pairs() -> Vec<Vec<Call>> {
    let bits = ten_bits();
    let mut scripts = Vec::new();
    for lead in bits.iter().map(|bits| 0xD800 + bits) {
        scripts.extend(bits.iter().map(|bits| joined(lead, 0xDC00 + bits)));
    }
    scripts.extend(bits.iter().map(|bits| alone(0xD800 + bits)));
    scripts.extend(bits.iter().map(|bits| alone(0xDC00 + bits)));
    scripts
}

/// A part of these scripts, for the fixed list that the gate replays.
pub fn chosen() -> Vec<Vec<Call>> {
    vec![
        joined(0xDBC0, 0xDC00),
        joined(0xD83F, 0xDFC0),
        joined(0xDBFF, 0xDFFF),
        alone(0xDBC0),
        alone(0xDFC0),
    ]
}

/// A pair joined by `push`, by `push_wtf8` and from its units.
fn joined(lead: u16, trail: u16) -> Vec<Call> {
    let mut calls = vec![
        from_units(0, &[]),
        push(0, lead.into()),
        from_units(1, &[lead]),
        from_units(2, &[trail]),
        registers(Opcode::PushWtf8, 1, 2),
        from_units(2, &[lead, trail]),
        push(0, trail.into()),
        registers(Opcode::Comparisons, 0, 1),
        registers(Opcode::Comparisons, 0, 2),
    ];
    for opcode in [
        Opcode::Hash,
        Opcode::AsStr,
        Opcode::UnitAt,
        Opcode::IntoString,
    ] {
        calls.push(call_on(0, opcode));
    }
    calls
}

/// A lone surrogate after a letter, and between two letters: no such string is text.
fn alone(surrogate: u16) -> Vec<Call> {
    let mut calls = vec![from_units(0, &[0x61]), push(0, surrogate.into())];
    let looks = [
        Opcode::AsStr,
        Opcode::ToStringLossy,
        Opcode::Hash,
        Opcode::IntoString,
    ];
    calls.extend(looks.map(|opcode| call_on(0, opcode)));
    calls.push(from_units(0, &[0x61]));
    calls.push(push(0, surrogate.into()));
    calls.push(push(0, 0x61));
    calls.extend(looks.map(|opcode| call_on(0, opcode)));
    calls
}
