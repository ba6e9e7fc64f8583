//! Lists of scripts on marks, and on what iterators have left. Other lists and random scripts do not make these calls.

use crate::lists::blocks;
use crate::lists::generate::{call_on, from_units, unit_lists};
use crate::lists::long::string_in;
use crate::script::{Call, Opcode};

/// The marks of every list of up to four units, and what its iterators have left.
pub fn up_to_four_units() -> Vec<Vec<Call>> {
    let lists = unit_lists(4);
    let script = |units: &Vec<u16>| {
        vec![
            from_units(0, units),
            call_on(0, Opcode::Marks),
            call_on(0, Opcode::Left),
        ]
    };
    lists.iter().map(script).collect()
}

/// The marks of strings about as long as one or more blocks, and what their iterators have left.
pub fn about_blocks() -> Vec<Vec<Call>> {
    blocks::about_blocks(|units| {
        let mut calls = string_in(0, units);
        calls.extend([call_on(0, Opcode::Marks), call_on(0, Opcode::Left)]);
        calls
    })
}
