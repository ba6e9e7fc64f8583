//! The library simdutf, if compare/simdutf has built it, and its times beside those of the proved library.

use std::ffi::{c_char, CStr};

use crate::console::fail;
use crate::ours;
use crate::say;
use crate::timings::bench::{rounds_of_a_turn, timed};
use crate::timings::inputs::{self, Input};

extern "C" {
    fn simdutf_calls_choose(name: *const u8, name_len: usize) -> bool;
    fn simdutf_calls_version() -> *const c_char;
    fn simdutf_calls_compiler() -> *const c_char;
    fn simdutf_calls_units_to_bytes(units: *const u16, units_len: usize, rounds: u32) -> u64;
    fn simdutf_calls_bytes_to_units(bytes: *const u8, bytes_len: usize, rounds: u32) -> u64;
}

/// The numbers and names of the loops that convert units to bytes and bytes to units.
const LOOPS: [(u32, &str); 2] = [(1, "from_ill_formed_utf16"), (20, "append_units")];

/// The inputs that are valid texts and not short.
const TEXTS: [&str; 10] = [
    "ASCII",
    "Latin",
    "English",
    "French",
    "Russian",
    "CJK",
    "Japanese",
    "emoji",
    "mixed",
    "supplementary",
];

/// The number of turns of each library.
const TURNS: usize = 40;

/// Prints the version of simdutf and its compiler, and for each conversion and text the least time of the proved library
/// and of an implementation of simdutf, in nanoseconds a unit.
pub fn run(implementation: &str) -> bool {
    choose(implementation);
    let [version, compiler] = unsafe { [simdutf_calls_version(), simdutf_calls_compiler()] }
        .map(|text| unsafe { CStr::from_ptr(text) }.to_string_lossy());
    say!("version\t{version}\ncompiler\t{compiler}");
    for (number, call) in LOOPS {
        for name in TEXTS {
            for input in inputs::chosen(|chosen| chosen == name) {
                let Some([own, other]) = times(number, &input) else {
                    say!("DIFFERENT RESULTS in {call}, {name}");
                    return false;
                };
                say!("{call}\t{name}\t{}\t{own:.4}\t{other:.4}", input.items);
            }
        }
    }
    true
}

/// Runs a loop of an implementation and nothing else.
pub fn run_loop(implementation: &str, number: u32, input: &Input, rounds: u32) -> u64 {
    choose(implementation);
    convert(number, &input.units, &bytes_of(&input.units), rounds)
}

/// The least times of both libraries a unit, in nanoseconds, or `None` if their sums differ.
fn times(number: u32, input: &Input) -> Option<[f64; 2]> {
    let units = &input.units;
    let bytes = bytes_of(units);
    let own = |rounds| ours::time(number, units, &[], rounds);
    let other = |rounds| convert(number, units, &bytes, rounds);
    let rounds = [
        rounds_of_a_turn(|rounds| _ = own(rounds)),
        rounds_of_a_turn(|rounds| _ = other(rounds)),
    ];
    let (mut made, mut least) = (f64::INFINITY, [f64::INFINITY; 2]);
    for _ in 0..TURNS {
        made = made.min(timed(|| own(0)).0);
        least[0] = least[0].min(timed(|| own(rounds[0])).0);
        least[1] = least[1].min(timed(|| other(rounds[1])).0);
    }
    let items = rounds.map(|rounds| f64::from(rounds) * input.items as f64);
    (own(1) == other(1)).then(|| [(least[0] - made).max(0.0) / items[0], least[1] / items[1]])
}

fn choose(name: &str) {
    if !unsafe { simdutf_calls_choose(name.as_ptr(), name.len()) } {
        fail(&format!(
            "simdutf has no implementation {name} for this processor"
        ));
    }
}

/// The UTF-8 of a valid text.
fn bytes_of(units: &[u16]) -> Vec<u8> {
    match String::from_utf16(units) {
        Ok(text) => text.into_bytes(),
        Err(_) => fail("a lone surrogate is in the text"),
    }
}

/// The sum of the lengths of what simdutf makes in all rounds.
fn convert(number: u32, units: &[u16], bytes: &[u8], rounds: u32) -> u64 {
    match number {
        1 => unsafe { simdutf_calls_units_to_bytes(units.as_ptr(), units.len(), rounds) },
        20 => unsafe { simdutf_calls_bytes_to_units(bytes.as_ptr(), bytes.len(), rounds) },
        _ => fail(&format!("simdutf has no loop {number}")),
    }
}
