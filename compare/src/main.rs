//! Compares the original crate `wtf8` and the proved library in one process: results, call by call, and speed.

#![cfg_attr(std_wtf8, feature(wtf8_internals))]

#[cfg(std_wtf8)]
extern crate alloc;

mod console;
mod fed;
mod lists;
/// The proved side: the library through its exports or, if `COMPARE_PROGRAM` is set in the build, a program over it.
mod ours {
    #[cfg(not(by_program))]
    mod library;
    #[cfg(by_program)]
    mod program;

    #[cfg(not(by_program))]
    pub use library::{run, run_all, texts, time};
    #[cfg(by_program)]
    pub use program::{run, run_all, texts, time};
}
mod random;
/// The results of both sides, call by call, and the results of a model.
mod results {
    pub mod differ;
    pub mod model;
    pub mod original;
    pub mod record;
    pub mod shrink;
}
mod script;
/// The times of both sides' loops.
mod timings {
    pub mod bench;
    pub mod column;
    pub mod inputs;
    #[cfg(simdutf)]
    pub mod simdutf;
    pub mod texts;
}

use std::path::Path;
use std::process::ExitCode;

use console::fail;
use results::{differ, original, record};
#[cfg(simdutf)]
use timings::simdutf;
use timings::{bench, texts};

// Moves all code after this by 16 bytes. The address of a loop decides much of its time, so timings are taken at both
// addresses.
#[cfg(further)]
std::arch::global_asm!(
    ".section .text.further,\"axR\"",
    ".balign 32",
    ".skip 16",
    ".text"
);

// The same by any number of bytes after a multiple of 64, so that a loop can be timed at several addresses.
#[cfg(moved)]
std::arch::global_asm!(
    ".section .text.moved,\"axR\"",
    ".balign 64",
    concat!(".skip 64 + ", env!("COMPARE_MOVED_BY")),
    ".text"
);

const USAGE: &str = "usage: compare differ [--seed S] [--cases N] [--every-point]
       compare record FOLDER [--seed S] [--cases N]
       compare bench FILE [WORD]..
       compare table FILE..
       compare rows [WORD]..
       compare texts [FILTER]
       compare loop proved|crate|text ROW ROUNDS
       compare simdutf IMPLEMENTATION, and compare loop IMPLEMENTATION ROW ROUNDS, if compare/simdutf/run built it";

fn main() -> ExitCode {
    original::silence_panics();
    let words: Vec<String> = std::env::args().skip(1).collect();
    let words: Vec<&str> = words.iter().map(String::as_str).collect();
    let passed = match words[..] {
        ["differ", ref flags @ ..] => {
            let flags = Flags::read(flags, true);
            differ::run(
                flags.seed,
                flags.cases.unwrap_or(100_000),
                flags.every_point,
            )
        }
        ["record", folder, ref flags @ ..] => {
            let flags = Flags::read(flags, false);
            match record::run(Path::new(folder), flags.seed, flags.cases.unwrap_or(300)) {
                Ok(()) => true,
                Err(error) => fail(&format!("{folder}: {error}")),
            }
        }
        ["bench", file, ref words @ ..] => bench::run(words, Path::new(file)),
        ["table", ref files @ ..] if !files.is_empty() => bench::table(files),
        ["texts"] => texts::run(""),
        ["texts", filter] => texts::run(filter),
        ["rows", ref words @ ..] => bench::rows(words),
        #[cfg(simdutf)]
        ["simdutf", implementation] => simdutf::run(implementation),
        ["loop", "text", row, rounds] => texts::run_loop(row, rounds),
        ["loop", side, row, rounds] => bench::run_loop(side, row, rounds),
        [] | ["help" | "--help" | "-h"] => {
            say!("{USAGE}");
            return ExitCode::from(2);
        }
        _ => fail(&format!(
            "no such call: {} (compare help lists the calls)",
            words.join(" ")
        )),
    };
    match passed {
        true => ExitCode::SUCCESS,
        false => ExitCode::FAILURE,
    }
}

/// The flags after a command.
struct Flags {
    seed: u64,
    cases: Option<u64>,
    every_point: bool,
}

impl Flags {
    /// Ends the program with one line at an unknown word or a malformed number.
    fn read(mut words: &[&str], may_have_every_point: bool) -> Flags {
        let mut flags = Flags {
            seed: 1,
            cases: None,
            every_point: false,
        };
        while let [word, rest @ ..] = words {
            words = match (*word, rest) {
                ("--seed", [number, rest @ ..]) => {
                    flags.seed = number_of(number);
                    rest
                }
                ("--cases", [number, rest @ ..]) => {
                    flags.cases = Some(number_of(number));
                    rest
                }
                ("--every-point", rest) if may_have_every_point => {
                    flags.every_point = true;
                    rest
                }
                ("--seed" | "--cases", []) => fail(&format!("no number after {word}")),
                _ => fail(&format!(
                    "unknown word {word} (compare help lists the calls)"
                )),
            };
        }
        flags
    }
}

fn number_of(word: &str) -> u64 {
    match word.parse() {
        Ok(number) => number,
        Err(error) => fail(&format!("{word} is no number: {error}")),
    }
}
