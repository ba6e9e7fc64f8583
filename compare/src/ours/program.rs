//! The proved library through the program `compare_replay`, which reads scripts, one a line in hexadecimal, and prints
//! each transcript with an empty line after it. The variable `COMPARE_PROGRAM` names the built program.

use std::cell::RefCell;
use std::io::{BufRead, BufReader, Write};
use std::process::{Child, ChildStdin, ChildStdout, Command, Stdio};

use crate::console::fail;

thread_local! {
    /// The running program, which ends with its standard input when this one ends.
    static PROGRAM: RefCell<Option<Program>> = const { RefCell::new(None) };
}

struct Program {
    child: Child,
    scripts: ChildStdin,
    transcripts: BufReader<ChildStdout>,
}

/// The proved library's transcript of a script, or a line with the program's exit status if it ended instead.
pub fn run(script: &[u8]) -> String {
    run_all(&[script.to_vec()]).concat()
}

/// The proved library's transcripts of scripts, in their order. If the program ends at a script, the last one is a line
/// with its exit status, and the scripts after it have none.
pub fn run_all(scripts: &[Vec<u8>]) -> Vec<String> {
    PROGRAM.with_borrow_mut(|kept| {
        let program = kept.get_or_insert_with(Program::started);
        match program.transcripts(scripts) {
            Ok(transcripts) if transcripts.len() == scripts.len() => transcripts,
            Ok(mut transcripts) => {
                let ended = program.child.wait();
                *kept = None;
                transcripts.push(ended.map_or_else(
                    |error| format!("NO TRANSCRIPT, {error}\n"),
                    |status| format!("NO TRANSCRIPT, {status}\n"),
                ));
                transcripts
            }
            Err(error) => fail(&format!("the program that runs scripts: {error}")),
        }
    })
}

/// Only the library exports the timed loops.
pub fn time(_number: u32, _units: &[u16], _others: &[u16], _rounds: u32) -> u64 {
    fail("the timed loops want the library: leave out COMPARE_PROGRAM")
}

/// Only the library exports the loops over texts.
pub fn texts(_number: u32, _units: &[u16], _indexes: &[u32], _rounds: u32) -> u64 {
    fail("the timed loops want the library: leave out COMPARE_PROGRAM")
}

impl Program {
    fn started() -> Program {
        let Some(path) = std::env::var_os("COMPARE_PROGRAM") else {
            fail("COMPARE_PROGRAM names no program, and this one was built to run its scripts by one");
        };
        let started = Command::new(&path)
            .stdin(Stdio::piped())
            .stdout(Stdio::piped())
            .spawn();
        let ends = |mut child: Child| Some((child.stdin.take()?, child.stdout.take()?, child));
        match started.map(ends) {
            Ok(Some((scripts, out, child))) => Program {
                child,
                scripts,
                transcripts: BufReader::with_capacity(1 << 16, out),
            },
            Ok(None) => fail("the program that runs scripts has no standard input or output"),
            Err(error) => fail(&format!("{}: {error}", path.to_string_lossy())),
        }
    }

    /// The transcripts that the program prints before it ends. A thread writes all scripts meanwhile, so that neither
    /// side waits for the other at each of them.
    fn transcripts(&mut self, scripts: &[Vec<u8>]) -> std::io::Result<Vec<String>> {
        let Program {
            scripts: input,
            transcripts: output,
            ..
        } = self;
        let lines: String = scripts.iter().map(|script| line_of(script)).collect();
        std::thread::scope(|scope| {
            // Writing fails if the program has ended, which shows when its transcripts are read.
            scope.spawn(|| input.write_all(lines.as_bytes()));
            let mut transcripts = Vec::with_capacity(scripts.len());
            while transcripts.len() < scripts.len() {
                let Some(transcript) = transcript_from(output)? else {
                    break;
                };
                transcripts.push(transcript);
            }
            Ok(transcripts)
        })
    }
}

/// A script as a line in hexadecimal.
fn line_of(script: &[u8]) -> String {
    const DIGITS: &[u8; 16] = b"0123456789ABCDEF";
    let digit = |number: u8| char::from(DIGITS[usize::from(number)]);
    script
        .iter()
        .flat_map(|byte| [digit(byte / 16), digit(byte % 16)])
        .chain(['\n'])
        .collect()
}

/// The next transcript, or `None` if the program ended before it was complete.
fn transcript_from(output: &mut impl BufRead) -> std::io::Result<Option<String>> {
    let mut transcript = Vec::new();
    loop {
        let before = transcript.len();
        if output.read_until(b'\n', &mut transcript)? == 0 {
            return Ok(None);
        }
        if transcript[before..] == *b"\n" {
            transcript.truncate(before);
            return Ok(Some(String::from_utf8_lossy(&transcript).into_owned()));
        }
    }
}
