//! Prints to an output that may be closed.

use std::fmt;
use std::io::{self, IsTerminal, Write};

/// Prints a line on standard output.
#[macro_export]
macro_rules! say {
    ($($words:tt)*) => {
        $crate::console::print(format_args!("{}\n", format_args!($($words)*)))
    };
}

/// Prints on standard output, or ends the program with one line if that fails.
pub fn print(text: fmt::Arguments<'_>) {
    let mut out = io::stdout().lock();
    if let Err(error) = out.write_fmt(text).and_then(|()| out.flush()) {
        fail(&format!("standard output: {error}"));
    }
}

/// Shows how far the program is, if standard error is a terminal.
pub fn progress(text: &str) {
    let mut out = io::stderr();
    if out.is_terminal() {
        let _ = write!(out, "\r{text}");
    }
}

/// Ends the program with status 2 and one line that says why.
pub fn fail(why: &str) -> ! {
    let _ = writeln!(io::stderr(), "compare: {why}");
    std::process::exit(2)
}
