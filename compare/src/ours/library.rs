//! The proved library, linked into this program.

use std::cell::RefCell;

use crate::console::fail;

extern "C" {
    fn compare_exports_run(
        script: *const u8,
        script_len: usize,
        out: *mut u8,
        out_len: usize,
    ) -> i64;
    fn compare_exports_time(
        number: u32,
        units: *const u16,
        units_len: usize,
        others: *const u16,
        others_len: usize,
        rounds: u32,
        sum: *mut u64,
    ) -> i64;
    fn compare_exports_texts(
        number: u32,
        units: *const u16,
        units_len: usize,
        indexes: *const u32,
        places_len: usize,
        rounds: u32,
        sum: *mut u64,
    ) -> i64;
}

thread_local! {
    /// The buffer for transcripts, kept from one script to the next.
    static TRANSCRIPT: RefCell<Vec<u8>> = RefCell::new(vec![0; 1 << 16]);
}

/// The proved library's transcript of a script, or a line with the number that it returned instead.
pub fn run(script: &[u8]) -> String {
    TRANSCRIPT.with_borrow_mut(|out| loop {
        let len = unsafe {
            compare_exports_run(script.as_ptr(), script.len(), out.as_mut_ptr(), out.len())
        };
        let Ok(len) = usize::try_from(len) else {
            return format!("NO TRANSCRIPT, {len}\n");
        };
        match out.get(..len) {
            Some(transcript) => return String::from_utf8_lossy(transcript).into_owned(),
            None => out.resize(2 * len, 0),
        }
    })
}

/// The proved library's transcripts of scripts, in their order.
pub fn run_all(scripts: &[Vec<u8>]) -> Vec<String> {
    scripts.iter().map(|script| run(script)).collect()
}

/// Runs a timed loop of the proved library over strings of `units`, compared with strings of `others`, and returns its
/// sum.
pub fn time(number: u32, units: &[u16], others: &[u16], rounds: u32) -> u64 {
    let mut sum = 0;
    let status = unsafe {
        compare_exports_time(
            number,
            units.as_ptr(),
            units.len(),
            others.as_ptr(),
            others.len(),
            rounds,
            &mut sum,
        )
    };
    match status {
        0 => sum,
        _ => fail(&format!("the proved library's loop {number} gave {status}")),
    }
}

/// Runs a loop of the proved library over a text, and returns its sum.
pub fn texts(number: u32, units: &[u16], indexes: &[u32], rounds: u32) -> u64 {
    let mut sum = 0;
    let status = unsafe {
        compare_exports_texts(
            number,
            units.as_ptr(),
            units.len(),
            indexes.as_ptr(),
            indexes.len(),
            rounds,
            &mut sum,
        )
    };
    match status {
        0 => sum,
        _ => fail(&format!(
            "the proved library's loop {number} over a text gave {status}"
        )),
    }
}
