//! Runs scripts on both sides and compares the transcripts: the lists of `lists.rs`, then random scripts of up to
//! twenty calls, also at positions off boundaries and past the end; likewise of the indexed string, mostly of some
//! hundred units, with marks and without, at indexes about multiples of 128 and the end; and random lists of up to 24
//! building calls through `apply_all`, with memory refused from a random request on, against `model.rs`.

use crate::console::progress;
use crate::lists::{generate, indexed, LISTS};
use crate::random::Random;
use crate::results::original::Results;
use crate::results::{model, original, shrink};
use crate::script::{encode, Call};
use crate::{ours, say};

const REFUSALS: [&str; 5] = [
    "truncate",
    "slice",
    "slice_from",
    "slice_to",
    "ascii_byte_at",
];

/// The number of scripts that both sides run at a time.
const BATCH: usize = 1000;

/// Counts of what was run, and examples of the known differences.
#[derive(Default)]
struct Tally {
    scripts: u64,
    calls: u64,
    held_hints: u64,
    refusals: u64,
    hint_example: Option<Vec<Call>>,
    refusal_examples: Vec<(&'static str, Vec<Call>)>,
}

/// Runs all of `LISTS`, `cases` random scripts, `cases` of the indexed string, and `cases` random lists of building calls
/// against the model. Returns whether the sides agree, but for the known differences.
pub fn run(seed: u64, cases: u64, every_point: bool) -> bool {
    let mut tally = Tally::default();
    for (name, list) in LISTS {
        let scripts = list();
        let count = scripts.len();
        if !tally.agrees_on(name, scripts.into_iter()) {
            return false;
        }
        say!("{name}: {count} scripts, the results are the same");
    }
    if every_point {
        let scripts = (0..=0x11_0000).map(generate::point_calls);
        if !tally.agrees_on("every code point", scripts) {
            return false;
        }
        say!("every code point and the number after the last: the results are the same");
    }
    let mut random = Random::new(seed);
    let scripts = (0..cases).map(|_| generate::script_with_all_calls(&mut random));
    if !tally.agrees_on("random scripts", scripts) {
        return false;
    }
    say!("{cases} random scripts of seed {seed}: the results are the same");
    let mut random = Random::new(seed);
    let scripts = (0..cases).map(|_| indexed::random_script(&mut random));
    if !tally.agrees_on("random scripts of the indexed string", scripts) {
        return false;
    }
    say!("{cases} random scripts of the indexed string: the results are the same");
    if !model::run(seed, cases) {
        return false;
    }
    tally.report();
    true
}

/// Runs scripts on the crate and on the proved library. If the library is run by a program and this ended early, there
/// are fewer transcripts.
fn results_of(batch: &[Vec<Call>]) -> (Vec<Results>, Vec<String>) {
    let scripts: Vec<Vec<u8>> = batch.iter().map(|script| encode(script)).collect();
    std::thread::scope(|scope| {
        let crates = scope.spawn(|| scripts.iter().map(|script| original::run(script)).collect());
        let transcripts = ours::run_all(&scripts);
        match crates.join() {
            Ok(results) => (results, transcripts),
            Err(panic) => std::panic::resume_unwind(panic),
        }
    })
}

fn differs(script: &[Call]) -> bool {
    let bytes = encode(script);
    ours::run(&bytes) != original::run(&bytes).transcript
}

impl Tally {
    /// Whether the two sides agree on a list of scripts, which they run in batches, in parallel.
    fn agrees_on(&mut self, name: &str, mut scripts: impl Iterator<Item = Vec<Call>>) -> bool {
        for turn in 0.. {
            let batch: Vec<Vec<Call>> = scripts.by_ref().take(BATCH).collect();
            if batch.is_empty() {
                return true;
            }
            if turn % 10 == 0 {
                progress(&format!("{name}: {} scripts ", turn * BATCH));
            }
            let (results, transcripts) = results_of(&batch);
            for (number, (script, results)) in batch.iter().zip(results).enumerate() {
                if transcripts.get(number) != Some(&results.transcript) {
                    let done = turn * BATCH + number;
                    say!("\nDIFFERENT ANSWERS at script {} of: {name}", done + 1);
                    say!("(script {} of all)", self.scripts + 1);
                    show_difference(script);
                    return false;
                }
                self.count(script, results);
            }
        }
        true
    }

    /// Counts a script on which the two sides agree.
    fn count(&mut self, script: &[Call], results: Results) {
        self.scripts += 1;
        self.calls += script.len() as u64;
        self.refusals += results.panicked.len() as u64;
        if results.own_hints != results.transcript {
            self.held_hints += 1;
            self.hint_example.get_or_insert_with(|| script.to_vec());
        }
        for name in results.panicked {
            if self
                .refusal_examples
                .iter()
                .all(|(known, _)| *known != name)
            {
                self.refusal_examples.push((name, script.to_vec()));
            }
        }
    }

    fn report(&self) {
        say!("{} scripts with {} calls in all", self.scripts, self.calls);
        say!(
            "\nknown difference: the hint of the units while a trail is held, in {} scripts",
            self.held_hints
        );
        if let Some(script) = &self.hint_example {
            let shows = |script: &[Call]| {
                let results = original::run(&encode(script));
                results.own_hints != results.transcript
            };
            let script = shrink::smallest(script, &shows);
            show_script(&script);
            let results = original::run(&encode(&script));
            say!(
                "the crate:\n{}the proved library:\n{}",
                results.own_hints,
                results.transcript
            );
        }
        say!(
            "known difference: a refusal where the crate panics, {} times",
            self.refusals
        );
        for name in REFUSALS {
            if let Some((_, script)) = self
                .refusal_examples
                .iter()
                .find(|(known, _)| *known == name)
            {
                let shows =
                    |script: &[Call]| original::run(&encode(script)).panicked.contains(&name);
                show_script(&shrink::smallest(script, &shows));
            }
        }
    }
}

fn show_script(script: &[Call]) {
    let calls: Vec<String> = script.iter().map(ToString::to_string).collect();
    say!("    {}", calls.join("; "));
}

fn show_difference(script: &[Call]) {
    let script = shrink::smallest(script, &differs);
    let bytes = encode(&script);
    say!("The smallest script that shows it:");
    show_script(&script);
    let crate_answers = original::run(&bytes).transcript;
    say!(
        "the crate:\n{crate_answers}the proved library:\n{}",
        ours::run(&bytes)
    );
}
