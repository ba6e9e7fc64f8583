//! Timings: the columns take turns in one process, and the least time of each counts. The strings are made again
//! before each turn, after a block of another size, and only one side's exist while it is timed; what a run without
//! rounds takes, as to make the map, is subtracted on both sides. A time is the least of four builds': two cargo
//! profiles, each at two addresses (`--cfg further`).

use std::fmt::Write;
use std::fs;
use std::hint::black_box;
use std::path::Path;
use std::time::Instant;

use crate::console::fail;
use crate::ours;
use crate::random::Random;
use crate::say;
use crate::timings::column::original;
#[cfg(std_wtf8)]
use crate::timings::column::standard;
use crate::timings::inputs::{self, Input};
#[cfg(simdutf)]
use crate::timings::simdutf;

/// The loops over strings, by their numbers in the proved library's exports.
const LOOPS: [(u32, &str); 25] = [
    (1, "from_ill_formed_utf16"),
    (2, "to_ill_formed_utf16, collected"),
    (3, "to_ill_formed_utf16, summed"),
    (4, "code_points, summed"),
    (5, "as_str"),
    (6, "to_string_lossy"),
    (7, "clone and into_string"),
    (8, "push"),
    (9, "extend"),
    (10, "push_wtf8"),
    (11, "eq"),
    (12, "cmp"),
    (13, "clone"),
    (14, "hex_dump"),
    (15, "unit_len"),
    (16, "unit_at, middle"),
    (17, "slice_units, middle half"),
    (18, "cmp_units"),
    (19, "clone and truncate_units"),
    (20, "append_units"),
    (21, "UnitText, push of each unit"),
    (26, "push_ill_formed_utf16"),
    (27, "write_units"),
    (28, "IndexedBuf, unit_at, middle"),
    (29, "IndexedBuf, copy_units, middle half"),
];

/// The loops that compare two strings.
const COMPARING: [u32; 3] = [11, 12, 18];

/// The loops over strings with many lone surrogates, beside the one that pushes each unit as a code point.
const LOOPS_OF_LONE: [u32; 6] = [1, 3, 5, 6, 7, 20];

const PUSH_OF_UNITS: (u32, &str) = (22, "push of each unit");

/// The loop that pushes a short text to a long one.
const LOOP_OF_END: (u32, &str) = (23, "clone, push_wtf8 and into_string");

/// The loops over the lines among the units.
const LOOPS_OF_LINES: [(u32, &str); 2] = [(24, "sort"), (25, "BTreeMap, get of each key")];

/// The number of turns of each column.
const TURNS: usize = 120;

/// The least duration of a turn, in nanoseconds.
const TURN: f64 = 1e6;

/// A row of the table: the least time of each column, in nanoseconds per item.
struct Row {
    name: String,
    ours: f64,
    original: f64,
    standard: f64,
}

/// The rows of the table: the number of the loop, the name and the input of each.
fn all_rows() -> Vec<(u32, String, Input)> {
    rows_of(|_| true)
}

/// The rows of the table with inputs whose names are chosen.
fn rows_of(is_chosen: impl Fn(&str) -> bool) -> Vec<(u32, String, Input)> {
    let mut rows = Vec::new();
    for input in inputs::chosen(&is_chosen) {
        rows.extend(LOOPS.map(|(number, call)| row(number, call, &input)));
    }
    for input in inputs::with_lone_surrogates(&is_chosen) {
        let loops = loops_of(&LOOPS_OF_LONE).chain([PUSH_OF_UNITS]);
        rows.extend(loops.map(|(number, call)| row(number, call, &input)));
    }
    for (which, input) in inputs::pairs(&is_chosen) {
        rows.extend(
            loops_of(&COMPARING).map(|(number, call)| {
                row(number, &format!("{call}, {which} unit differs"), &input)
            }),
        );
    }
    if let Some(input) = inputs::text_and_end(&is_chosen) {
        rows.push(row(LOOP_OF_END.0, LOOP_OF_END.1, &input));
    }
    let lines = inputs::lines();
    rows.extend(LOOPS_OF_LINES.map(|(number, call)| row(number, call, &lines)));
    rows
}

/// The loops over strings with some numbers.
fn loops_of(numbers: &[u32]) -> impl Iterator<Item = (u32, &'static str)> + '_ {
    let all = LOOPS.into_iter();
    all.filter(|(number, _)| numbers.contains(number))
}

fn row(number: u32, call: &str, input: &Input) -> (u32, String, Input) {
    (number, format!("{call}\t{}", input.name), input.clone())
}

/// Whether a row is chosen by words of its name. No words choose all rows.
fn is_named(name: &str, words: &[&str]) -> bool {
    words.is_empty() || words.iter().any(|word| name.contains(word))
}

/// Times the rows with a word in their names, prints them, and writes them to a file that `table` reads.
pub fn run(words: &[&str], file: &Path) -> bool {
    let mut lines = String::new();
    // Fails before the time is spent if the file cannot be written.
    write_file(file, &lines);
    for (number, name, input) in all_rows() {
        if !is_named(&name, words) {
            continue;
        }
        let Some(row) = time(number, name, &input) else {
            return false;
        };
        let Row {
            name,
            ours,
            original,
            standard,
        } = &row;
        say!(
            "{:60} {ours:8.3} {original:8.3} {standard:8.3}",
            name.replace('\t', ", ")
        );
        writeln!(lines, "{name}\t{ours}\t{original}\t{standard}").unwrap();
    }
    write_file(file, &lines);
    true
}

fn write_file(file: &Path, text: &str) {
    if let Err(error) = fs::write(file, text) {
        fail(&format!("{}: {error}", file.display()));
    }
}

/// Prints the names of the rows with a word in them, each with the number of items in a round.
pub fn rows(words: &[&str]) -> bool {
    for (_, name, input) in all_rows() {
        if is_named(&name, words) {
            say!("{name}\t{}", input.items);
        }
    }
    true
}

/// Runs one column's loop of a row and nothing else, for a tool that measures it.
pub fn run_loop(column: &str, row: &str, rounds: &str) -> bool {
    let input_name = row.split('\t').next_back().unwrap_or(row);
    let of_input = rows_of(|name| name == input_name);
    let found = of_input.into_iter().find(|(_, name, _)| name == row);
    let Some((number, _, input)) = found else {
        fail(&format!("no row {row} (compare rows lists them)"));
    };
    let Ok(rounds) = rounds.parse() else {
        fail(&format!("{rounds} is no number of rounds"));
    };
    let sum = match column {
        "proved" => Some(ours::time(number, &input.units, &input.others, rounds)),
        "crate" => original::Bench::new(number, &input.units, &input.others).run(number, rounds),
        #[cfg(simdutf)]
        implementation => Some(simdutf::run_loop(implementation, number, &input, rounds)),
        #[cfg(not(simdutf))]
        _ => fail(&format!("no column {column}: proved or crate")),
    };
    say!("{}", sum.unwrap_or_default());
    true
}

/// The least times of a column, in nanoseconds: of runs with no rounds, which only make what the loop works on, and of
/// runs with rounds.
#[derive(Clone, Copy)]
struct Least {
    made: f64,
    whole: f64,
}

impl Least {
    const NONE: Least = Least {
        made: f64::INFINITY,
        whole: f64::INFINITY,
    };

    fn add(&mut self, made: f64, whole: f64) {
        self.made = self.made.min(made);
        self.whole = self.whole.min(whole);
    }

    /// The time of an item, infinite if there was no run.
    fn per_item(self, items: f64) -> f64 {
        match self.whole.is_finite() {
            true => (self.whole - self.made).max(0.0) / items,
            false => f64::INFINITY,
        }
    }
}

/// Times a row. Returns `None` if the columns return different sums. The proved library and the crate have their own
/// numbers of rounds, so that their turns take about equally long.
fn time(number: u32, name: String, input: &Input) -> Option<Row> {
    let Input { units, others, .. } = input;
    let rounds = rounds_of_a_turn(|rounds| {
        black_box(original::Bench::new(number, units, others).run(number, rounds));
    });
    let own_rounds = rounds_of_a_turn(|rounds| {
        black_box(ours::time(number, units, others, rounds));
    });
    let result = ours::time(number, units, others, rounds);
    let mut random = Random::new(u64::from(number));
    let mut least = [Least::NONE; 3];
    for _ in 0..TURNS {
        // Times depend on the addresses of the strings, so each turn makes all strings at other addresses, one column's
        // while no other column has any.
        let _elsewhere = black_box(vec![0u8; random.between(1, 8192) as usize]);
        let (made, _) = timed(|| ours::time(number, units, others, 0));
        let (whole, _) = timed(|| ours::time(number, units, others, own_rounds));
        least[0].add(made, whole);
        let original = original::Bench::new(number, units, others);
        let (made, _) = timed(|| original.run(number, 0));
        let (whole, crate_result) = timed(|| original.run(number, rounds));
        drop(original);
        if crate_result.is_some_and(|crate_result| crate_result != result) {
            say!("DIFFERENT RESULTS in {name}: {result} and {crate_result:?}");
            return None;
        }
        if crate_result.is_some() {
            least[1].add(made, whole);
        }
        #[cfg(std_wtf8)]
        {
            let standard = standard::Bench::new(number, units, others);
            let (made, _) = timed(|| standard.run(number, 0));
            let (whole, standard_result) = timed(|| standard.run(number, rounds));
            if standard_result.is_some_and(|standard_result| standard_result != result) {
                say!("DIFFERENT RESULTS in {name}: {result} and {standard_result:?}");
                return None;
            }
            if standard_result.is_some() {
                least[2].add(made, whole);
            }
        }
    }
    let items = |rounds: u32| f64::from(rounds) * input.items as f64;
    Some(Row {
        name,
        ours: least[0].per_item(items(own_rounds)),
        original: least[1].per_item(items(rounds)),
        standard: least[2].per_item(items(rounds)),
    })
}

/// Doubles the number of rounds, up to 2^24, until a loop takes at least `TURN` more than no rounds do. Each time is the
/// least of three, since other processes interrupt some runs.
pub fn rounds_of_a_turn(run: impl Fn(u32)) -> u32 {
    let least = |rounds| {
        let times = (0..3).map(|_| timed(|| run(rounds)).0);
        times.fold(f64::INFINITY, f64::min)
    };
    let end = least(0) + TURN;
    let mut rounds = 16;
    while least(rounds) < end && rounds < 1 << 24 {
        rounds *= 2;
    }
    rounds
}

pub fn timed<T>(run: impl FnOnce() -> T) -> (f64, T) {
    let start = Instant::now();
    let result = run();
    (start.elapsed().as_nanos() as f64, result)
}

/// Prints two tables from files of rows, one file for each cargo profile and address of the code: the rows with a ratio
/// above 1.00, the greatest first, then all rows. Each number is the least of all files.
pub fn table(files: &[&str]) -> bool {
    let texts: Vec<String> = files.iter().map(|file| rows_of_file(file)).collect();
    let all: Vec<(f64, String)> = texts[0]
        .lines()
        .map(|line| table_row(line, &texts))
        .collect();
    let mut above: Vec<_> = all.iter().filter(|(ratio, _)| *ratio > 1.0).collect();
    above.sort_by(|(one, _), (other, _)| other.total_cmp(one));
    say!("The rows above 1.00:\n");
    say_table(above.into_iter());
    say!("\nAll rows:\n");
    say_table(all.iter());
    true
}

fn say_table<'a>(rows: impl Iterator<Item = &'a (f64, String)>) {
    say!("| Call | Input | proved, ns | crate, ns | ratio | standard library, ns |");
    say!("|---|---|---|---|---|---|");
    for (_, row) in rows {
        say!("{row}");
    }
}

/// The rounded ratio of a row, and its line in the table.
fn table_row(line: &str, texts: &[String]) -> (f64, String) {
    let words: Vec<&str> = line.split('\t').collect();
    let same = texts.iter().flat_map(|text| text.lines());
    let rows: Vec<Vec<f64>> = same
        .filter_map(|line| numbers_of(line, &words[..2]))
        .collect();
    let least = |column: usize| {
        let times = rows.iter().map(|row| row[column]);
        times.fold(f64::INFINITY, f64::min)
    };
    let (ours, original, standard) = (least(0), least(1), least(2));
    let (ratio, shown_ratio) = match original.is_finite() {
        true => (ours / original, format!("{:.2}", ours / original)),
        false => (0.0, "-".to_owned()),
    };
    let line = format!(
        "| {} | {} | {} | {} | {shown_ratio} | {} |",
        words[0],
        words[1],
        shown(ours),
        shown(original),
        shown(standard)
    );
    ((100.0 * ratio).round() / 100.0, line)
}

/// The text of a file of rows. Ends the program with one line if it cannot be read or a line is not a row.
fn rows_of_file(file: &str) -> String {
    let text = match fs::read_to_string(file) {
        Ok(text) => text,
        Err(error) => fail(&format!("{file}: {error}")),
    };
    for line in text.lines() {
        let words: Vec<&str> = line.split('\t').collect();
        let is_row = words.len() == 5 && words[2..].iter().all(|word| word.parse::<f64>().is_ok());
        if !is_row {
            fail(&format!("{file}: no row of timings: {line}"));
        }
    }
    text
}

fn numbers_of(line: &str, name: &[&str]) -> Option<Vec<f64>> {
    let words: Vec<&str> = line.split('\t').collect();
    let numbers = words[2..]
        .iter()
        .map(|word| word.parse().ok())
        .collect::<Option<Vec<f64>>>();
    numbers.filter(|_| words[..2] == *name)
}

fn shown(time: f64) -> String {
    match time.is_finite() {
        true => format!("{time:.3}"),
        false => "-".to_owned(),
    }
}
