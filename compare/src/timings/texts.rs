//! Timings of `UnitText`, beside views and buffers, and beside arrays of units.

use std::hint::black_box;
use std::time::{Duration, Instant};

use crate::console::fail;
use crate::ours;
use crate::random::Random;
use crate::say;
use crate::timings::inputs::{self, Input};

/// The lengths of the texts in units.
const LENGTHS: [usize; 3] = [40, 1_000, 1_000_000];

/// The length in units of the texts whose calls are counted.
const COUNTED: usize = 4096;

/// The least number of indexes in random order in a round.
const LEAST_INDEXES: usize = 1_000;

/// The most indexes in a round if each is counted from the front of a long text.
const MOST_COUNTED: usize = 200;

/// The number of units in a slice.
const SLICE: usize = 10;

/// The least duration of a turn.
const TURN: Duration = Duration::from_millis(4);

/// The duration of the turns for one number of the table, unless `LEAST_TURNS` take longer.
const BUDGET: Duration = Duration::from_millis(600);

/// The least number of turns.
const LEAST_TURNS: usize = 5;

/// The loops of the proved library that return the memory of a buffer, and of a text's marks.
const MEMORY_OF_BUFFER: u32 = 11;
const MEMORY_OF_MARKS: u32 = 12;

/// The order of the indexes that a loop reads. A loop without an order reads all units.
#[derive(Clone, Copy, PartialEq)]
enum Order {
    Ascending,
    Random,
}

/// A loop over an array of units: returns the sum of one round at some indexes.
type ArrayLoop = fn(&[u16], &[u32]) -> u64;

/// A row of the table: its loops over texts, over views or buffers, and over arrays.
struct Call {
    name: &'static str,
    order: Option<Order>,
    text: u32,
    string: Option<u32>,
    array: Option<ArrayLoop>,
    /// Whether the array's sum must be the text's.
    is_compared: bool,
}

const CALLS: [Call; 7] = [
    Call {
        name: "unit_at, in order",
        order: Some(Order::Ascending),
        text: 1,
        string: Some(2),
        array: Some(units_at),
        is_compared: true,
    },
    Call {
        name: "unit_at, at random",
        order: Some(Order::Random),
        text: 1,
        string: Some(2),
        array: Some(units_at),
        is_compared: true,
    },
    Call {
        name: "slice_units of 10, at random",
        order: Some(Order::Random),
        text: 3,
        string: Some(4),
        array: Some(slices),
        is_compared: false,
    },
    Call {
        name: "from_units",
        order: None,
        text: 5,
        string: Some(7),
        array: Some(copied),
        is_compared: false,
    },
    Call {
        name: "from_units, mark_units",
        order: None,
        text: 6,
        string: None,
        array: None,
        is_compared: false,
    },
    Call {
        name: "a unit pushed",
        order: None,
        text: 8,
        string: Some(10),
        array: Some(pushed),
        is_compared: false,
    },
    Call {
        name: "a unit pushed, with marks",
        order: None,
        text: 9,
        string: None,
        array: None,
        is_compared: false,
    },
];

/// Times the calls whose names contain the filter, and prints their table: nanoseconds per call or unit, of texts, of
/// views and buffers, and of arrays of units.
pub fn run(filter: &str) -> bool {
    let header = inputs::NAMES_OF_TEXTS.join(" | ");
    say!("| text / view / array, ns | Units | {header} |\n|---|---|---|---|---|");
    for call in CALLS.iter().filter(|call| call.name.contains(filter)) {
        for length in LENGTHS {
            let cells = inputs::texts(length).map(|input| cell(call, &input));
            if cells.iter().any(Option::is_none) {
                return false;
            }
            let cells = cells.map(Option::unwrap_or_default).join(" | ");
            say!("| {} | {length} | {cells} |", call.name);
        }
    }
    for length in LENGTHS {
        let cells = inputs::texts(length)
            .map(|input| memory(&input))
            .join(" | ");
        say!("| bytes a unit | {length} | {cells} |");
    }
    true
}

/// Runs the loop of a call over a text of `COUNTED` units, at the index in the middle if it takes one, and nothing else,
/// for a tool that counts its instructions. A row is the name of a call, a tab and that of an input.
pub fn run_loop(row: &str, rounds: &str) -> bool {
    let (name, input_name) = row.split_once('\t').unwrap_or((row, ""));
    let call = CALLS.iter().find(|call| call.name == name);
    let input = inputs::texts(COUNTED)
        .into_iter()
        .find(|input| input.name == input_name);
    let (Some(call), Some(input), Ok(rounds)) = (call, input, rounds.parse()) else {
        fail(&format!("no loop over a text: {row}, {rounds}"));
    };
    let middle = [COUNTED as u32 / 2];
    say!("{}", ours::texts(call.text, &input.units, &middle, rounds));
    true
}

/// The times of a call on an input, or `None` if the sides return different sums.
fn cell(call: &Call, input: &Input) -> Option<String> {
    let units = &input.units;
    let indexes = indexes(call.order, units.len());
    let few = counted_from_front(&indexes, units.len());
    if !agree(call, input, &few) {
        return None;
    }
    let items = |indexes: &[u32]| call.order.map_or(units.len(), |_| indexes.len());
    let proved = |number: u32, indexes: &[u32]| {
        time(items(indexes), |rounds| {
            ours::texts(number, units, indexes, rounds)
        })
    };
    let text = proved(call.text, &indexes);
    let string = call.string.map(|number| proved(number, &few));
    let array = call.array.map(|array| {
        time(items(&indexes), |rounds| {
            let round = |_| array(black_box(units), black_box(&indexes));
            (0..rounds).map(round).fold(0, u64::wrapping_add)
        })
    });
    let numbers = [Some(text), string, array].map(shown);
    Some(numbers.join(" / "))
}

/// Whether all sides return the same sum at some indexes. Prints the sums if not.
fn agree(call: &Call, input: &Input, indexes: &[u32]) -> bool {
    let proved = |number| ours::texts(number, &input.units, indexes, 1);
    let text = proved(call.text);
    let string = call.string.map_or(text, proved);
    let array = match call.array {
        Some(array) if call.is_compared => array(&input.units, indexes),
        _ => text,
    };
    let is_same = text == string && text == array;
    if !is_same {
        say!(
            "DIFFERENT RESULTS in {}, {}: {text}, {string}, {array}",
            call.name,
            input.name
        );
    }
    is_same
}

/// The indexes that a round reads.
fn indexes(order: Option<Order>, len: usize) -> Vec<u32> {
    let mut random = Random::new(len as u64);
    match order {
        Some(Order::Ascending) => (0..len as u32).collect(),
        Some(Order::Random) => {
            let index = |_| random.below(len as u64) as u32;
            (0..len.max(LEAST_INDEXES)).map(index).collect()
        }
        None => Vec::new(),
    }
}

/// All indexes or, if the text is long, about `MOST_COUNTED` of them at equal distances.
fn counted_from_front(indexes: &[u32], len: usize) -> Vec<u32> {
    let step = match len > LEAST_INDEXES {
        true => (indexes.len() / MOST_COUNTED).max(1),
        false => 1,
    };
    indexes.iter().copied().step_by(step).collect()
}

/// The least time of a loop per item, in nanoseconds, without the time that it takes for no rounds.
fn time(items: usize, run: impl Fn(u32) -> u64) -> f64 {
    let rounds = rounds_of_a_turn(&run);
    let mut random = Random::new(items as u64);
    let begin = Instant::now();
    let (mut whole, mut made) = (Duration::MAX, Duration::MAX);
    let mut turns = 0;
    while turns < LEAST_TURNS || begin.elapsed() < BUDGET {
        // Times depend on the addresses of data, so each turn first allocates a block of random size.
        let _elsewhere = black_box(vec![0u8; random.between(1, 8192) as usize]);
        made = made.min(timed(&run, 0));
        whole = whole.min(timed(&run, rounds));
        turns += 1;
    }
    whole.saturating_sub(made).as_nanos() as f64 / (f64::from(rounds) * items as f64)
}

/// Doubles the number of rounds, up to 2^24, until they take `TURN` longer than no rounds.
fn rounds_of_a_turn(run: impl Fn(u32) -> u64) -> u32 {
    let mut rounds = 1;
    while timed(&run, rounds) < timed(&run, 0) + TURN && rounds < 1 << 24 {
        rounds *= 2;
    }
    rounds
}

fn timed(run: impl Fn(u32) -> u64, rounds: u32) -> Duration {
    let start = Instant::now();
    black_box(run(rounds));
    start.elapsed()
}

/// The bytes per unit of a text without its marks, of the marks, of a buffer, and of an array.
fn memory(input: &Input) -> String {
    let [buffer, marks] = [MEMORY_OF_BUFFER, MEMORY_OF_MARKS]
        .map(|number| ours::texts(number, &input.units, &[], 0) as f64 / input.units.len() as f64);
    format!(
        "{buffer:.2} + {marks:.3} / {buffer:.2} / {:.2}",
        size_of::<u16>() as f64
    )
}

/// A time in about two digits, in nanoseconds unless it names another unit.
fn shown(time: Option<f64>) -> String {
    match time {
        None => "-".to_owned(),
        Some(time) if time < 1.0 => format!("{time:.2}"),
        Some(time) if time < 10.0 => format!("{time:.1}"),
        Some(time) if time < 10_000.0 => format!("{time:.0}"),
        Some(time) => format!("{:.0} µs", time / 1e3),
    }
}

#[inline(never)]
fn units_at(units: &[u16], indexes: &[u32]) -> u64 {
    let unit = |index: &u32| units.get(*index as usize).copied().map_or(0, u64::from);
    indexes.iter().map(unit).sum()
}

#[inline(never)]
fn slices(units: &[u16], indexes: &[u32]) -> u64 {
    let slice = |index: &u32| {
        let begin = (*index as usize).min(units.len().saturating_sub(SLICE));
        let end = units.len().min(begin + SLICE);
        black_box(units[begin..end].to_vec()).len() as u64
    };
    indexes.iter().map(slice).sum()
}

#[inline(never)]
fn copied(units: &[u16], _: &[u32]) -> u64 {
    black_box(units.to_vec()).len() as u64
}

#[inline(never)]
fn pushed(units: &[u16], _: &[u32]) -> u64 {
    let mut array = Vec::new();
    for unit in units {
        array.push(*black_box(unit));
    }
    black_box(array).len() as u64
}
