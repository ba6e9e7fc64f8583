//! Shrinks a script that shows something.

use std::time::{Duration, Instant};

use crate::script::{Build, Call, Operand};

/// How long to search for a smaller script.
const PATIENCE: Duration = Duration::from_secs(7);

/// Shrinks a script for which `shows` holds until no call can be left out and no operand made simpler, or until
/// `PATIENCE` is over.
pub fn smallest(script: &[Call], shows: &dyn Fn(&[Call]) -> bool) -> Vec<Call> {
    let end = Instant::now() + PATIENCE;
    let mut best = without_blocks(without_end(script, shows), shows, end);
    while Instant::now() < end {
        let found = candidates(&best)
            .into_iter()
            .take_while(|_| Instant::now() < end)
            .find(|script| shows(script));
        match found {
            Some(smaller) => best = without_blocks(smaller, shows, end),
            None => break,
        }
    }
    best
}

/// The script up to the call that shows it, by binary search: longer fronts show it too.
fn without_end(script: &[Call], shows: &dyn Fn(&[Call]) -> bool) -> Vec<Call> {
    let (mut too_short, mut long_enough) = (0, script.len());
    while too_short + 1 < long_enough {
        let middle = (too_short + long_enough) / 2;
        match shows(&script[..middle]) {
            true => long_enough = middle,
            false => too_short = middle,
        }
    }
    script[..long_enough].to_vec()
}

/// Leaves out each block of calls that is not needed, blocks of half the script first and then ever shorter ones.
fn without_blocks(
    mut script: Vec<Call>,
    shows: &dyn Fn(&[Call]) -> bool,
    end: Instant,
) -> Vec<Call> {
    let mut block = script.len() / 2;
    while block > 0 {
        let mut from = 0;
        while from < script.len() && Instant::now() < end {
            let after = script.len().min(from + block);
            let fewer = [&script[..from], &script[after..]].concat();
            match shows(&fewer) {
                true => script = fewer,
                false => from = after,
            }
        }
        block /= 2;
    }
    script
}

/// All scripts that are one step smaller, those with a call less first.
fn candidates(script: &[Call]) -> Vec<Vec<Call>> {
    let mut found = Vec::new();
    for at in (0..script.len()).rev() {
        let mut fewer = script.to_vec();
        fewer.remove(at);
        found.push(fewer);
    }
    for (at, call) in script.iter().enumerate() {
        for (index, operand) in call.operands.iter().enumerate() {
            for simpler in simpler_operands(operand) {
                let mut smaller = script.to_vec();
                smaller[at].operands[index] = simpler;
                found.push(smaller);
            }
        }
    }
    found
}

fn simpler_operands(operand: &Operand) -> Vec<Operand> {
    match operand {
        Operand::Register(register) => (0..*register).map(Operand::Register).collect(),
        Operand::Number(number) => [0, number / 2, number.saturating_sub(1)]
            .into_iter()
            .filter(|simpler| simpler < number)
            .map(Operand::Number)
            .collect(),
        Operand::Value(value) => simpler_values(*value)
            .into_iter()
            .map(Operand::Value)
            .collect(),
        Operand::Text(text) => {
            let chars: Vec<u32> = text.chars().map(u32::from).collect();
            let simpler = simpler_lists(&chars, simpler_values);
            let text_of = |list: Vec<u32>| list.into_iter().filter_map(char::from_u32).collect();
            simpler
                .into_iter()
                .map(text_of)
                .map(Operand::Text)
                .collect()
        }
        Operand::Units(units) => {
            let simpler_units = |unit: u16| {
                let values = simpler_values(u32::from(unit));
                values.into_iter().map(|value| value as u16).collect()
            };
            simpler_lists(units, simpler_units)
                .into_iter()
                .map(Operand::Units)
                .collect()
        }
        Operand::Points(points) => simpler_lists(points, simpler_values)
            .into_iter()
            .map(Operand::Points)
            .collect(),
        Operand::Steps(steps) => simpler_lists(steps, |_| Vec::new())
            .into_iter()
            .map(Operand::Steps)
            .collect(),
        Operand::Builds(builds) => simpler_lists(builds, simpler_builds)
            .into_iter()
            .map(Operand::Builds)
            .collect(),
    }
}

fn simpler_builds(build: Build) -> Vec<Build> {
    match build {
        Build::Push(value) => simpler_values(value).into_iter().map(Build::Push).collect(),
        _ => Vec::new(),
    }
}

fn simpler_lists<T: Clone>(list: &[T], simpler_items: impl Fn(T) -> Vec<T>) -> Vec<Vec<T>> {
    let mut found = Vec::new();
    if list.len() > 3 {
        found.push(list[..list.len() / 2].to_vec());
        found.push(list[list.len() / 2..].to_vec());
    }
    for at in 0..list.len() {
        let mut fewer = list.to_vec();
        fewer.remove(at);
        found.push(fewer);
    }
    for at in 0..list.len() {
        for simpler in simpler_items(list[at].clone()) {
            let mut changed = list.to_vec();
            changed[at] = simpler;
            found.push(changed);
        }
    }
    found
}

/// The values before `value` in a list of simple values, or all of the list if it is not there.
fn simpler_values(value: u32) -> Vec<u32> {
    let simple = [0x61, 0xE9, 0x20AC, 0x10000, 0xD800, 0xDC00];
    simple
        .into_iter()
        .take_while(|known| *known != value)
        .collect()
}
