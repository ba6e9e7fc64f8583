//! Checks random lists of building calls through `apply_all` against a model that holds a list of units.

use crate::console::progress;
use crate::lists::{generate, long::byte_len};
use crate::random::Random;
use crate::script::{encode, Build, Call, Kind, Opcode, Operand, UNBOUNDED};
use crate::{ours, say};

/// The number of lists that the library runs at a time.
const BATCH: u64 = 1000;

/// A list of building calls, and what it works on.
struct Case {
    start: Vec<u16>,
    pieces: [Vec<u16>; 3],
    points: Vec<u32>,
    builds: Vec<Build>,
    /// Spare capacity in bytes.
    spare: u16,
    /// The number of requests for memory that are granted.
    grants: u16,
}

/// What the proved library returned for a list.
struct Applied {
    /// The number of refused truncations, or the index of the call that was refused memory.
    outcome: Result<usize, usize>,
    units: Vec<u16>,
}

/// Runs `cases` random lists. Returns whether the library agrees with the model on all of them.
pub fn run(seed: u64, cases: u64) -> bool {
    let mut random = Random::new(seed ^ 0x5EED);
    let (mut stopped, mut refused) = (0, 0);
    for done in 0..cases.div_ceil(BATCH) {
        let count = BATCH.min(cases - done * BATCH);
        progress(&format!(
            "lists of building calls: {} of {cases} ",
            done * BATCH
        ));
        let batch: Vec<Case> = (0..count).map(|_| Case::new(&mut random)).collect();
        let scripts: Vec<Vec<u8>> = batch.iter().map(|case| encode(&case.script())).collect();
        let transcripts = ours::run_all(&scripts);
        for (number, (case, transcript)) in (1..).zip(batch.iter().zip(&transcripts)) {
            match case.outcome_in(transcript) {
                Ok(Err(_)) => stopped += 1,
                Ok(Ok(count)) => refused += u64::from(count > 0),
                Err(why) => {
                    say!(
                        "\nNOT AS THE MODEL SAYS at list {}: {why}",
                        done * BATCH + number
                    );
                    case.script().iter().for_each(|call| say!("    {call}"));
                    say!("the proved library:\n{transcript}");
                    return false;
                }
            }
        }
    }
    say!("{cases} random lists of building calls: as the model says; {stopped} were stopped, in {refused} others truncations were refused");
    true
}

impl Case {
    fn new(random: &mut Random) -> Case {
        let short = |random: &mut Random| -> Vec<u16> {
            let units = generate::operand(random, Kind::Units);
            match units {
                Operand::Units(units) => units.into_iter().take(24).collect(),
                _ => Vec::new(),
            }
        };
        let points = generate::operand(random, Kind::Points);
        let Operand::Points(points) = points else {
            unreachable!("points were asked for");
        };
        let count = random.between(0, 24);
        Case {
            start: short(random),
            pieces: [short(random), short(random), short(random)],
            points: points
                .into_iter()
                .filter(|p| *p <= 0x10FFFF)
                .take(12)
                .collect(),
            builds: (0..count)
                .map(|_| generate::build(random))
                .filter(is_call)
                .collect(),
            spare: random.pick(&[0, 0, 1, 2, 3, 4, 5, 8, 13, 21, 60]),
            grants: random.pick(&[UNBOUNDED, 0, 0, 0, 1, 2, 3]),
        }
    }

    fn script(&self) -> Vec<Call> {
        let mut calls = vec![generate::from_units(0, &self.start)];
        for (register, piece) in (1..).zip(&self.pieces) {
            calls.push(generate::from_units(register, piece));
        }
        let operands = vec![
            Operand::Register(0),
            Operand::Number(self.spare),
            Operand::Number(self.grants),
            Operand::Points(self.points.clone()),
            Operand::Builds(self.builds.clone()),
        ];
        calls.push(Call::new(Opcode::ApplyAll, operands));
        calls
    }

    /// The outcome in a transcript, or why it is not the model's.
    fn outcome_in(&self, transcript: &str) -> Result<Result<usize, usize>, String> {
        let result = Applied::read(transcript).ok_or("it is none")?;
        self.check(&result)?;
        Ok(result.outcome)
    }

    /// Returns an error that says how the outcome differs from the model's.
    fn check(&self, result: &Applied) -> Result<(), String> {
        let done = match result.outcome {
            Ok(_) => self.builds.len(),
            Err(done) => done,
        };
        let mut units = self.start.clone();
        let mut refused = 0;
        for build in self.builds.get(..done).ok_or("it stopped after the end")? {
            refused += usize::from(!self.apply(build, &mut units));
        }
        let expected = self.stops_at();
        match result.outcome {
            Ok(count) if count != refused => Err(format!("{refused} truncations are refused")),
            Ok(_) if expected.is_some() && self.grants == 0 => {
                Err(format!("call {expected:?} has no room"))
            }
            Ok(_) if units != result.units => Err(format!("the units are {units:04X?}")),
            Ok(_) => Ok(()),
            Err(_) => self.check_stopped(done, expected, &units, &result.units),
        }
    }

    /// Checks a stopped list. With no grants it stops at the first call that does not fit, else at that or a later one,
    /// never at a truncation. Its units are the ones before the call, plus some first code points of an extension.
    fn check_stopped(
        &self,
        done: usize,
        expected: Option<usize>,
        before: &[u16],
        found: &[u16],
    ) -> Result<(), String> {
        match expected {
            None => return Err("each call has room".to_owned()),
            Some(_) if self.grants == UNBOUNDED => return Err("memory is not refused".to_owned()),
            Some(first) if self.grants == 0 && done != first => {
                return Err(format!("call {first} is the first without room"))
            }
            Some(first) if done < first => return Err(format!("call {done} has room")),
            Some(_) => {}
        }
        let most = match self.builds.get(done) {
            None => return Err("no call is there".to_owned()),
            Some(Build::Truncate(_) | Build::TruncateUnits(_)) => {
                return Err("a truncation requests no memory".to_owned())
            }
            Some(Build::Extend(count)) => usize::from(*count).min(self.points.len()),
            Some(_) => 0,
        };
        let begins = |taken: usize| [before, &units_of(&self.points[..taken])].concat() == found;
        match (0..=most).any(begins) {
            true => Ok(()),
            false => Err(format!("the units before are {before:04X?}")),
        }
    }

    /// Applies a call. Returns false for a truncation that is off a boundary or past the end.
    fn apply(&self, build: &Build, units: &mut Vec<u16>) -> bool {
        match build {
            Build::Push(value) | Build::PushChar(value) => units.extend(units_of(&[*value])),
            Build::PushStr(text) => units.extend(text.encode_utf16()),
            Build::PushWtf8(0) => units.extend(&self.start),
            Build::PushWtf8(piece) => units.extend(&self.pieces[usize::from(*piece) - 1]),
            Build::Extend(count) => {
                let count = usize::from(*count).min(self.points.len());
                units.extend(units_of(&self.points[..count]));
            }
            Build::Reserve(_) => {}
            Build::Truncate(position) => return truncate(units, *position),
            Build::TruncateUnits(count) => {
                let is_there = usize::from(*count) <= units.len();
                units.truncate(usize::from(*count));
                return is_there;
            }
        }
        true
    }

    /// The index of the first call that does not fit in the capacity at the start.
    fn stops_at(&self) -> Option<usize> {
        let capacity = usize::from(byte_len(&self.start)) + usize::from(self.spare);
        let mut units = self.start.clone();
        self.builds.iter().position(|build| {
            let len = usize::from(byte_len(&units));
            self.apply(build, &mut units);
            let needed = match build {
                Build::Reserve(additional) => len + usize::from(*additional),
                Build::Extend(count) => len + usize::from(*count).min(self.points.len()),
                _ => 0,
            };
            needed.max(usize::from(byte_len(&units))) > capacity
        })
    }
}

/// Whether a call's value is a code point and, for `PushChar`, a scalar value.
fn is_call(build: &Build) -> bool {
    match build {
        Build::Push(value) => *value <= 0x10FFFF,
        Build::PushChar(value) => char::from_u32(*value).is_some(),
        _ => true,
    }
}

/// The code units of code points. A surrogate is its own unit.
fn units_of(points: &[u32]) -> Vec<u16> {
    let mut units = Vec::new();
    for point in points {
        match point.checked_sub(0x10000) {
            Some(offset) => units.extend([
                0xD800 + (offset >> 10) as u16,
                0xDC00 + (offset & 0x3FF) as u16,
            ]),
            None => units.push(*point as u16),
        }
    }
    units
}

/// Keeps the units of the code points before a byte position, if it is a boundary. Returns whether it is.
fn truncate(units: &mut Vec<u16>, position: u16) -> bool {
    let mut count = 0;
    let mut bytes = 0;
    while bytes < position && count < units.len() {
        let is_pair = matches!(units[count..], [0xD800..=0xDBFF, 0xDC00..=0xDFFF, ..]);
        let width = if is_pair { 2 } else { 1 };
        bytes += byte_len(&units[count..count + width]);
        count += width;
    }
    if bytes == position {
        units.truncate(count);
    }
    bytes == position
}

impl Applied {
    /// Reads a transcript whose last three lines are from `apply_all`.
    fn read(transcript: &str) -> Option<Applied> {
        let mut lines = transcript.lines().rev().skip(1);
        let units = lines.next()?.strip_prefix("units")?;
        let units: Result<Vec<u16>, _> = units
            .split_whitespace()
            .map(|unit| u16::from_str_radix(unit, 16))
            .collect();
        let outcome = lines.next()?;
        let outcome = match outcome.strip_prefix("stopped at ") {
            Some(done) => Err(done.parse().ok()?),
            None => Ok(outcome
                .strip_prefix("all, ")?
                .strip_suffix(" refused")?
                .parse()
                .ok()?),
        };
        Some(Applied {
            outcome,
            units: units.ok()?,
        })
    }
}
