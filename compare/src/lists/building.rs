//! Lists of building calls, and of code points under false size hints.

use crate::lists::generate::from_units;
use crate::script::{Build, Call, Opcode, Operand, UNBOUNDED};

/// Lower size hints, false and true.
const HINTS: [u16; 6] = [0, 1, 2, 5, 7, 1000];

fn alphabet() -> Vec<Build> {
    vec![
        Build::Push(0x61),
        Build::Push(0xDCA9),
        Build::Push(0xD83D),
        Build::PushChar(0xE9),
        Build::PushStr("a\u{1F4A9}".to_owned()),
        Build::PushWtf8(1),
        Build::PushWtf8(2),
        Build::Extend(2),
        Build::Reserve(5),
        Build::Truncate(0),
        Build::Truncate(1),
        Build::Truncate(3),
        Build::Truncate(4),
        Build::TruncateUnits(1),
        Build::TruncateUnits(3),
    ]
}

/// All lists of up to three calls: by `apply`, by `apply_all`, and by `apply_all` with no memory but spare capacity.
pub fn lists_of_calls() -> Vec<Vec<Call>> {
    let alphabet = alphabet();
    let mut lists: Vec<Vec<Build>> = vec![Vec::new()];
    let mut last = lists.clone();
    for _ in 0..3 {
        last = last
            .iter()
            .flat_map(|list| {
                let longer = |build: &Build| [&list[..], &[build.clone()]].concat();
                alphabet.iter().map(longer).collect::<Vec<_>>()
            })
            .collect();
        lists.extend(last.iter().cloned());
    }
    lists.iter().map(|list| calls_of(list)).collect()
}

/// The most points of an extension in `extensions`.
const MOST_POINTS: u16 = 40;

/// Points at the edges of encoded lengths, and surrogates.
const OTHERS: [u32; 7] = [0x7F, 0x80, 0x7FF, 0x800, 0x10000, 0xD83D, 0xDCA9];

/// Extensions of the empty string and of a lead surrogate by up to `MOST_POINTS` letters, with one of `OTHERS` in place
/// of the letter at each index.
pub fn extensions() -> Vec<Vec<Call>> {
    let of_other = |other| (0..=MOST_POINTS).map(move |count| extended_at_each_index(count, other));
    OTHERS.into_iter().flat_map(of_other).collect()
}

fn extended_at_each_index(count: u16, other: u32) -> Vec<Call> {
    let extended = |index| extended(count, index, other);
    (0..count.max(1)).flat_map(extended).collect()
}

/// Extends by `count` letters, of which the one at `index`, if there is one, is `other`.
fn extended(count: u16, index: u16, other: u32) -> Vec<Call> {
    let point = |at| if at == index { other } else { 0x61 };
    let points = Operand::Points((0..count).map(point).collect());
    let mut calls = Vec::new();
    for start in [&[][..], &[0xD83D]] {
        let builds = Operand::Builds(vec![Build::Extend(count)]);
        calls.push(from_units(0, start));
        calls.push(Call::new(
            Opcode::Apply,
            vec![Operand::Register(0), points.clone(), builds],
        ));
    }
    calls
}

/// Every 61st of the lists of calls, every eighth of the false hints and the extensions by 17 points, for the fixed list
/// that the gate replays.
pub fn chosen() -> Vec<Vec<Call>> {
    let mut scripts: Vec<Vec<Call>> = lists_of_calls().into_iter().step_by(61).collect();
    scripts.extend(false_hints().into_iter().skip(3).step_by(8));
    scripts.extend(OTHERS.map(|other| extended_at_each_index(17, other)));
    scripts
}

fn calls_of(list: &[Build]) -> Vec<Call> {
    let mut calls = vec![
        from_units(1, &[0xDCA9, 0x61]),
        from_units(2, &[0x20AC, 0xD83D]),
    ];
    let points = Operand::Points(vec![0xDC00, 0xD800]);
    let builds = Operand::Builds(list.to_vec());
    for start in [&[0xD83D][..], &[0x61, 0xE9]] {
        calls.push(from_units(0, start));
        let operands = vec![Operand::Register(0), points.clone(), builds.clone()];
        calls.push(Call::new(Opcode::Apply, operands));
        for (spare, grants) in [(0, UNBOUNDED), (0, 0), (1, 0), (2, 0), (3, 0), (6, 0)] {
            calls.push(from_units(0, start));
            calls.push(Call::new(
                Opcode::ApplyAll,
                vec![
                    Operand::Register(0),
                    Operand::Number(spare),
                    Operand::Number(grants),
                    points.clone(),
                    builds.clone(),
                ],
            ));
        }
    }
    calls
}

/// Code points under each of `HINTS`: collected, and appended to the empty string, a letter and a lead surrogate.
pub fn false_hints() -> Vec<Vec<Call>> {
    let all = [0x61, 0xD83D, 0xDCA9, 0xDC00, 0x10000, 0xE9, 0x20AC, 0xD800];
    let mut scripts = Vec::new();
    for low in HINTS {
        for count in [0, 1, 2, 3, 5, 8, 50, 250] {
            let points: Vec<u32> = all.iter().copied().cycle().take(count).collect();
            let hinted = |opcode| {
                let points = Operand::Points(points.clone());
                Call::new(
                    opcode,
                    vec![Operand::Register(0), Operand::Number(low), points],
                )
            };
            let mut calls = vec![hinted(Opcode::FromIterHinted)];
            for start in [&[][..], &[0x61], &[0xD83D]] {
                calls.push(from_units(0, start));
                calls.push(hinted(Opcode::ExtendHinted));
            }
            scripts.push(calls);
        }
    }
    scripts
}
