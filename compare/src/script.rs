//! Scripts: lists of calls, their encoding in bytes, and their text for a reader.

use std::fmt;

/// The kind of an operand. Numbers are little-endian.
#[derive(Clone, Copy, PartialEq)]
pub enum Kind {
    /// One of the four strings: a byte from 0 to 3.
    Register,
    /// A position, capacity or count: two bytes.
    Number,
    /// A value of four bytes, which may be a code point.
    Value,
    /// A length of one byte, then UTF-8.
    Text,
    /// A count of one byte, then two bytes for each unit.
    Units,
    /// A count of one byte, then four bytes for each value. Values that are not code points are left out.
    Points,
    /// A count of one byte, then a byte for each step.
    Steps,
    /// A count of one byte, then each call: 0 `Push` value, 1 `PushChar` value, 2 `PushStr` text, 3 `PushWtf8`
    /// register, 4 `Extend` number of the points before, 5 `Reserve` number, 6 `Truncate` number, 7 `TruncateUnits`
    /// number.
    Builds,
}

use Kind::{Builds, Number, Points, Register, Steps, Text, Units, Value};

/// The opcodes of the calls on strings and on the indexed string. `crates/compare_scripts/src/opcodes.rt` says what each call does.
#[derive(Clone, Copy, Debug, PartialEq)]
pub enum Opcode {
    New = 0,
    WithCapacity = 1,
    FromString = 2,
    FromStr = 3,
    FromIllFormedUtf16 = 4,
    FromIter = 5,
    FromIterCodePoints = 6,
    Clone = 7,
    Reserve = 8,
    Push = 9,
    PushChar = 10,
    PushStr = 11,
    PushWtf8 = 12,
    Extend = 13,
    ExtendCodePoints = 14,
    Truncate = 15,
    Slice = 16,
    SliceFrom = 17,
    SliceTo = 18,
    IntoString = 19,
    IntoStringLossy = 20,
    AsciiByteAt = 21,
    Boundaries = 22,
    CodePoints = 23,
    ToIllFormedUtf16 = 24,
    AsStr = 25,
    ToStringLossy = 26,
    Comparisons = 27,
    Hash = 28,
    Debug = 29,
    ViewFromStr = 30,
    CodePoint = 31,
    CodePointComparisons = 32,
    TruncateUnits = 33,
    ReadSlice = 34,
    CompareSlices = 35,
    PushSlice = 36,
    ExtendHinted = 37,
    FromIterHinted = 38,
    Apply = 39,
    ApplyAll = 40,
    UnitAt = 41,
    SliceUnits = 42,
    CmpUnits = 43,
    AppendUnits = 44,
    ShrinkToFit = 45,
    Marks = 46,
    Left = 47,
    PushIllFormedUtf16 = 48,
    PushUnit = 49,
    WriteUnits = 50,
    PushUnitsOf = 51,
    IndexedNew = 128,
    IndexedWithCapacity = 129,
    IndexedFromUnits = 130,
    FromBuf = 131,
    IndexedClone = 132,
    MarkUnits = 133,
    IndexedReserve = 134,
    IndexedPush = 135,
    IndexedPushUnit = 136,
    IndexedPushChar = 137,
    IndexedPushStr = 138,
    IndexedPushUnits = 139,
    IndexedPushWtf8 = 140,
    IndexedTruncate = 141,
    IndexedTruncateUnits = 142,
    IndexedClear = 143,
    IndexedPushSlice = 144,
    IndexedUnitAt = 145,
    CopyUnits = 146,
    UnitsFrom = 147,
    PositionAt = 148,
    UnitBefore = 149,
    IndexedComparisons = 150,
    IndexedHash = 151,
    IndexedDebug = 152,
    IntoBuf = 153,
    IndexedPushUnitSlice = 154,
    IndexedShrinkToFit = 155,
    IndexedReplaceUnits = 156,
    IndexedReplace = 157,
}

/// The first opcode of a call on texts. `javascript/text_calls.js` makes these calls.
pub const FIRST_OF_TEXTS: u8 = 64;

/// The first opcode of a call on the indexed string.
pub const FIRST_OF_INDEXED: u8 = 128;

/// The calls on strings with the kinds of their operands, in the order of the opcodes.
pub const CALLS: [(Opcode, &[Kind]); 52] = [
    (Opcode::New, &[Register]),
    (Opcode::WithCapacity, &[Register, Number]),
    (Opcode::FromString, &[Register, Text]),
    (Opcode::FromStr, &[Register, Text]),
    (Opcode::FromIllFormedUtf16, &[Register, Units]),
    (Opcode::FromIter, &[Register, Points]),
    (Opcode::FromIterCodePoints, &[Register, Register, Number]),
    (Opcode::Clone, &[Register, Register]),
    (Opcode::Reserve, &[Register, Number]),
    (Opcode::Push, &[Register, Value]),
    (Opcode::PushChar, &[Register, Value]),
    (Opcode::PushStr, &[Register, Text]),
    (Opcode::PushWtf8, &[Register, Register]),
    (Opcode::Extend, &[Register, Points]),
    (Opcode::ExtendCodePoints, &[Register, Register, Number]),
    (Opcode::Truncate, &[Register, Number]),
    (Opcode::Slice, &[Register, Register, Number, Number]),
    (Opcode::SliceFrom, &[Register, Register, Number]),
    (Opcode::SliceTo, &[Register, Register, Number]),
    (Opcode::IntoString, &[Register]),
    (Opcode::IntoStringLossy, &[Register]),
    (Opcode::AsciiByteAt, &[Register, Number]),
    (Opcode::Boundaries, &[Register]),
    (Opcode::CodePoints, &[Register, Steps]),
    (Opcode::ToIllFormedUtf16, &[Register, Steps]),
    (Opcode::AsStr, &[Register]),
    (Opcode::ToStringLossy, &[Register]),
    (Opcode::Comparisons, &[Register, Register]),
    (Opcode::Hash, &[Register]),
    (Opcode::Debug, &[Register]),
    (Opcode::ViewFromStr, &[Text]),
    (Opcode::CodePoint, &[Value]),
    (Opcode::CodePointComparisons, &[Value, Value]),
    (Opcode::TruncateUnits, &[Register, Number]),
    (Opcode::ReadSlice, &[Register, Number, Number]),
    (
        Opcode::CompareSlices,
        &[Register, Number, Number, Register, Number, Number],
    ),
    (Opcode::PushSlice, &[Register, Register, Number, Number]),
    (Opcode::ExtendHinted, &[Register, Number, Points]),
    (Opcode::FromIterHinted, &[Register, Number, Points]),
    (Opcode::Apply, &[Register, Points, Builds]),
    (
        Opcode::ApplyAll,
        &[Register, Number, Number, Points, Builds],
    ),
    (Opcode::UnitAt, &[Register]),
    (Opcode::SliceUnits, &[Register, Number, Number]),
    (Opcode::CmpUnits, &[Register, Register]),
    (Opcode::AppendUnits, &[Register, Units]),
    (Opcode::ShrinkToFit, &[Register]),
    (Opcode::Marks, &[Register]),
    (Opcode::Left, &[Register]),
    (Opcode::PushIllFormedUtf16, &[Register, Units]),
    (Opcode::PushUnit, &[Register, Number]),
    (Opcode::WriteUnits, &[Register, Units]),
    (Opcode::PushUnitsOf, &[Register, Register]),
];

/// The calls on the indexed string with the kinds of their operands, in the order of the opcodes.
pub const INDEXED_CALLS: [(Opcode, &[Kind]); 30] = [
    (Opcode::IndexedNew, &[]),
    (Opcode::IndexedWithCapacity, &[Number]),
    (Opcode::IndexedFromUnits, &[Units]),
    (Opcode::FromBuf, &[Register]),
    (Opcode::IndexedClone, &[]),
    (Opcode::MarkUnits, &[]),
    (Opcode::IndexedReserve, &[Number]),
    (Opcode::IndexedPush, &[Value]),
    (Opcode::IndexedPushUnit, &[Number]),
    (Opcode::IndexedPushChar, &[Value]),
    (Opcode::IndexedPushStr, &[Text]),
    (Opcode::IndexedPushUnits, &[Units]),
    (Opcode::IndexedPushWtf8, &[Register]),
    (Opcode::IndexedTruncate, &[Number]),
    (Opcode::IndexedTruncateUnits, &[Number]),
    (Opcode::IndexedClear, &[]),
    (Opcode::IndexedPushSlice, &[Register, Number, Number]),
    (Opcode::IndexedUnitAt, &[Number]),
    (Opcode::CopyUnits, &[Number, Number, Units]),
    (Opcode::UnitsFrom, &[Number, Steps]),
    (Opcode::PositionAt, &[Number]),
    (Opcode::UnitBefore, &[Number]),
    (Opcode::IndexedComparisons, &[Register]),
    (Opcode::IndexedHash, &[]),
    (Opcode::IndexedDebug, &[]),
    (Opcode::IntoBuf, &[Register]),
    (Opcode::IndexedPushUnitSlice, &[Register, Number, Number]),
    (Opcode::IndexedShrinkToFit, &[]),
    (Opcode::IndexedReplaceUnits, &[Number, Number, Units]),
    (Opcode::IndexedReplace, &[Number, Number, Register]),
];

/// The number of calls, the first ones, among which the random scripts of the fixed list choose.
pub const RANDOM_CALLS: usize = 46;

/// More calls of random scripts. The random scripts of the fixed list do without these, and stay as they are.
pub const CALLS_BETWEEN: [Opcode; 4] = [
    Opcode::PushIllFormedUtf16,
    Opcode::PushUnit,
    Opcode::WriteUnits,
    Opcode::PushUnitsOf,
];

// The index of a call in its table is its opcode, less the first opcode of the table.
const _: () = {
    let mut index = 0;
    while index < CALLS.len() {
        assert!(CALLS[index].0 as usize == index);
        index += 1;
    }
    index = 0;
    while index < INDEXED_CALLS.len() {
        assert!(INDEXED_CALLS[index].0 as usize == index + FIRST_OF_INDEXED as usize);
        index += 1;
    }
};

impl Opcode {
    /// The opcode of a byte, if there is one.
    pub fn from_byte(byte: u8) -> Option<Opcode> {
        let call = match byte.checked_sub(FIRST_OF_INDEXED) {
            Some(index) => INDEXED_CALLS.get(usize::from(index)),
            None => CALLS.get(usize::from(byte)),
        };
        call.map(|(opcode, _)| *opcode)
    }

    /// The kinds of the operands.
    pub fn kinds(self) -> &'static [Kind] {
        match (self as u8).checked_sub(FIRST_OF_INDEXED) {
            Some(index) => INDEXED_CALLS[usize::from(index)].1,
            None => CALLS[self as usize].1,
        }
    }
}

/// The number of grants that means no limit.
pub const UNBOUNDED: u16 = 0xFFFF;

#[derive(Clone, PartialEq)]
pub enum Operand {
    Register(u8),
    Number(u16),
    Value(u32),
    Text(String),
    Units(Vec<u16>),
    Points(Vec<u32>),
    Steps(Vec<Step>),
    Builds(Vec<Build>),
}

/// A step on an iterator. `crates/compare_scripts/src/opcodes.rt` says what each does.
#[derive(Clone, Copy, Debug, PartialEq)]
pub enum Step {
    Next = 0,
    SizeHint = 1,
    Drain = 2,
    Replace = 3,
    Nth = 4,
    Last = 5,
    Skip = 6,
    Collect = 7,
}

impl Step {
    /// The steps by their bytes.
    pub const ALL: [Step; 8] = [
        Step::Next,
        Step::SizeHint,
        Step::Drain,
        Step::Replace,
        Step::Nth,
        Step::Last,
        Step::Skip,
        Step::Collect,
    ];
}

/// A building call in a list.
#[derive(Clone, Debug, PartialEq)]
pub enum Build {
    Push(u32),
    PushChar(u32),
    PushStr(String),
    /// The string of a register, as it was before the list.
    PushWtf8(u8),
    /// By this number of the list's points, from the first.
    Extend(u16),
    Reserve(u16),
    Truncate(u16),
    TruncateUnits(u16),
}

impl Build {
    fn encode(&self, out: &mut Vec<u8>) {
        match self {
            Build::Push(value) => put(out, 0, &value.to_le_bytes()),
            Build::PushChar(value) => put(out, 1, &value.to_le_bytes()),
            Build::PushStr(text) => {
                put(out, 2, &[text.len() as u8]);
                out.extend(text.as_bytes());
            }
            Build::PushWtf8(register) => put(out, 3, &[*register]),
            Build::Extend(count) => put(out, 4, &count.to_le_bytes()),
            Build::Reserve(additional) => put(out, 5, &additional.to_le_bytes()),
            Build::Truncate(position) => put(out, 6, &position.to_le_bytes()),
            Build::TruncateUnits(count) => put(out, 7, &count.to_le_bytes()),
        }
    }
}

fn put(out: &mut Vec<u8>, kind: u8, operand: &[u8]) {
    out.push(kind);
    out.extend(operand);
}

#[derive(Clone, PartialEq)]
pub struct Call {
    pub opcode: Opcode,
    pub operands: Vec<Operand>,
}

impl Call {
    pub fn new(opcode: Opcode, operands: Vec<Operand>) -> Call {
        Call { opcode, operands }
    }

    fn encode(&self, out: &mut Vec<u8>) {
        out.push(self.opcode as u8);
        for operand in &self.operands {
            match operand {
                Operand::Register(register) => out.push(*register),
                Operand::Number(number) => out.extend(number.to_le_bytes()),
                Operand::Value(value) => out.extend(value.to_le_bytes()),
                Operand::Text(text) => {
                    out.push(text.len() as u8);
                    out.extend(text.as_bytes());
                }
                Operand::Units(units) => {
                    out.push(units.len() as u8);
                    out.extend(units.iter().flat_map(|unit| unit.to_le_bytes()));
                }
                Operand::Points(points) => {
                    out.push(points.len() as u8);
                    out.extend(points.iter().flat_map(|point| point.to_le_bytes()));
                }
                Operand::Steps(steps) => {
                    out.push(steps.len() as u8);
                    out.extend(steps.iter().map(|step| *step as u8));
                }
                Operand::Builds(builds) => {
                    out.push(builds.len() as u8);
                    builds.iter().for_each(|build| build.encode(out));
                }
            }
        }
    }
}

pub fn encode(calls: &[Call]) -> Vec<u8> {
    let mut out = Vec::new();
    for call in calls {
        call.encode(&mut out);
    }
    out
}

impl fmt::Display for Call {
    fn fmt(&self, f: &mut fmt::Formatter<'_>) -> fmt::Result {
        write!(f, "{:?}", self.opcode)?;
        for operand in &self.operands {
            match operand {
                Operand::Register(register) => write!(f, " s{register}")?,
                Operand::Number(number) => write!(f, " {number}")?,
                Operand::Value(value) => write!(f, " U+{value:04X}")?,
                Operand::Text(text) => write!(f, " {text:?}")?,
                Operand::Units(units) => write!(f, " {units:04X?}")?,
                Operand::Points(points) => write!(f, " {points:04X?}")?,
                Operand::Steps(steps) => {
                    write!(f, " {steps:?}")?;
                }
                Operand::Builds(builds) => write!(f, " {builds:02X?}")?,
            }
        }
        Ok(())
    }
}
