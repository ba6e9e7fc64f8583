//! The calls on the indexed string, over a string of the crate, which counts units from the front by its iterator.

use super::marks::boundaries;
use super::together::{first_units, slice_text};
use super::*;

impl Machine {
    pub(super) fn call_on_indexed(&mut self, opcode: Opcode, reader: &mut Reader<'_>) {
        match opcode {
            Opcode::IndexedNew => self.put_indexed(Wtf8Buf::new()),
            Opcode::IndexedWithCapacity => {
                let capacity = reader.number();
                let string = Wtf8Buf::with_capacity(capacity);
                self.line(&format!("room {}", capacity <= string.capacity()));
                self.put_indexed(string);
            }
            Opcode::IndexedFromUnits => {
                self.put_indexed(Wtf8Buf::from_ill_formed_utf16(&reader.units()));
            }
            Opcode::FromBuf => {
                let string = self.copy(reader);
                self.put_indexed(string);
            }
            // The crate has neither marks nor `shrink_to_fit`, which changes no byte, and a clone is an equal string.
            Opcode::IndexedClone | Opcode::MarkUnits | Opcode::IndexedShrinkToFit => {
                self.show_indexed();
            }
            Opcode::IndexedReserve => {
                let additional = reader.number();
                self.indexed.reserve(additional);
                let spare = self.indexed.capacity() - self.indexed.len();
                self.line(&format!("room {}", additional <= spare));
                self.show_indexed();
            }
            Opcode::IndexedPush => match CodePoint::from_u32(reader.value()) {
                Some(point) => self.push_to_indexed(|string| string.push(point)),
                None => self.line("no code point"),
            },
            Opcode::IndexedPushUnit => {
                let point = CodePoint::from_u32(u32::from(reader.unit()));
                let point = point.expect("each unit is the number of a code point");
                self.push_to_indexed(|string| string.push(point));
            }
            Opcode::IndexedPushChar => match char::from_u32(reader.value()) {
                Some(c) => self.push_to_indexed(|string| string.push_char(c)),
                None => self.line("no character"),
            },
            Opcode::IndexedPushStr => {
                let text = reader.text();
                self.push_to_indexed(|string| string.push_str(text));
            }
            Opcode::IndexedPushUnits => {
                let piece = Wtf8Buf::from_ill_formed_utf16(&reader.units());
                self.push_to_indexed(|string| string.push_wtf8(&piece));
            }
            Opcode::IndexedPushWtf8 => {
                let piece = self.copy(reader);
                self.push_to_indexed(|string| string.push_wtf8(&piece));
            }
            Opcode::IndexedPushUnitSlice => self.push_slice_to_indexed(reader),
            Opcode::IndexedTruncate => {
                let position = reader.number();
                let front = result_of(|| owned(self.indexed.slice_to(position)));
                self.cut_indexed(front);
            }
            Opcode::IndexedTruncateUnits => {
                let front = first_units(&self.indexed, reader.number());
                self.cut_indexed(front);
            }
            Opcode::IndexedClear => self.cut_indexed(Some(Wtf8Buf::new())),
            Opcode::IndexedReplaceUnits => {
                let (begin, end) = (reader.number(), reader.number());
                let units = reader.units();
                self.replace_units(begin, end, units);
            }
            Opcode::IndexedReplace => {
                let (begin, end) = (reader.number(), reader.number());
                let units = self.copy(reader).to_ill_formed_utf16().collect();
                self.replace_units(begin, end, units);
            }
            Opcode::IndexedPushSlice => self.push_indexed_slice(reader),
            Opcode::IndexedUnitAt => {
                let unit = self.indexed.to_ill_formed_utf16().nth(reader.number());
                let unit = unit.map_or("-".to_owned(), unit_text);
                self.line(&format!("unit {unit}"));
            }
            Opcode::CopyUnits => self.copy_units(reader),
            Opcode::UnitsFrom => self.units_from(reader),
            Opcode::PositionAt => self.position_at(reader.number()),
            Opcode::UnitBefore => self.unit_before(reader.number()),
            Opcode::IndexedComparisons => {
                let other = self.copy(reader);
                self.comparisons("indexed", &self.indexed.clone(), &other);
            }
            Opcode::IndexedHash => {
                let fed = hex(&fed_by(&self.indexed));
                self.line(&format!("fed {fed}"));
            }
            Opcode::IndexedDebug => {
                let text = hex(debug_text(&self.indexed).as_bytes());
                self.line(&format!("indexed: {text}"));
            }
            Opcode::IntoBuf => {
                let string = std::mem::replace(&mut self.indexed, Wtf8Buf::new());
                self.put(reader.register(), string);
            }
            _ => unreachable!("{opcode:?} is a call on the strings"),
        }
    }

    fn put_indexed(&mut self, string: Wtf8Buf) {
        self.indexed = string;
        self.show_indexed();
    }

    fn show_indexed(&mut self) {
        let text = &self.indexed;
        let units = text.to_ill_formed_utf16().count();
        let line = format!("indexed {units} units {}: {}", text.len(), dump(text));
        self.line(&line);
    }

    fn push_to_indexed(&mut self, push: impl FnOnce(&mut Wtf8Buf)) {
        push(&mut self.indexed);
        self.show_indexed();
    }

    /// Replaces the string by a front of it. There is none at a position that is no boundary, or past the end.
    fn cut_indexed(&mut self, front: Option<Wtf8Buf>) {
        match front {
            Some(front) => {
                self.line("room kept true");
                self.put_indexed(front);
            }
            None => self.line("refused"),
        }
    }

    /// Makes the string of all units anew, as the crate changes none in the middle.
    fn replace_units(&mut self, begin: usize, end: usize, units: Vec<u16>) {
        let mut all = self.indexed_units();
        if all.get(begin..end).is_none() {
            return self.line("refused");
        }
        all.splice(begin..end, units);
        self.put_indexed(Wtf8Buf::from_ill_formed_utf16(&all));
    }

    fn indexed_units(&self) -> Vec<u16> {
        self.indexed.to_ill_formed_utf16().collect()
    }

    /// Pushes units of a string one by one, as the crate has no slice of units.
    fn push_slice_to_indexed(&mut self, reader: &mut Reader<'_>) {
        let units: Vec<u16> = self.copy(reader).to_ill_formed_utf16().collect();
        let (begin, end) = (reader.number(), reader.number());
        let Some(units) = units.get(begin..end) else {
            return self.line("refused");
        };
        for unit in units {
            let point = CodePoint::from_u32(u32::from(*unit));
            self.indexed
                .push(point.expect("each unit is the number of a code point"));
        }
        self.show_indexed();
    }

    /// Pushes the units one by one, as the crate has no slice of units.
    fn push_indexed_slice(&mut self, reader: &mut Reader<'_>) {
        let register = reader.register();
        let units = self.indexed_units();
        let (begin, end) = (reader.number(), reader.number());
        let Some(slice) = slice_text(&units, begin, end) else {
            return self.line("refused");
        };
        self.line(&slice);
        for unit in &units[begin..end] {
            let point = CodePoint::from_u32(u32::from(*unit));
            self.strings[register].push(point.expect("each unit is the number of a code point"));
        }
        self.show(register);
    }

    /// The units from one index to another, and after them the units that a slice has past its end.
    fn copy_units(&mut self, reader: &mut Reader<'_>) {
        let (begin, end) = (reader.number(), reader.number());
        let after = reader.units();
        let units = self.indexed_units();
        let Some(units) = units.get(begin..end) else {
            return self.line("refused");
        };
        let units: Vec<String> = [units, &after]
            .concat()
            .into_iter()
            .map(unit_text)
            .collect();
        let line = [&["copied".to_owned()], &units[..]].concat();
        self.line(&line.join(" "));
    }

    fn units_from(&mut self, reader: &mut Reader<'_>) {
        let (index, steps) = (reader.number(), reader.steps());
        let string = self.indexed.clone();
        let mut units = Units::of(&string);
        for _ in 0..index {
            if units.next_text().is_none() {
                return self.line("refused");
            }
        }
        write!(self.out, "units from").unwrap();
        walk(&mut self.out, units, &steps);
        self.line("");
    }

    fn position_at(&mut self, index: usize) {
        if self.indexed_units().len() < index {
            return self.line("refused");
        }
        let boundaries = boundaries(&self.indexed);
        let before = boundaries.iter().rfind(|(_, units)| *units <= index);
        let position = before.map_or(0, |(position, _)| *position);
        self.line(&format!("position {position}"));
    }

    fn unit_before(&mut self, position: usize) {
        let boundaries = boundaries(&self.indexed);
        let before = boundaries
            .iter()
            .rfind(|(boundary, _)| *boundary <= position);
        let units = before.map_or(0, |(_, units)| *units);
        self.line(&format!("units before {units}"));
    }
}
