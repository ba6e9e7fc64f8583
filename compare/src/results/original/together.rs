//! Slices inside a string, false size hints, and lists of building calls.

use super::*;

impl Machine {
    /// The crate cannot cut by units, so this makes a new string of the first units.
    pub fn truncate_units(&mut self, reader: &mut Reader<'_>) {
        let register = reader.register();
        let count = reader.number();
        match first_units(&self.strings[register], count) {
            Some(string) => {
                self.line("room kept true");
                self.put(register, string);
            }
            None => self.line("refused"),
        }
    }

    pub fn units_by_index(&mut self, reader: &mut Reader<'_>) {
        let units: Vec<String> = self.strings[reader.register()]
            .to_ill_formed_utf16()
            .map(unit_text)
            .collect();
        let line = [&[format!("{} units", units.len())], &units[..]].concat();
        self.line(&format!("{} -", line.join(" ")));
    }

    pub fn append_units(&mut self, reader: &mut Reader<'_>) {
        let register = reader.register();
        let mut units = reader.units();
        units.extend(self.strings[register].to_ill_formed_utf16());
        let mut line = vec!["appended".to_owned()];
        line.extend(units.into_iter().map(unit_text));
        self.line(&line.join(" "));
    }

    /// The crate appends units only as a string of their own.
    pub fn push_units(&mut self, reader: &mut Reader<'_>) {
        self.change(reader, |string, reader| {
            string.push_wtf8(&Wtf8Buf::from_ill_formed_utf16(&reader.units()));
        });
    }

    pub fn push_units_of(&mut self, reader: &mut Reader<'_>) {
        let register = reader.register();
        let units: Vec<u16> = self.copy(reader).to_ill_formed_utf16().collect();
        self.strings[register].push_wtf8(&Wtf8Buf::from_ill_formed_utf16(&units));
        self.show(register);
    }

    pub fn push_unit(&mut self, reader: &mut Reader<'_>) {
        self.change(reader, |string, reader| {
            let point = CodePoint::from_u32(u32::from(reader.unit()));
            string.push(point.expect("each unit is the number of a code point"));
        });
    }

    /// The units of the crate's iterator, and after them the units that a slice has past its end.
    pub fn write_units(&mut self, reader: &mut Reader<'_>) {
        let register = reader.register();
        let mut units: Vec<u16> = self.strings[register].to_ill_formed_utf16().collect();
        let mut line = vec![format!("{} written", units.len())];
        units.extend(reader.units());
        line.extend(units.into_iter().map(unit_text));
        self.line(&line.join(" "));
    }

    /// The crate compares code points, so this compares its iterators of units.
    pub fn compare_units(&mut self, reader: &mut Reader<'_>) {
        let [own, other] = [reader.register(), reader.register()];
        let units = |register: usize| self.strings[register].to_ill_formed_utf16();
        let order = name_of(Some(units(own).cmp(units(other))));
        let turned = name_of(Some(units(other).cmp(units(own))));
        self.line(&format!("units {order}, turned {turned}"));
    }

    pub fn slice_units(&mut self, reader: &mut Reader<'_>) {
        let units: Vec<u16> = self.strings[reader.register()]
            .to_ill_formed_utf16()
            .collect();
        let (begin, end) = (reader.number(), reader.number());
        let slice = slice_text(&units, begin, end);
        self.line(slice.as_deref().unwrap_or("refused"));
    }

    pub fn read_slice(&mut self, reader: &mut Reader<'_>) {
        let whole = self.strings[reader.register()].clone();
        let (begin, end) = (reader.number(), reader.number());
        let Some(part) = self.slice_of(&whole, begin, end) else {
            return self.line("refused");
        };
        self.line(&format!("view {}: {}", part.len(), dump(part)));
        self.boundaries(part);
        self.as_text(part);
        self.lossy_text(part);
        self.line(&format!("fed {}", hex(&fed_by(part))));
        self.debug_texts(part);
        write!(self.out, "points").unwrap();
        walk(&mut self.out, part.code_points(), &[]);
        self.line("");
        write!(self.out, "units").unwrap();
        walk(&mut self.out, Units::of(part), &[]);
        self.line("");
    }

    fn slice_of<'w>(&mut self, whole: &'w Wtf8, begin: usize, end: usize) -> Option<&'w Wtf8> {
        let part = result_of(|| whole.slice(begin, end));
        if part.is_none() {
            self.panicked.push("slice");
        }
        part
    }

    pub fn compare_slices(&mut self, reader: &mut Reader<'_>) {
        let own = self.strings[reader.register()].clone();
        let own = self.slice_of(&own, reader.number(), reader.number());
        let other = self.strings[reader.register()].clone();
        let other = self.slice_of(&other, reader.number(), reader.number());
        match (own, other) {
            (Some(own), Some(other)) => self.comparisons("views", own, other),
            _ => self.line("refused"),
        }
    }

    pub fn push_slice(&mut self, reader: &mut Reader<'_>) {
        let register = reader.register();
        let whole = self.strings[reader.register()].clone();
        let Some(part) = self.slice_of(&whole, reader.number(), reader.number()) else {
            return self.line("refused");
        };
        self.strings[register].push_wtf8(part);
        self.show(register);
    }

    pub fn extend_hinted(&mut self, reader: &mut Reader<'_>) {
        self.change(reader, |string, reader| string.extend(hinted(reader)));
    }

    pub fn from_iter_hinted(&mut self, reader: &mut Reader<'_>) {
        self.change(reader, |string, reader| *string = hinted(reader).collect());
    }

    pub fn apply_each(&mut self, reader: &mut Reader<'_>) {
        let register = reader.register();
        let pieces = Pieces {
            points: reader.points(),
            strings: self.strings.clone(),
        };
        for build in reader.builds() {
            let string = &mut self.strings[register];
            let Some(is_done) = pieces.apply(&build, string) else {
                continue;
            };
            self.line(&format!("applied {is_done}"));
            self.show(register);
        }
    }

    /// Applies the calls one by one, and tests truncations first. If no request for memory is granted, the list stops
    /// at the first call whose bytes do not fit.
    pub fn apply_all(&mut self, reader: &mut Reader<'_>) {
        let register = reader.register();
        let mut string = self.strings[register].clone();
        let max_len = match (reader.number(), reader.unit()) {
            (_, UNBOUNDED) => usize::MAX,
            (spare, _) => string.len() + spare,
        };
        let pieces = Pieces {
            points: reader.points(),
            strings: self.strings.clone(),
        };
        let (mut done, mut refused) = (0, 0);
        let mut is_stopped = false;
        for build in reader.builds() {
            if is_stopped {
                continue;
            }
            match pieces.apply_within(&build, &mut string, max_len) {
                Some(Applied::Done(is_done)) => {
                    done += 1;
                    refused += usize::from(!is_done);
                }
                Some(Applied::Stopped) => is_stopped = true,
                None => {}
            }
        }
        match is_stopped {
            true => self.line(&format!("stopped at {done}")),
            false => self.line(&format!("all, {refused} refused")),
        }
        let units: Vec<String> = string.to_ill_formed_utf16().map(unit_text).collect();
        let units = units.iter().map(|unit| format!(" {unit}"));
        self.line(&format!("units{}", units.collect::<String>()));
        self.put(register, string);
    }
}

/// The units from one index to another, as they are written: the half of a divided pair at either end, and the bytes of
/// the whole code points between them. `None` unless the indexes are in order and within the units.
pub(super) fn slice_text(units: &[u16], begin: usize, end: usize) -> Option<String> {
    let mut part = units.get(begin..end)?;
    let is_divided =
        |at: usize| at > 0 && matches!(units[at - 1..], [0xD800..=0xDBFF, 0xDC00..=0xDFFF, ..]);
    let (mut trail, mut lead) = ("-".to_owned(), "-".to_owned());
    if let ([first, rest @ ..], true) = (part, is_divided(begin)) {
        trail = unit_text(*first);
        part = rest;
    }
    if let ([rest @ .., last], true) = (part, is_divided(end)) {
        lead = unit_text(*last);
        part = rest;
    }
    let whole = dump(&Wtf8Buf::from_ill_formed_utf16(part));
    Some(format!("slice {trail} ({whole}) {lead}"))
}

/// The string of the first `count` units, if there are that many.
pub(super) fn first_units(text: &Wtf8, count: usize) -> Option<Wtf8Buf> {
    let units: Vec<u16> = text.to_ill_formed_utf16().collect();
    units.get(..count).map(Wtf8Buf::from_ill_formed_utf16)
}

/// Code points, and the lower size hint of their iterator, which may be false.
struct Hinted {
    points: std::vec::IntoIter<CodePoint>,
    low: usize,
}

/// Reads a hint, then points.
fn hinted(reader: &mut Reader<'_>) -> Hinted {
    let low = reader.number();
    let points = reader.points().into_iter();
    Hinted { points, low }
}

impl Iterator for Hinted {
    type Item = CodePoint;

    fn next(&mut self) -> Option<CodePoint> {
        self.points.next()
    }

    fn size_hint(&self) -> (usize, Option<usize>) {
        (self.low, None)
    }
}

/// The outcome of a call in a list.
enum Applied {
    /// Applied, or, if false, a refused truncation.
    Done(bool),
    /// Its bytes do not fit.
    Stopped,
}

/// What the calls of a list refer to.
struct Pieces {
    points: Vec<CodePoint>,
    strings: [Wtf8Buf; 4],
}

impl Pieces {
    fn points_up_to(&self, count: u16) -> &[CodePoint] {
        &self.points[..usize::from(count).min(self.points.len())]
    }

    /// Applies a call, and returns whether it was done. `None` if the call does not accept its value.
    fn apply(&self, build: &Build, string: &mut Wtf8Buf) -> Option<bool> {
        match build {
            Build::Push(value) => string.push(CodePoint::from_u32(*value)?),
            Build::PushChar(value) => string.push_char(char::from_u32(*value)?),
            Build::PushStr(text) => string.push_str(text),
            Build::PushWtf8(register) => string.push_wtf8(&self.strings[usize::from(*register)]),
            Build::Extend(count) => string.extend(self.points_up_to(*count).iter().copied()),
            Build::Reserve(additional) => string.reserve(usize::from(*additional)),
            Build::Truncate(position) => {
                let position = usize::from(*position);
                let is_boundary = result_of(|| string.slice_to(position).len()).is_some();
                if is_boundary {
                    string.truncate(position);
                }
                return Some(is_boundary);
            }
            Build::TruncateUnits(count) => {
                let cut = first_units(string, usize::from(*count));
                let is_there = cut.is_some();
                if let Some(cut) = cut {
                    *string = cut;
                }
                return Some(is_there);
            }
        }
        Some(true)
    }

    /// Applies a call to a string whose length may not exceed `max_len`.
    fn apply_within(&self, build: &Build, string: &mut Wtf8Buf, max_len: usize) -> Option<Applied> {
        if max_len == usize::MAX {
            return self.apply(build, string).map(Applied::Done);
        }
        match build {
            Build::Reserve(additional) if string.len() + usize::from(*additional) > max_len => {
                return Some(Applied::Stopped)
            }
            Build::Extend(count) => {
                return Some(extend_within(self.points_up_to(*count), string, max_len))
            }
            _ => {}
        }
        let mut after = string.clone();
        let is_done = self.apply(build, &mut after)?;
        if after.len() > max_len {
            return Some(Applied::Stopped);
        }
        *string = after;
        Some(Applied::Done(is_done))
    }
}

/// Stops unless a byte for each code point fits, then pushes code points up to the one that does not fit.
fn extend_within(points: &[CodePoint], string: &mut Wtf8Buf, max_len: usize) -> Applied {
    if string.len() + points.len() > max_len {
        return Applied::Stopped;
    }
    for point in points {
        let mut after = string.clone();
        after.push(*point);
        if after.len() > max_len {
            return Applied::Stopped;
        }
        *string = after;
    }
    Applied::Done(true)
}
