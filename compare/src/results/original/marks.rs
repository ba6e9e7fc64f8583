//! Marks and what iterators have left, by the crate's code points: it has no such calls.

use std::fmt::Write;

use wtf8::{CodePoint, Wtf8};

use super::{dump, Machine, Reader};

/// The encoded length of a code point. A surrogate has the length of U+FFFD.
fn encoded_len(point: CodePoint) -> usize {
    point.to_char_lossy().len_utf8()
}

/// The number of units of a code point. A surrogate has one, as U+FFFD.
fn unit_len(point: CodePoint) -> usize {
    point.to_char_lossy().len_utf16()
}

/// The position of each boundary, with the number of units before it.
pub(super) fn boundaries(view: &Wtf8) -> Vec<(usize, usize)> {
    let mut marks = vec![(0, 0)];
    let (mut position, mut units) = (0, 0);
    for point in view.code_points() {
        position += encoded_len(point);
        units += unit_len(point);
        marks.push((position, units));
    }
    marks
}

impl Machine {
    pub(super) fn marks(&mut self, reader: &mut Reader<'_>) {
        let string = self.copy(reader);
        let marks = boundaries(&string);
        let mut line = "marks before".to_owned();
        for position in 0..=string.len() {
            let before = marks.iter().filter(|(boundary, _)| *boundary <= position);
            let (boundary, units) = before.last().unwrap();
            write!(line, " {boundary}:{units} {boundary}:{units}").unwrap();
        }
        self.line(&line);
        let mut line = "marks at".to_owned();
        for count in 0..=string.to_ill_formed_utf16().count() {
            let before = marks.iter().filter(|(_, units)| *units <= count);
            let (boundary, units) = before.last().unwrap();
            write!(line, " {boundary}:{units}").unwrap();
        }
        self.line(&line);
    }

    pub(super) fn left(&mut self, reader: &mut Reader<'_>) {
        let string = self.copy(reader);
        let whole = dump(&string);
        let (mut points, mut units) = (
            format!("points left ({whole})"),
            format!("units left ({whole})"),
        );
        let mut position = 0;
        for point in string.code_points() {
            position += encoded_len(point);
            let left = dump(string.slice_from(position));
            write!(points, " {} ({left})", encoded_len(point)).unwrap();
            if unit_len(point) == 2 {
                units.push_str(" -");
            }
            write!(units, " ({left})").unwrap();
        }
        self.line(&points);
        self.line(&units);
    }
}
