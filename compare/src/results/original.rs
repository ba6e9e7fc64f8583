//! The interpreter of scripts over the original crate.

use std::borrow::Cow;
use std::cell::{Cell, RefCell};
use std::fmt::{Debug, Write};
use std::panic::{catch_unwind, AssertUnwindSafe};

use wtf8::{CodePoint, IllFormedUtf16CodeUnits, Wtf8, Wtf8Buf, Wtf8CodePoints};

use crate::fed::fed_by;
use crate::script::{Build, Opcode, Step, UNBOUNDED};

mod indexed;
mod marks;
mod together;

/// What the original crate returned for a script.
pub struct Results {
    /// The transcript, with the proved library's results at the known differences.
    pub transcript: String,
    /// The transcript with the crate's own size hints while its iterator holds a trail surrogate.
    pub own_hints: String,
    /// The calls that panicked.
    pub panicked: Vec<&'static str>,
}

thread_local! {
    /// The depth of nested calls that may panic. A panic inside one is a result.
    static GUARDS: Cell<u32> = const { Cell::new(0) };

    /// The message of the last panic that was not the refusal of a call.
    static LAST_PANIC: RefCell<String> = const { RefCell::new(String::new()) };
}

/// From now on the crate's panics that are results print nothing.
pub fn silence_panics() {
    let print = std::panic::take_hook();
    std::panic::set_hook(Box::new(move |panic| match GUARDS.get() {
        0 => print(panic),
        1 => LAST_PANIC.set(panic.to_string()),
        _ => {}
    }));
}

/// What a call returns, or `None` if it panics.
fn result_of<T>(call: impl FnOnce() -> T) -> Option<T> {
    GUARDS.set(GUARDS.get() + 1);
    let result = catch_unwind(AssertUnwindSafe(call)).ok();
    GUARDS.set(GUARDS.get() - 1);
    result
}

/// Runs a script over the original crate.
pub fn run(script: &[u8]) -> Results {
    let mut machine = Machine {
        strings: std::array::from_fn(|_| Wtf8Buf::new()),
        indexed: Wtf8Buf::new(),
        out: Out::default(),
        panicked: Vec::new(),
    };
    // A panic outside of the calls that may refuse is a result too, one that the proved library never has.
    if result_of(|| machine.run(Reader { rest: script })).is_none() {
        let message = LAST_PANIC.take().replace('\n', " ");
        machine.line(&format!("THE CRATE PANICKED: {message}"));
    }
    Results {
        transcript: machine.out.excused,
        own_hints: machine.out.raw,
        panicked: machine.panicked,
    }
}

/// The operands of a script. The generator's scripts are never malformed, so a short read may panic.
struct Reader<'a> {
    rest: &'a [u8],
}

impl<'a> Reader<'a> {
    fn take(&mut self, count: usize) -> &'a [u8] {
        let (front, rest) = self.rest.split_at(count);
        self.rest = rest;
        front
    }

    fn count(&mut self) -> usize {
        usize::from(self.take(1)[0])
    }

    fn register(&mut self) -> usize {
        self.count()
    }

    fn unit(&mut self) -> u16 {
        u16::from_le_bytes(self.take(2).try_into().unwrap())
    }

    fn number(&mut self) -> usize {
        usize::from(self.unit())
    }

    fn value(&mut self) -> u32 {
        u32::from_le_bytes(self.take(4).try_into().unwrap())
    }

    fn bytes(&mut self) -> &'a [u8] {
        let count = self.count();
        self.take(count)
    }

    fn text(&mut self) -> &'a str {
        std::str::from_utf8(self.bytes()).unwrap()
    }

    fn units(&mut self) -> Vec<u16> {
        (0..self.count()).map(|_| self.unit()).collect()
    }

    fn steps(&mut self) -> Vec<Step> {
        let bytes = self.bytes().iter();
        bytes.map(|byte| Step::ALL[usize::from(*byte)]).collect()
    }

    fn builds(&mut self) -> Vec<Build> {
        (0..self.count()).map(|_| self.build()).collect()
    }

    fn build(&mut self) -> Build {
        match self.count() {
            0 => Build::Push(self.value()),
            1 => Build::PushChar(self.value()),
            2 => Build::PushStr(self.text().to_owned()),
            3 => Build::PushWtf8(self.register() as u8),
            4 => Build::Extend(self.unit()),
            5 => Build::Reserve(self.unit()),
            6 => Build::Truncate(self.unit()),
            7 => Build::TruncateUnits(self.unit()),
            kind => unreachable!("the generator knows no building call {kind}"),
        }
    }

    fn points(&mut self) -> Vec<CodePoint> {
        (0..self.count())
            .filter_map(|_| CodePoint::from_u32(self.value()))
            .collect()
    }
}

/// Two transcripts that differ only in size hints.
#[derive(Default)]
struct Out {
    excused: String,
    raw: String,
}

impl Write for Out {
    fn write_str(&mut self, text: &str) -> std::fmt::Result {
        self.excused.push_str(text);
        self.raw.push_str(text);
        Ok(())
    }
}

fn hex(bytes: &[u8]) -> String {
    const DIGITS: &[u8; 16] = b"0123456789ABCDEF";
    let mut text = String::with_capacity(3 * bytes.len());
    for byte in bytes {
        if !text.is_empty() {
            text.push(' ');
        }
        for half in [byte / 16, byte % 16] {
            text.push(char::from(DIGITS[usize::from(half)]));
        }
    }
    text
}

/// The bytes of a string in hexadecimal. The crate shows them only to a hasher, with FE after them.
fn dump(text: &Wtf8) -> String {
    let fed = fed_by(text);
    match fed.split_last() {
        Some((0xFE, bytes)) => hex(bytes),
        _ => format!("A HASHER IS FED {}", hex(&fed)),
    }
}

struct Machine {
    strings: [Wtf8Buf; 4],
    indexed: Wtf8Buf,
    out: Out,
    panicked: Vec<&'static str>,
}

impl Machine {
    fn run(&mut self, mut reader: Reader<'_>) {
        while !reader.rest.is_empty() {
            let opcode = Opcode::from_byte(reader.take(1)[0]);
            self.call(opcode.expect("the generator knows the opcode"), &mut reader);
        }
    }

    fn call(&mut self, opcode: Opcode, reader: &mut Reader<'_>) {
        match opcode {
            Opcode::New => self.put(reader.register(), Wtf8Buf::new()),
            Opcode::WithCapacity => self.with_capacity(reader),
            Opcode::FromString => {
                let register = reader.register();
                self.put(register, Wtf8Buf::from_string(reader.text().to_owned()));
            }
            Opcode::FromStr => self.put(reader.register(), Wtf8Buf::from_str(reader.text())),
            Opcode::FromIllFormedUtf16 => {
                let register = reader.register();
                self.put(register, Wtf8Buf::from_ill_formed_utf16(&reader.units()));
            }
            Opcode::FromIter => {
                let register = reader.register();
                self.put(register, reader.points().into_iter().collect());
            }
            Opcode::FromIterCodePoints => self.from_iter_code_points(reader),
            Opcode::Clone => {
                let register = reader.register();
                let copy = self.copy(reader);
                self.put(register, copy);
            }
            Opcode::Reserve => self.reserve(reader),
            Opcode::Push => self.push(reader),
            Opcode::PushChar => self.push_char(reader),
            Opcode::PushStr => self.change(reader, |string, reader| string.push_str(reader.text())),
            Opcode::PushWtf8 => self.push_wtf8(reader),
            Opcode::Extend => self.change(reader, |string, reader| string.extend(reader.points())),
            Opcode::ExtendCodePoints => self.extend_code_points(reader),
            Opcode::Truncate => self.truncate(reader),
            Opcode::Slice => self.slice(reader),
            Opcode::SliceFrom => self.slice_from(reader),
            Opcode::SliceTo => self.slice_to(reader),
            Opcode::IntoString => self.convert(reader.register(), Wtf8Buf::into_string),
            Opcode::IntoStringLossy => {
                self.convert(reader.register(), |string| Ok(string.into_string_lossy()))
            }
            Opcode::AsciiByteAt => self.ascii_byte_at(reader),
            Opcode::Boundaries => {
                let string = self.copy(reader);
                self.boundaries(&string);
            }
            Opcode::CodePoints => self.code_points(reader),
            Opcode::ToIllFormedUtf16 => self.to_ill_formed_utf16(reader),
            Opcode::AsStr => {
                let string = self.copy(reader);
                self.as_text(&string);
            }
            Opcode::ToStringLossy => {
                let string = self.copy(reader);
                self.lossy_text(&string);
            }
            Opcode::Comparisons => self.compare(reader.register(), reader.register()),
            Opcode::Hash => self.hash(reader.register()),
            Opcode::Debug => self.debug(reader.register()),
            Opcode::ViewFromStr => {
                let view = Wtf8::from_str(reader.text());
                self.line(&format!("view {}: {}", view.len(), dump(view)));
            }
            Opcode::CodePoint => self.point(reader.value()),
            Opcode::CodePointComparisons => self.compare_points(reader.value(), reader.value()),
            Opcode::TruncateUnits => self.truncate_units(reader),
            Opcode::ReadSlice => self.read_slice(reader),
            Opcode::CompareSlices => self.compare_slices(reader),
            Opcode::PushSlice => self.push_slice(reader),
            Opcode::ExtendHinted => self.extend_hinted(reader),
            Opcode::FromIterHinted => self.from_iter_hinted(reader),
            Opcode::Apply => self.apply_each(reader),
            Opcode::ApplyAll => self.apply_all(reader),
            Opcode::UnitAt => self.units_by_index(reader),
            Opcode::SliceUnits => self.slice_units(reader),
            Opcode::CmpUnits => self.compare_units(reader),
            Opcode::AppendUnits => self.append_units(reader),
            // The crate has no `shrink_to_fit`, which leaves the string's bytes unchanged.
            Opcode::ShrinkToFit => self.show(reader.register()),
            Opcode::Marks => self.marks(reader),
            Opcode::Left => self.left(reader),
            Opcode::PushIllFormedUtf16 => self.push_units(reader),
            Opcode::PushUnit => self.push_unit(reader),
            Opcode::WriteUnits => self.write_units(reader),
            Opcode::PushUnitsOf => self.push_units_of(reader),
            _ => self.call_on_indexed(opcode, reader),
        }
    }

    /// A clone of the string of the register that is read.
    fn copy(&self, reader: &mut Reader<'_>) -> Wtf8Buf {
        self.strings[reader.register()].clone()
    }

    fn line(&mut self, line: &str) {
        writeln!(self.out, "{line}").unwrap();
    }

    fn put(&mut self, register: usize, string: Wtf8Buf) {
        self.strings[register] = string;
        self.show(register);
    }

    fn show(&mut self, register: usize) {
        let text = &self.strings[register];
        let line = format!("s{register} {}: {}", text.len(), dump(text));
        self.line(&line);
    }

    /// What a call returns. A panic is counted, and written as a refusal.
    fn guarded<T>(
        &mut self,
        name: &'static str,
        call: impl FnOnce(&mut [Wtf8Buf; 4]) -> T,
    ) -> Option<T> {
        let strings = &mut self.strings;
        let result = result_of(|| call(strings));
        if result.is_none() {
            self.panicked.push(name);
            self.line("refused");
        }
        result
    }

    fn with_capacity(&mut self, reader: &mut Reader<'_>) {
        let register = reader.register();
        let capacity = reader.number();
        let string = Wtf8Buf::with_capacity(capacity);
        let has_room = string.capacity() >= capacity;
        self.line(&format!("room {has_room}"));
        self.put(register, string);
    }

    fn from_iter_code_points(&mut self, reader: &mut Reader<'_>) {
        let register = reader.register();
        let other = self.copy(reader);
        let string = points_after(&other, reader.number()).collect();
        self.put(register, string);
    }

    fn reserve(&mut self, reader: &mut Reader<'_>) {
        let register = reader.register();
        let additional = reader.number();
        let string = &mut self.strings[register];
        string.reserve(additional);
        let has_room = string.capacity() - string.len() >= additional;
        self.line(&format!("room {has_room}"));
        self.show(register);
    }

    /// Changes the string of the register that is read.
    fn change(
        &mut self,
        reader: &mut Reader<'_>,
        call: impl FnOnce(&mut Wtf8Buf, &mut Reader<'_>),
    ) {
        let register = reader.register();
        call(&mut self.strings[register], reader);
        self.show(register);
    }

    fn push(&mut self, reader: &mut Reader<'_>) {
        let register = reader.register();
        match CodePoint::from_u32(reader.value()) {
            Some(point) => self.strings[register].push(point),
            None => return self.line("no code point"),
        }
        self.show(register);
    }

    fn push_char(&mut self, reader: &mut Reader<'_>) {
        let register = reader.register();
        match char::from_u32(reader.value()) {
            Some(c) => self.strings[register].push_char(c),
            None => return self.line("no character"),
        }
        self.show(register);
    }

    fn push_wtf8(&mut self, reader: &mut Reader<'_>) {
        let register = reader.register();
        let piece = self.copy(reader);
        self.strings[register].push_wtf8(&piece);
        self.show(register);
    }

    fn extend_code_points(&mut self, reader: &mut Reader<'_>) {
        let register = reader.register();
        let piece = self.copy(reader);
        self.strings[register].extend(points_after(&piece, reader.number()));
        self.show(register);
    }

    fn truncate(&mut self, reader: &mut Reader<'_>) {
        let register = reader.register();
        let position = reader.number();
        let capacity = self.strings[register].capacity();
        let cut = |strings: &mut [Wtf8Buf; 4]| strings[register].truncate(position);
        if self.guarded("truncate", cut).is_none() {
            return;
        }
        let is_kept = self.strings[register].capacity() == capacity;
        self.line(&format!("room kept {is_kept}"));
        self.show(register);
    }

    fn slice(&mut self, reader: &mut Reader<'_>) {
        let [register, other] = [reader.register(), reader.register()];
        let [begin, end] = [reader.number(), reader.number()];
        let slice = |strings: &mut [Wtf8Buf; 4]| owned(strings[other].slice(begin, end));
        if let Some(part) = self.guarded("slice", slice) {
            self.put(register, part);
        }
    }

    fn slice_from(&mut self, reader: &mut Reader<'_>) {
        let [register, other] = [reader.register(), reader.register()];
        let begin = reader.number();
        let slice = |strings: &mut [Wtf8Buf; 4]| owned(strings[other].slice_from(begin));
        if let Some(part) = self.guarded("slice_from", slice) {
            self.put(register, part);
        }
    }

    fn slice_to(&mut self, reader: &mut Reader<'_>) {
        let [register, other] = [reader.register(), reader.register()];
        let end = reader.number();
        let slice = |strings: &mut [Wtf8Buf; 4]| owned(strings[other].slice_to(end));
        if let Some(part) = self.guarded("slice_to", slice) {
            self.put(register, part);
        }
    }

    fn convert(&mut self, register: usize, call: impl FnOnce(Wtf8Buf) -> Result<String, Wtf8Buf>) {
        let string = std::mem::replace(&mut self.strings[register], Wtf8Buf::new());
        let capacity = string.capacity();
        let string = match call(string) {
            Ok(text) => {
                self.line(&format!("text: {}", hex(text.as_bytes())));
                self.line(&format!("room kept {}", text.capacity() == capacity));
                Wtf8Buf::from_string(text)
            }
            Err(string) => {
                self.line("no text");
                string
            }
        };
        self.put(register, string);
    }

    fn ascii_byte_at(&mut self, reader: &mut Reader<'_>) {
        let register = reader.register();
        let position = reader.number();
        let look = |strings: &mut [Wtf8Buf; 4]| strings[register].ascii_byte_at(position);
        if let Some(byte) = self.guarded("ascii_byte_at", look) {
            self.line(&format!("byte {byte:02X}"));
        }
    }

    fn code_points(&mut self, reader: &mut Reader<'_>) {
        let string = self.copy(reader);
        let count = string.code_points().count();
        write!(self.out, "points, {count}:").unwrap();
        walk(&mut self.out, string.code_points(), &reader.steps());
        self.line("");
    }

    fn to_ill_formed_utf16(&mut self, reader: &mut Reader<'_>) {
        let string = self.copy(reader);
        let count = string.to_ill_formed_utf16().count();
        write!(self.out, "units, {count}:").unwrap();
        walk(&mut self.out, Units::of(&string), &reader.steps());
        self.line("");
    }

    fn boundaries(&mut self, view: &Wtf8) {
        let mut line = "boundaries".to_owned();
        for index in 0..=view.len() {
            if result_of(|| view.slice_from(index).len()).is_some() {
                write!(line, " {index}").unwrap();
            }
        }
        self.line(&line);
    }

    fn as_text(&mut self, view: &Wtf8) {
        match view.as_str() {
            Some(text) => self.line(&format!("text: {}", hex(text.as_bytes()))),
            None => self.line("no text"),
        }
    }

    fn lossy_text(&mut self, view: &Wtf8) {
        let text = view.to_string_lossy();
        let word = match text {
            Cow::Borrowed(_) => "borrowed",
            Cow::Owned(_) => "owned",
        };
        self.line(&format!("{word}: {}", hex(text.as_bytes())));
    }

    fn debug_texts(&mut self, view: &Wtf8) {
        self.line(&format!("view: {}", hex(debug_text(view).as_bytes())));
        self.line(&format!("wide: {}", hex(format!("{view:#12?}").as_bytes())));
    }

    fn hash(&mut self, register: usize) {
        let string = &self.strings[register];
        let lines = [hex(&fed_by(string)), hex(&fed_by::<Wtf8>(string))];
        lines
            .iter()
            .for_each(|fed| self.line(&format!("fed {fed}")));
    }

    fn compare_points(&mut self, own: u32, other: u32) {
        match (CodePoint::from_u32(own), CodePoint::from_u32(other)) {
            (Some(own), Some(other)) => self.comparisons("points", &own, &other),
            _ => self.line("no code point"),
        }
    }

    fn compare(&mut self, own: usize, other: usize) {
        let own = self.strings[own].clone();
        let other = self.strings[other].clone();
        self.comparisons("buffers", &own, &other);
        self.comparisons::<Wtf8>("views", &own, &other);
        // Comparisons between a buffer and a view, for which the proved library has no call.
        if (own == &*other) != (own == other) || (&*own == other) != (own == other) {
            self.line("A BUFFER AND A VIEW ARE EQUAL OTHERWISE");
        }
    }

    fn comparisons<T: Ord + ?Sized>(&mut self, word: &str, own: &T, other: &T) {
        let order = name_of(Some(own.cmp(other)));
        let partial = name_of(own.partial_cmp(other));
        let (equal, different) = (own == other, own != other);
        self.line(&format!(
            "{word} eq {equal} ne {different} cmp {order} partial {partial}"
        ));
        let (below, at_most) = (own < other, own <= other);
        let (above, at_least) = (own > other, own >= other);
        self.line(&format!(
            "{word} lt {below} le {at_most} gt {above} ge {at_least}"
        ));
    }

    fn debug(&mut self, register: usize) {
        let string = self.strings[register].clone();
        let view: &Wtf8 = &string;
        self.line(&format!("buffer: {}", hex(debug_text(&string).as_bytes())));
        self.debug_texts(view);
    }

    fn point(&mut self, value: u32) {
        let Some(point) = CodePoint::from_u32(value) else {
            return self.line("no code point");
        };
        let number = point.to_u32();
        let is_same = unsafe { CodePoint::from_u32_unchecked(value) } == point;
        self.line(&format!(
            "point {number:X} {point:?} {point:#12?} unchecked {is_same}"
        ));
        let lossy = u32::from(point.to_char_lossy());
        match point.to_char() {
            Some(c) => {
                let scalar = u32::from(c);
                let is_same = CodePoint::from_char(c) == point;
                self.line(&format!("char {scalar:X} lossy {lossy:X} back {is_same}"));
            }
            None => self.line(&format!("no char lossy {lossy:X}")),
        }
        self.line(&format!("fed {}", hex(&fed_by(&point))));
    }
}

fn debug_text<T: Debug + ?Sized>(value: &T) -> String {
    format!("{value:?}")
}

fn name_of(order: Option<std::cmp::Ordering>) -> &'static str {
    match order {
        Some(std::cmp::Ordering::Less) => "less",
        Some(std::cmp::Ordering::Equal) => "equal",
        Some(std::cmp::Ordering::Greater) => "greater",
        None => "none",
    }
}

fn owned(view: &Wtf8) -> Wtf8Buf {
    let mut string = Wtf8Buf::new();
    string.push_wtf8(view);
    string
}

fn points_after(text: &Wtf8, count: usize) -> Wtf8CodePoints<'_> {
    let mut points = text.code_points();
    for _ in 0..count {
        points.next();
    }
    points
}

fn hint_text((low, high): (usize, Option<usize>)) -> String {
    match high {
        Some(high) => format!(" {low}..{high}"),
        None => format!(" {low}.."),
    }
}

/// An iterator whose items and size hints are written.
trait Walked: Clone {
    /// The next item, as it is written.
    fn next_text(&mut self) -> Option<String>;

    /// The item after the next one, by `nth`.
    fn nth_text(&mut self) -> Option<String>;

    /// The last item.
    fn last_text(self) -> Option<String>;

    /// The item after two that are skipped.
    fn skipped_text(self) -> Option<String>;

    /// All items collected, as they are written.
    fn collected_texts(self) -> Vec<String>;

    fn write_hint(&self, out: &mut Out);
}

fn walk(out: &mut Out, mut walked: impl Walked, steps: &[Step]) {
    for step in steps {
        match step {
            Step::Next => write_item(out, walked.next_text()),
            Step::SizeHint => walked.write_hint(out),
            Step::Drain => drain(out, walked.clone()),
            Step::Replace => walked = walked.clone(),
            Step::Nth => write_item(out, walked.nth_text()),
            Step::Last => write_item(out, walked.clone().last_text()),
            Step::Skip => write_item(out, walked.clone().skipped_text()),
            Step::Collect => {
                let texts = walked.clone().collected_texts();
                write!(out, " {} items", texts.len()).unwrap();
                texts
                    .into_iter()
                    .for_each(|text| write_item(out, Some(text)));
            }
        }
    }
    drain(out, walked);
}

/// Writes the remaining items, a size hint before each, and calls `next` once more after the end.
fn drain(out: &mut Out, mut walked: impl Walked) {
    out.write_str(" [").unwrap();
    walked.write_hint(out);
    while let Some(text) = walked.next_text() {
        write_item(out, Some(text));
        walked.write_hint(out);
    }
    write_item(out, walked.next_text());
    out.write_str(" ]").unwrap();
}

fn write_item(out: &mut Out, text: Option<String>) {
    let text = text.unwrap_or_else(|| "end".to_owned());
    write!(out, " {text}").unwrap();
}

impl Walked for Wtf8CodePoints<'_> {
    fn next_text(&mut self) -> Option<String> {
        self.next().map(|point| format!("{point:?}"))
    }

    fn nth_text(&mut self) -> Option<String> {
        self.nth(1).map(|point| format!("{point:?}"))
    }

    fn last_text(self) -> Option<String> {
        self.last().map(|point| format!("{point:?}"))
    }

    fn skipped_text(self) -> Option<String> {
        self.skip(2).next().map(|point| format!("{point:?}"))
    }

    fn collected_texts(self) -> Vec<String> {
        let points: Vec<CodePoint> = self.collect();
        points.iter().map(|point| format!("{point:?}")).collect()
    }

    fn write_hint(&self, out: &mut Out) {
        out.write_str(&hint_text(self.size_hint())).unwrap();
    }
}

/// The crate's iterator of units, and whether it holds a trail surrogate. The crate does not say, so the code points
/// are followed too.
#[derive(Clone)]
struct Units<'a> {
    units: IllFormedUtf16CodeUnits<'a>,
    points: Wtf8CodePoints<'a>,
    is_trail_held: bool,
}

impl<'a> Units<'a> {
    fn of(text: &'a Wtf8) -> Units<'a> {
        Units {
            units: text.to_ill_formed_utf16(),
            points: text.code_points(),
            is_trail_held: false,
        }
    }

    /// Updates `is_trail_held` for the next unit.
    fn follow(&mut self) {
        self.is_trail_held = match self.is_trail_held {
            true => false,
            false => self
                .points
                .next()
                .is_some_and(|point| point.to_u32() > 0xFFFF),
        };
    }
}

fn unit_text(unit: u16) -> String {
    format!("{unit:04X}")
}

impl Walked for Units<'_> {
    fn next_text(&mut self) -> Option<String> {
        self.follow();
        self.units.next().map(unit_text)
    }

    fn nth_text(&mut self) -> Option<String> {
        self.follow();
        self.follow();
        self.units.nth(1).map(unit_text)
    }

    fn last_text(self) -> Option<String> {
        self.units.last().map(unit_text)
    }

    fn skipped_text(self) -> Option<String> {
        self.units.skip(2).next().map(unit_text)
    }

    fn collected_texts(self) -> Vec<String> {
        let units: Vec<u16> = self.units.collect();
        units.into_iter().map(unit_text).collect()
    }

    /// Writes the crate's hint to `raw`, and to `excused` the hint with a held trail counted. Nothing else may differ.
    fn write_hint(&self, out: &mut Out) {
        let (low, high) = self.units.size_hint();
        let held = usize::from(self.is_trail_held);
        let counted = (low + held, high.and_then(|high| high.checked_add(held)));
        out.raw.push_str(&hint_text((low, high)));
        out.excused.push_str(&hint_text(counted));
    }
}
