//! Inputs of the timings, by fixed seeds: of 4096 units, or 5, 12 and 40 (ASCII, Cyrillic, Greek with spaces and CJK,
//! as in file names); texts of 65,536 that do not repeat, since a branch predictor learns 4096. Six hold many lone
//! surrogates (units of any value, kinds with surrogates, leads, trails, CJK, cut emoji) and have rows of the calls
//! that treat these apart. A text with twelve units pushed to it
//! shows by `into_string` whether the UTF-8 prefix is searched again. `sort` and look-ups in a `BTreeMap` are over
//! 1,000 file names, by each side's own library.

use crate::random::Random;

#[derive(Clone)]
pub struct Input {
    pub name: String,
    pub units: Vec<u16>,
    /// The units of the strings that these are compared with or that are pushed to them; empty if those are equal.
    pub others: Vec<u16>,
    /// The number of items in a round: units, or lines.
    pub items: usize,
}

impl Input {
    fn new(name: &str, units: Vec<u16>) -> Input {
        Input {
            name: name.to_owned(),
            items: units.len(),
            units,
            others: Vec::new(),
        }
    }
}

/// The unit that ends a line.
pub const LINE_END: u16 = 0x0A;

/// The name of a short input in which no two code points side by side have the same encoded length.
const KINDS_THAT_DIFFER: &str = "12 units, kinds that differ";

/// The number of lines in the list of file names.
const LINES: usize = 1000;

/// The numbers of units in the short inputs.
const SHORT: [usize; 3] = [5, 12, 40];

/// What the short inputs beyond ASCII are made of: the letters of most file names that are not English.
const LETTERS_OF_NAMES: [(&str, fn(&mut Random) -> u32); 3] = [
    ("Cyrillic", |random| random.between(0x430, 0x44F)),
    ("Greek with spaces", |random| match random.below(6) {
        0 => 0x20,
        _ => random.between(0x3B1, 0x3C9),
    }),
    ("CJK", |random| random.between(0x4E00, 0x9FFF)),
];

/// The number of units in the long inputs.
const LONG: usize = 4096;

/// The number of units in the inputs that are like real texts: more than a processor's branch predictor learns.
const TEXT: usize = 1 << 16;

/// The names of the inputs for `UnitText`.
pub const NAMES_OF_TEXTS: [&str; 3] = ["ASCII", "CJK", "mixed"];

/// An input whose units are not made yet, since making all of them takes long beside one row.
struct Recipe {
    name: String,
    make: Box<dyn FnOnce() -> Vec<u16>>,
}

impl Recipe {
    fn new(name: &str, make: impl FnOnce() -> Vec<u16> + 'static) -> Recipe {
        Recipe {
            name: name.to_owned(),
            make: Box::new(make),
        }
    }
}

/// The inputs whose names are chosen, in the order of the table.
pub fn chosen(is_chosen: impl Fn(&str) -> bool) -> Vec<Input> {
    let mut recipes = vec![
        long("ASCII", |random| random.between(0x20, 0x7E)),
        long("Latin", |random| random.between(0xC0, 0x24F)),
        long("CJK", |random| random.between(0x4E00, 0x9FFF)),
        long("Hangul", |random| random.between(0xD000, 0xD7A3)),
        long("mixed", mixed),
        long("supplementary", |random| match random.below(10) {
            0 => random.between(0x20, 0x7E),
            _ => random.between(0x10000, 0x1FFFF),
        }),
        long("all planes", |random| match random.below(17) {
            0 => random.between(0x20, 0xD7FF),
            plane => (plane as u32) << 16 | random.between(0, 0xFFFF),
        }),
        long("1% surrogates", |random| match random.below(100) {
            0 => random.between(0xD800, 0xDFFF),
            _ => random.between(0x20, 0x7E),
        }),
        long("0.1% surrogates", |random| match random.below(1000) {
            0 => random.between(0xD800, 0xDFFF),
            _ => random.between(0x20, 0x7E),
        }),
    ];
    for length in SHORT {
        let make = move || units(length, |random| random.between(0x20, 0x7E));
        recipes.push(Recipe::new(&format!("{length} units"), make));
    }
    for (name, point) in LETTERS_OF_NAMES {
        for length in SHORT {
            let name = format!("{length} units, {name}");
            recipes.push(Recipe::new(&name, move || units(length, point)));
        }
    }
    let kinds = "a\u{E9}\u{4E2D}z\u{1F600}\u{436}\u{65E5}b\u{A3}\u{10FFFF}";
    recipes.push(Recipe::new(KINDS_THAT_DIFFER, || {
        kinds.encode_utf16().collect()
    }));
    recipes.push(Recipe::new("40 units, ends that join", joining));
    recipes.extend(texts_of_people());
    recipes.extend(texts_of_everyday());
    made(recipes, is_chosen)
}

/// The inputs with many lone surrogates, if their names are chosen.
pub fn with_lone_surrogates(is_chosen: impl Fn(&str) -> bool) -> Vec<Input> {
    let points: [(&str, fn(&mut Random) -> u32); 6] = [
        ("random units", |random| random.between(0, 0xFFFF)),
        ("kinds with lone surrogates", |random| {
            match random.below(5) {
                0 => random.between(0xD800, 0xDFFF),
                _ => mixed(random),
            }
        }),
        ("lone leads", |random| random.between(0xD800, 0xDBFF)),
        ("lone trails", |random| random.between(0xDC00, 0xDFFF)),
        ("CJK, 10% surrogates", |random| match random.below(10) {
            0 => random.between(0xD800, 0xDFFF),
            _ => random.between(0x4E00, 0x9FFF),
        }),
        ("chopped emoji", chopped_emoji),
    ];
    let mut recipes = Vec::new();
    for (name, point) in points {
        recipes.push(long(name, point));
        for length in [40, 12] {
            let name = format!("{name}, {length} units");
            recipes.push(Recipe::new(&name, move || units(length, point)));
        }
    }
    made(recipes, is_chosen)
}

/// A long text without surrogates, and a short one that is pushed to it.
pub fn text_and_end(is_chosen: impl Fn(&str) -> bool) -> Option<Input> {
    let mut input = chosen(|name| name == "French" && is_chosen(name)).pop()?;
    input.others = units(12, |random| random.between(0x20, 0x7E));
    Some(input)
}

/// Makes the inputs whose names are chosen.
fn made(recipes: Vec<Recipe>, is_chosen: impl Fn(&str) -> bool) -> Vec<Input> {
    let chosen = recipes.into_iter().filter(|recipe| is_chosen(&recipe.name));
    chosen
        .map(|recipe| Input::new(&recipe.name, (recipe.make)()))
        .collect()
}

/// The inputs that are compared with strings that differ from them in one unit, each with the name of that unit's
/// index: first, middle or last.
pub fn pairs(is_chosen: impl Fn(&str) -> bool) -> Vec<(&'static str, Input)> {
    let names = [
        "ASCII",
        "CJK",
        "mixed",
        "5 units",
        "12 units",
        "40 units",
        KINDS_THAT_DIFFER,
    ];
    let inputs = chosen(|name| names.contains(&name) && is_chosen(name));
    inputs.into_iter().flat_map(differing).collect()
}

fn differing(input: Input) -> [(&'static str, Input); 3] {
    let last = input.units.len() - 1;
    [("first", 0), ("middle", last / 2), ("last", last)].map(|(which, at)| {
        let mut pair = input.clone();
        pair.others = input.units.clone();
        // The unit keeps its encoded length, and a surrogate stays a lead or a trail.
        pair.others[at] ^= 1;
        (which, pair)
    })
}

/// File names, one a line: from a few folders, with numbers and endings, some with letters beyond ASCII.
pub fn lines() -> Input {
    let folders = ["src", "docs", "images", "\u{65E5}\u{672C}"];
    let names = ["report", "IMG_", "notes", "\u{E9}t\u{E9}", "main"];
    let endings = [".txt", ".png", ".html"];
    let mut random = Random::new(LINES as u64);
    let mut lines = Vec::new();
    for number in 0..LINES {
        let (folder, name) = (random.pick(&folders), random.pick(&names));
        lines.push(format!("{folder}/{name}{number}{}", random.pick(&endings)));
    }
    Input {
        items: LINES,
        ..Input::new(
            "1,000 file names",
            lines.join("\n").encode_utf16().collect(),
        )
    }
}

/// Inputs like real texts: none is of one kind, and none repeats.
fn texts_of_people() -> [Recipe; 6] {
    fn letter(random: &mut Random) -> u32 {
        match random.below(6) {
            0 => 0x20,
            _ => random.between(0x61, 0x7A),
        }
    }
    [
        // One in twelve is an accented letter.
        text("French", |random| match random.below(12) {
            0 => random.pick(&[0xE0, 0xE7, 0xE8, 0xE9, 0xE9, 0xE9, 0xEA, 0xF4]),
            _ => letter(random),
        }),
        // One in sixty is a typographic quotation mark or dash.
        text("English", |random| match random.below(60) {
            0 => random.pick(&[0x2013, 0x2018, 0x2019, 0x201C, 0x201D]),
            _ => letter(random),
        }),
        text("emoji", |random| match random.below(15) {
            0 => random.between(0x1F300, 0x1F64F),
            _ => letter(random),
        }),
        text("Russian", |random| match random.below(7) {
            0 => 0x20,
            _ => random.between(0x430, 0x44F),
        }),
        // Kana, kanji and their full stops; one in twenty is an ASCII digit.
        text("Japanese", |random| match random.below(20) {
            0 => random.between(0x30, 0x39),
            1 => random.pick(&[0x3001, 0x3002]),
            2..=12 => random.between(0x3041, 0x30FE),
            _ => random.between(0x4E00, 0x9FA5),
        }),
        text("chopped", |random| match random.below(15) {
            0 => chopped_emoji(random),
            _ => letter(random),
        }),
    ]
}

/// Texts of a few phrases with other words and numbers in each: kinds change at the same distances again and again.
fn texts_of_everyday() -> [Recipe; 3] {
    fn word(random: &mut Random, first: u32, last: u32) -> String {
        let length = random.between(2, 9);
        let letters = (0..length).filter_map(|_| char::from_u32(random.between(first, last)));
        letters.collect()
    }
    let latin = |random: &mut Random| word(random, 0x61, 0x7A);
    [
        phrases("dates", |random| {
            let (year, month, day) = (
                random.between(1900, 2099),
                random.between(1, 12),
                random.between(1, 31),
            );
            format!("{year}\u{5E74}{month}\u{6708}{day}\u{65E5} ")
        }),
        phrases("quotations", move |random| {
            let [who, what, to] = [0; 3].map(|_| latin(random));
            format!("\u{201C}{who} {what},\u{201D} {to}\u{2019}s {what} \u{2013} ")
        }),
        phrases("JSON", move |random| {
            let (key, number) = (latin(random), random.between(0, 9999));
            let value = word(random, 0x4E00, 0x9FA5);
            format!("{{\"{key}\":{number},\"name\":\"{value}\"}},")
        }),
    ]
}

/// An emoji, or in one case of five its lead or its trail alone.
fn chopped_emoji(random: &mut Random) -> u32 {
    let emoji = random.between(0x1F300, 0x1F64F);
    match random.below(10) {
        0 => 0xD800 + ((emoji - 0x10000) >> 10),
        1 => 0xDC00 + (emoji & 0x3FF),
        _ => emoji,
    }
}

/// The inputs for `UnitText`, of `length` units each, in the order of their names.
pub fn texts(length: usize) -> [Input; 3] {
    let made = [
        units(length, |random| random.between(0x20, 0x7E)),
        units(length, |random| random.between(0x4E00, 0x9FFF)),
        units(length, mixed),
    ];
    let mut names = NAMES_OF_TEXTS.iter();
    made.map(|units| Input::new(names.next().unwrap_or(&""), units))
}

fn mixed(random: &mut Random) -> u32 {
    match random.below(4) {
        0 => random.between(0x20, 0x7E),
        1 => random.between(0x80, 0x7FF),
        2 => random.between(0x800, 0xD7FF),
        _ => random.between(0x10000, 0x10FFFF),
    }
}

/// A string that begins with a trail and ends with a lead, so that it forms a pair with a copy before or after it.
fn joining() -> Vec<u16> {
    let mut units = units(40, |random| random.between(0x20, 0x7E));
    units[0] = 0xDC00;
    units[39] = 0xD83D;
    units
}

fn text(name: &'static str, point: impl Fn(&mut Random) -> u32 + 'static) -> Recipe {
    Recipe::new(name, move || units(TEXT, point))
}

/// A long text of phrases, of which the last may be cut.
fn phrases(name: &'static str, phrase: impl Fn(&mut Random) -> String + 'static) -> Recipe {
    Recipe::new(name, move || {
        let mut random = Random::new(TEXT as u64);
        let mut units = Vec::new();
        while units.len() < TEXT {
            units.extend(phrase(&mut random).encode_utf16());
        }
        units.truncate(TEXT);
        units
    })
}

fn long(name: &'static str, point: impl Fn(&mut Random) -> u32 + 'static) -> Recipe {
    Recipe::new(name, move || units(LONG, point))
}

fn units(length: usize, point: impl Fn(&mut Random) -> u32) -> Vec<u16> {
    let mut random = Random::new(length as u64);
    let mut units = Vec::new();
    while units.len() < length {
        let point = point(&mut random);
        match char::from_u32(point) {
            // No pair is cut at the end.
            Some(c) if units.len() + c.len_utf16() > length => units.push(0x20),
            Some(c) => units.extend_from_slice(c.encode_utf16(&mut [0; 2])),
            None => units.push(point as u16),
        }
    }
    units
}
