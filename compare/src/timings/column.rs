//! The timed loops over the original crate, and over the standard library's own WTF-8 if the compiler gives access.
//!
//! If the crate has no such call, its loop is what a user can write: `hex_dump` by the bytes that a hasher is fed;
//! `unit_len`, `unit_at` and `cmp_units` along `to_ill_formed_utf16`, by `count`, `nth` and `cmp`; `append_units` by
//! `collect`; `push_ill_formed_utf16` (to a string that is emptied and keeps its room) by `push` of each unit;
//! `write_units`, and `copy_units` of an `IndexedBuf` (the middle half), by a loop that fills a slice; `slice_units`
//! (the middle half, copied to a buffer) and `truncate_units` (the first half, of a clone) as a string made anew of
//! these units.
//!
//! All but the calls of an `IndexedBuf`, which has marks, are calls of views and buffers, and count from the front.
//! One row is of a `UnitText`, which also keeps the number of its units and is built by `push` of each unit, as the
//! other side builds a `Wtf8Buf`.

use std::collections::BTreeMap;
use std::hash::Hash;
use std::hint::black_box;

use crate::fed::fed_by;
use crate::timings::inputs::LINE_END;

/// The number of equal strings that a loop cycles through.
const STRINGS: usize = 4;

/// The numbers of the loops over the lines among the units.
const FIRST_OF_LINES: u32 = 24;
const LAST_OF_LINES: u32 = 25;

/// Declares a module with the loops over one crate's strings. Its arguments are what the crates name differently.
macro_rules! column {
    ($module:ident, $path:path, $from_units:ident, $units:ident, $is_text:ident) => {
        pub mod $module {
            use super::{
                black_box, copied, hex_dump, BTreeMap, FIRST_OF_LINES, LAST_OF_LINES, LINE_END,
                STRINGS,
            };
            use $path::{CodePoint, Wtf8, Wtf8Buf};

            pub struct Bench {
                units: Vec<u16>,
                strings: [Wtf8Buf; STRINGS],
                others: Option<[Wtf8Buf; STRINGS]>,
                lines: Vec<Wtf8Buf>,
                points: Vec<CodePoint>,
            }

            impl Bench {
                /// Makes equal strings of `units` for loop `number`, strings of `others` to compare them with unless
                /// `others` is empty, and what else the loops work on, all in the order of the proved library, so that
                /// they lie alike in memory.
                pub fn new(number: u32, units: &[u16], others: &[u16]) -> Bench {
                    let string = Wtf8Buf::$from_units(units);
                    let points = string.code_points().collect();
                    let mut bench = Bench {
                        strings: std::array::from_fn(|_| string.clone()),
                        units: units.to_vec(),
                        others: None,
                        lines: Vec::new(),
                        points,
                    };
                    if !others.is_empty() {
                        let string = Wtf8Buf::$from_units(others);
                        bench.others = Some(std::array::from_fn(|_| string.clone()));
                    }
                    if (FIRST_OF_LINES..=LAST_OF_LINES).contains(&number) {
                        let lines = units.split(|unit| *unit == LINE_END);
                        bench.lines = lines.map(|line| Wtf8Buf::$from_units(line)).collect();
                    }
                    bench
                }

                fn string_at(&self, round: u32) -> &Wtf8Buf {
                    black_box(&self.strings[round as usize % STRINGS])
                }

                /// Runs a loop, and returns a checksum of what its calls returned. `None` if no loop has the number.
                pub fn run(&self, number: u32, rounds: u32) -> Option<u64> {
                    match number {
                        1 => Some(sum(rounds, |_| {
                            Wtf8Buf::$from_units(black_box(&self.units)).len() as u64
                        })),
                        2 | 20 => Some(sum(rounds, |round| {
                            let units: Vec<u16> = self.string_at(round).$units().collect();
                            black_box(units).len() as u64
                        })),
                        3 => Some(sum(rounds, |round| {
                            let mut total = 0u64;
                            for unit in self.string_at(round).$units() {
                                total = total.wrapping_add(u64::from(unit));
                            }
                            total
                        })),
                        4 => Some(sum(rounds, |round| {
                            let mut total = 0u64;
                            for point in self.string_at(round).code_points() {
                                total = total.wrapping_add(u64::from(point.to_u32()));
                            }
                            total
                        })),
                        5 => Some(sum(rounds, |round| {
                            u64::from(self.string_at(round).as_str().$is_text())
                        })),
                        6 => Some(sum(rounds, |round| {
                            black_box(self.string_at(round).to_string_lossy()).len() as u64
                        })),
                        7 => Some(sum(rounds, |round| {
                            let string = self.string_at(round).clone();
                            u64::from(black_box(string.into_string()).is_ok())
                        })),
                        8 => Some(sum(rounds, |_| self.push())),
                        9 => Some(sum(rounds, |round| {
                            let mut string = Wtf8Buf::new();
                            string.extend(self.string_at(round).code_points());
                            black_box(string).len() as u64
                        })),
                        10 => Some(self.push_string(rounds)),
                        11 => Some(self.compare(rounds, |own, other| own == other)),
                        12 => Some(self.compare(rounds, |own, other| own.cmp(other).is_le())),
                        13 => Some(sum(rounds, |round| {
                            black_box(self.string_at(round).clone()).len() as u64
                        })),
                        14 => Some(sum(rounds, |round| {
                            black_box(hex_dump(self.string_at(round))).len() as u64
                        })),
                        15 => Some(sum(rounds, |round| {
                            self.string_at(round).$units().count() as u64
                        })),
                        16 | 28 => Some(sum(rounds, |round| {
                            let unit = self.string_at(round).$units().nth(self.units.len() / 2);
                            unit.map_or(0, u64::from)
                        })),
                        17 => Some(sum(rounds, |round| {
                            let begin = self.units.len() / 4;
                            self.part(round, begin, self.units.len() - 2 * begin)
                        })),
                        18 => Some(self.compare(rounds, |own, other| {
                            own.$units().cmp(other.$units()).is_le()
                        })),
                        19 => Some(sum(rounds, |round| {
                            self.part(round, 0, self.units.len() / 2)
                        })),
                        21 | 22 => Some(sum(rounds, |_| self.push_units())),
                        23 => Some(self.compare(rounds, |own, other| {
                            let mut joined = own.clone();
                            joined.push_wtf8(other);
                            black_box(joined.into_string()).is_ok()
                        })),
                        24 => Some(sum(rounds, |_| self.sort())),
                        25 => Some(self.look_up(rounds)),
                        26 => Some(self.push_to_emptied(rounds)),
                        27 => Some(self.write_units(rounds)),
                        29 => Some(self.copy_units(rounds)),
                        _ => None,
                    }
                }

                /// The number of rounds in which `are` holds for the round's string and another one.
                fn compare(&self, rounds: u32, are: impl Fn(&Wtf8Buf, &Wtf8Buf) -> bool) -> u64 {
                    let others = self.others.as_ref().unwrap_or(&self.strings);
                    sum(rounds, |round| {
                        let other = &others[(round / STRINGS as u32 + 1) as usize % STRINGS];
                        u64::from(are(self.string_at(round), black_box(other)))
                    })
                }

                /// Makes a string of `count` units from index `begin`, and returns its length.
                fn part(&self, round: u32, begin: usize, count: usize) -> u64 {
                    let units = self.string_at(round).$units();
                    let units: Vec<u16> = units.skip(begin).take(count).collect();
                    black_box(Wtf8Buf::$from_units(&units)).len() as u64
                }

                /// Copies all units to a slice, in each round. The sum of their numbers, and of the units in the middle of
                /// the slice.
                #[inline(never)]
                fn write_units(&self, rounds: u32) -> u64 {
                    let mut out = vec![0; self.units.len()];
                    sum(rounds, |round| {
                        copied(&mut out, self.string_at(round).$units())
                    })
                }

                /// Copies the middle half of the units to a slice, in each round. The sum of their numbers, and of the
                /// units in their middle.
                #[inline(never)]
                fn copy_units(&self, rounds: u32) -> u64 {
                    let begin = self.units.len() / 4;
                    let count = self.units.len() - 2 * begin;
                    let mut out = vec![0; self.units.len()];
                    sum(rounds, |round| {
                        let units = self.string_at(round).$units();
                        copied(&mut out, units.skip(begin).take(count))
                    })
                }

                /// The sum of the lengths of a string that is emptied and to which all units are pushed, each as a code
                /// point, in each round.
                #[inline(never)]
                fn push_to_emptied(&self, rounds: u32) -> u64 {
                    let mut string = Wtf8Buf::new();
                    sum(rounds, |_| {
                        string.truncate(0);
                        for unit in black_box(&self.units) {
                            string.push(CodePoint::from_u32(u32::from(*unit)).unwrap());
                        }
                        black_box(&string).len() as u64
                    })
                }

                #[inline(never)]
                fn push(&self) -> u64 {
                    let mut string = Wtf8Buf::new();
                    for point in black_box(&self.points) {
                        string.push(*point);
                    }
                    black_box(string).len() as u64
                }

                /// The length of a string of all units, each pushed as a code point.
                #[inline(never)]
                fn push_units(&self) -> u64 {
                    let mut string = Wtf8Buf::new();
                    for unit in black_box(&self.units) {
                        string.push(CodePoint::from_u32(u32::from(*unit)).unwrap());
                    }
                    black_box(string).len() as u64
                }

                #[inline(never)]
                fn sort(&self) -> u64 {
                    let mut views: Vec<&Wtf8> =
                        black_box(&self.lines).iter().map(|line| &**line).collect();
                    views.sort();
                    black_box(&views)[views.len() / 2].len() as u64
                }

                #[inline(never)]
                fn look_up(&self, rounds: u32) -> u64 {
                    let lines = self.lines.iter().zip(0u64..);
                    let indexes: BTreeMap<&Wtf8, u64> =
                        lines.map(|(line, index)| (&**line, index)).collect();
                    sum(rounds, |_| {
                        let found = black_box(&self.lines).iter().map(|line| indexes[&**line]);
                        found.fold(0, u64::wrapping_add)
                    })
                }

                #[inline(never)]
                fn push_string(&self, rounds: u32) -> u64 {
                    let mut string = Wtf8Buf::new();
                    for round in 0..rounds {
                        if round % 64 == 0 {
                            string = Wtf8Buf::new();
                        }
                        string.push_wtf8(self.string_at(round));
                    }
                    black_box(string).len() as u64
                }
            }

            /// Each loop is a function of its own, so that the address of its code does not depend on the other loops.
            #[inline(never)]
            fn sum(rounds: u32, mut call: impl FnMut(u32) -> u64) -> u64 {
                (0..rounds).fold(0, |sum, round| sum.wrapping_add(call(round)))
            }
        }
    };
}

/// Copies units to the front of a slice. Returns their number plus the unit in their middle.
#[inline(always)]
fn copied(out: &mut [u16], units: impl Iterator<Item = u16>) -> u64 {
    let mut count = 0;
    for (slot, unit) in out.iter_mut().zip(units) {
        *slot = unit;
        count += 1;
    }
    let middle = black_box(&*out).get(count / 2);
    count as u64 + middle.copied().map_or(0, u64::from)
}

/// The bytes of a string in hexadecimal. Neither crate has such a call: this is what their users can write, with the
/// bytes that a hasher is fed, without the FE at their end.
fn hex_dump(text: &impl Hash) -> String {
    const DIGITS: &[u8; 16] = b"0123456789ABCDEF";
    let mut bytes = fed_by(text);
    bytes.pop();
    let mut dump = String::with_capacity(3 * bytes.len());
    for (at, byte) in bytes.iter().enumerate() {
        if at > 0 {
            dump.push(' ');
        }
        dump.push(char::from(DIGITS[usize::from(byte >> 4)]));
        dump.push(char::from(DIGITS[usize::from(byte & 15)]));
    }
    dump
}

column!(
    original,
    wtf8,
    from_ill_formed_utf16,
    to_ill_formed_utf16,
    is_some
);

#[cfg(std_wtf8)]
column!(standard, alloc::wtf8, from_wide, encode_wide, is_ok);
