//! The lists of scripts that `differ` always runs, by name.

pub mod blocks;
pub mod building;
pub mod examples;
pub mod few;
pub mod generate;
pub mod indexed;
pub mod long;
pub mod marked;
pub mod pairs;
pub mod pushed;
pub mod tables;
pub mod worked;

use crate::script::Call;

/// The name of a list, and the function that makes its scripts.
pub type List = (&'static str, fn() -> Vec<Vec<Call>>);

pub const LISTS: [List; 47] = [
    ("worked examples", worked::scripts),
    ("examples", examples::all),
    ("code points at edges", generate::edge_calls),
    ("pairs", pairs::pairs),
    ("up to four units", up_to_four_units),
    ("lists of building calls", building::lists_of_calls),
    ("extensions by one list", building::extensions),
    ("false hints", building::false_hints),
    ("slices inside strings", long::inside),
    ("cuts by units", long::cuts_by_units),
    ("fronts", long::fronts),
    ("joins", long::joins),
    ("one surrogate", long::one_surrogate),
    ("two surrogates", long::two_surrogates),
    ("one unit changed", long::changed_at_each_index),
    (
        "the first mismatch at each index",
        long::mismatch_at_each_index,
    ),
    (
        "one unit of another encoded length",
        long::another_length_at_each_index,
    ),
    ("mixed blocks", blocks::of_mixed_kinds),
    ("filled blocks", blocks::filled_blocks),
    ("last blocks", blocks::last_blocks),
    ("one wider letter", blocks::one_wider_letter),
    ("longest strings", long::longest),
    ("texts of each length", blocks::texts_of_each_length),
    (
        "one unit changed about blocks",
        blocks::changed_at_each_index,
    ),
    ("one surrogate about blocks", blocks::one_surrogate),
    ("debug texts about blocks", blocks::debug_texts),
    ("positions about blocks", blocks::positions),
    ("far positions", blocks::far),
    ("pushed after each length", pushed::after_each_length),
    (
        "units pushed from each index",
        pushed::units_from_each_index,
    ),
    ("six thousand units", pushed::far),
    ("few units pushed", few::pushed),
    ("strings of one surrogate", few::one_surrogate),
    ("encoded lengths of four units", tables::encoded_lengths),
    ("ends of units", tables::ends_of_units),
    ("one kind and another", blocks::one_kind_and_another),
    ("ended after letters", blocks::ended_after_letters),
    ("units after those written", blocks::units_after),
    ("lengths of pushed texts", indexed::counted),
    ("marks of up to four units", marked::up_to_four_units),
    ("marks about blocks", marked::about_blocks),
    ("worked examples of the indexed string", indexed::worked),
    (
        "the indexed string of up to three units",
        indexed::up_to_three_units,
    ),
    ("pushes of up to three units", indexed::divided),
    ("units replaced everywhere", indexed::replacements),
    (
        "units replaced by strings",
        indexed::replacements_by_strings,
    ),
    ("the indexed string about marks", indexed::about_marks),
];

fn up_to_four_units() -> Vec<Vec<Call>> {
    let lists = generate::unit_lists(4);
    lists
        .iter()
        .map(|units| generate::calls_on(units))
        .collect()
}
