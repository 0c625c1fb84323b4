//! The examples of document 01 that concern trees.

mod common;

use common::*;
use files::layout::*;

/// The value of a variable of an undeclared type of `shape`, initialized with
/// the constant that `constant` pushes.
fn simple_value(
    shape: [u32; 5],
    constant: impl Fn(&mut Draft) -> u32,
) -> Option<Vec<answers::Node>> {
    let mut draft = Draft::new();
    let link = draft.plain(shape);
    let constant = constant(&mut draft);
    draft.variable(link, simple(link, Some(constant)));
    draft.answers().variables.remove(0)
}

/// The value of a variable of ARRAY[1..3] OF INT with the entries that
/// `entries` pushes, from the first that it names to the last in the section.
fn array_value(entries: impl Fn(&mut Draft) -> u32) -> Option<Vec<answers::Node>> {
    let mut draft = Draft::new();
    let int = draft.plain(INT);
    let dimension = draft.push(DIMENSIONS, &[1, 3]);
    let shape = draft.shape([12, 0, dimension, 1, 0]);
    let array = draft.type_of(shape, [0, int, 0], [0; 5]);
    let first = entries(&mut draft);
    let count = draft.entry([5, 0, 0, 0]) - first;
    draft.variable(array, [9, array, 0, 0, first, count, 0, 0]);
    draft.answers().variables.remove(0)
}

fn constant_entry(draft: &mut Draft, value: i128) -> u32 {
    let number = draft.integer(value);
    draft.constant_entry(number)
}

/// `count(inner)`, an entry, or `count()` for inner 0, which is a link.
fn repeat(draft: &mut Draft, count: u32, inner: u32) -> u32 {
    draft.entry([6, 0, count, inner])
}

#[test]
fn an_array_takes_values_from_the_front() {
    let value = array_value(|draft| constant_entry(draft, 5));
    assert_eq!(value, Some(integers(&[5, 0, 0])));
}

/// `[5,count(7)]`.
fn five_and_repeated_sevens(count: u32) -> Option<Vec<answers::Node>> {
    array_value(|draft| {
        let seven = constant_entry(draft, 7);
        let five = constant_entry(draft, 5);
        repeat(draft, count, seven + 1);
        five
    })
}

#[test]
fn a_repeat_copies_its_entry() {
    assert_eq!(five_and_repeated_sevens(2), Some(integers(&[5, 7, 7])));
    assert_eq!(five_and_repeated_sevens(3), None);
}

#[test]
fn an_empty_repeat_takes_defaults() {
    let value = array_value(|draft| repeat(draft, 3, 0));
    assert_eq!(value, Some(integers(&[0, 0, 0])));
    assert_eq!(array_value(|draft| repeat(draft, 4, 0)), None);
}

#[test]
fn a_repeat_of_none_still_reads_its_entry() {
    let value = array_value(|draft| {
        let yes = draft.constant([0, 0, 1, 0, 0]);
        let yes = draft.constant_entry(yes);
        repeat(draft, 0, yes + 1)
    });
    assert_eq!(value, None);
}

#[test]
fn a_bool_takes_the_integers_0_and_1() {
    let yes = [0, 0, 0, 1, 0, 0];
    let value = |constant: fn(&mut Draft) -> u32| simple_value(BOOL, constant);
    assert_eq!(value(|draft| draft.integer(1)), Some(vec![yes]));
    assert_eq!(value(|draft| draft.integer(2)), None);
    assert_eq!(value(|draft| draft.sized(2, 1)), None);
}

#[test]
fn a_sint_holds_minus_128() {
    let value = simple_value(SINT, |draft| draft.integer(-128));
    assert_eq!(value, Some(vec![integer(-128)]));
    assert_eq!(simple_value(SINT, |draft| draft.integer(-129)), None);
}

#[test]
fn a_string_is_cut_to_its_length() {
    let mut draft = Draft::new();
    let link = draft.plain([9, 4, 0, 0, 0]);
    draft.string("xy");
    let abcd = draft.string("ABCD");
    draft.variable(link, simple(link, Some(abcd)));
    draft.variable(link, [4, link, 0, abcd + 1, 0, 0, 4, 0]);
    let cut = [[0, 8, 0, 2, 3, 0]];
    let answers = draft.answers();
    assert_eq!(answers.variables, [Some(cut.to_vec()), Some(cut.to_vec())]);
    assert_eq!(answers.completed, [completed(3, &cut), completed(4, &cut)]);
}

#[test]
fn a_string_has_at_most_65535_characters() {
    let mut draft = Draft::new();
    let longest = draft.plain([9, 65_536, 0, 0, 0]);
    let longer = draft.plain([9, 65_537, 0, 0, 0]);
    for (link, length) in [(longest, 65_536), (longer, 65_537)] {
        draft.variable(link, simple(link, None));
        draft.variable(link, [4, link, 0, 0, 0, 0, length, 0]);
    }
    let empty = Some(vec![[0, 8, 0, 0, 0, 0]]);
    let answers = draft.answers();
    assert_eq!(answers.types, [empty.clone(), None]);
    assert_eq!(answers.variables, [empty.clone(), empty, None, None]);
}

#[test]
fn a_real_rounds_to_nearest_ties_to_even() {
    for (from, to) in [(16_777_217, 16_777_216.0), (16_777_219, 16_777_220.0)] {
        let value = simple_value(REAL, |draft| draft.integer(from));
        assert_eq!(value, Some(vec![real(to)]));
    }
}

#[test]
fn an_lreal_rounds_to_nearest_ties_to_even() {
    let value = simple_value(LREAL, |draft| draft.integer(9_007_199_254_740_993));
    assert_eq!(value, Some(vec![real(9_007_199_254_740_992.0)]));
}

#[test]
fn a_time_of_32_bits_holds_2147483647_milliseconds() {
    let value = simple_value(TIME, |draft| draft.sized(4, 2_147_483_647));
    assert_eq!(value, Some(vec![[0, 4, 0, 2_147_483_647, 0, 0]]));
    let value = simple_value(TIME, |draft| draft.sized(4, 2_147_483_648));
    assert_eq!(value, None);
}

#[test]
fn an_array_of_2047_int_has_2048_nodes() {
    for places in [2_047, 2_048] {
        let mut draft = Draft::new();
        let int = draft.plain(INT);
        let dimension = draft.push(DIMENSIONS, &[1, places]);
        let shape = draft.shape([12, 0, dimension, 1, 0]);
        draft.type_of(shape, [0, int, 0], [0; 5]);
        // The Rust knows no limit; too large is the paper's own.
        let tree = draft.answers().types.remove(1);
        assert_eq!(tree.map(|tree| tree.len()), Some(places as usize + 1));
    }
}

/// Pushes shapes for a subrange 1..9 of INT; gives its number.
fn subrange_shape(draft: &mut Draft) -> u32 {
    let base = draft.shape(INT);
    let (least, greatest) = (draft.integer(1), draft.integer(9));
    draft.shape([13, base, least, greatest, 0])
}

#[test]
fn a_subrange_of_its_own_alias_goes_by_number() {
    let five = Some(vec![integer(5)]);
    for (subrange, alias, expected) in [(1, 2, [five.clone(), None]), (2, 1, [five.clone(), five])]
    {
        let mut draft = Draft::new();
        let shape = subrange_shape(&mut draft);
        let start = draft.integer(5);
        let initializer = draft.initializer(simple(subrange, None));
        for link in [1, 2] {
            match link == subrange {
                true => draft.type_of(shape, [0; 3], [2, alias, start + 1, 0, 0]),
                false => draft.type_of(shape, [subrange, 0, 0], [1, 0, initializer + 1, 0, 0]),
            };
        }
        assert_eq!(draft.answers().types, expected);
    }
}

#[test]
fn one_bool_type_and_one_plain_variable() {
    let mut draft = Draft::new();
    let link = draft.plain(BOOL);
    draft.variable(link, simple(link, None));
    let no = [[0, 0, 0, 0, 0, 0]];
    let answers = draft.answers();
    assert_eq!(answers.types, [Some(no.to_vec())]);
    assert_eq!(answers.variables, [Some(no.to_vec())]);
    assert_eq!(answers.completed, [completed(3, &no)]);
}
