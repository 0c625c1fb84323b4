//! Which of the refusals 1 to 6 of document 01 a file meets first. Each
//! refusal is decided over the whole file before the next one.
//!
//! Every word of a record has one role, given by the record's kind. A plain
//! word, an unused word or a name with a value that isn't allowed is refusal
//! 3; a number, link or run that isn't allowed is refusal 4.

use crate::layout::*;
use std::collections::HashSet;

/// The most elements an array shape may have.
const MOST_ELEMENTS: u64 = 65_536;

/// The greatest default string length.
const MOST_CHARACTERS: u32 = 65_535;

/// The number of the first refusal of 1 to 6 that `words` meet, or 0.
pub fn verdict(words: &[u32]) -> u32 {
    let Some(file) = File::open(words) else {
        return 1;
    };
    if !counts_allowed(&file) {
        return 2;
    }
    if !every_record(&file, plain_words_allowed) {
        return 3;
    }
    if !every_record(&file, pointers_allowed) {
        return 4;
    }
    if has_alike_shapes(&file) {
        return 5;
    }
    if has_too_many_elements(&file) {
        return 6;
    }
    0
}

/// Refusal 2: every section within its limit, exactly one Settings record.
fn counts_allowed(file: &File) -> bool {
    file.count(SETTINGS) == 1 && (0..SECTIONS).all(|section| file.count(section) <= MOST[section])
}

/// Whether `allowed` holds of every record (file, section, record's number).
fn every_record(file: &File, allowed: fn(&File, usize, usize) -> bool) -> bool {
    (0..SECTIONS)
        .all(|section| (0..file.count(section)).all(|number| allowed(file, section, number)))
}

// Refusal 3.

fn plain_words_allowed(file: &File, section: usize, number: usize) -> bool {
    let record = file.record(section, number);
    match section {
        SETTINGS => record[0] <= MOST_CHARACTERS,
        SHAPES => plain_shape(record),
        MEMBERS => is_name(record[0]),
        SHAPE_FIELDS => is_name(record[0]) && is_flag(record[2]),
        DIMENSIONS => record[0] as i32 <= record[1] as i32,
        TYPES => plain_type(record),
        BLOCK_FIELDS => is_name(record[0]) && record[2] <= 3,
        ELEMENTS => is_name(record[0]),
        VARIABLES => record[1] <= 5,
        INITIALIZERS => plain_initializer(record),
        ENTRIES => plain_entry(record),
        EXPRESSIONS => plain_expression(record),
        CONSTANTS => plain_constant(record),
        CHARACTERS => true,
        _ => unreachable!("a file has fourteen sections"),
    }
}

/// A name that must be there.
fn is_name(word: u32) -> bool {
    word != 0
}

fn is_flag(word: u32) -> bool {
    word <= 1
}

/// Whether `words` are unused words.
fn unused(words: &[u32]) -> bool {
    words.iter().all(|word| *word == 0)
}

fn plain_shape(record: &[u32]) -> bool {
    match record[0] {
        0 => unused(&record[1..]),
        1..=8 => matches!(record[1], 8 | 16 | 32 | 64) && unused(&record[2..]),
        // 1 + length, any word; then the width.
        9 => is_flag(record[2]) && unused(&record[3..]),
        // Run of members, default's place (any word), link.
        10 => true,
        // Run of shape fields.
        11 => unused(&record[3..]),
        // Element shape, run of dimensions.
        12 => unused(&record[4..]),
        // Base shape, two constants.
        13 => unused(&record[4..]),
        14 | 15 => is_name(record[1]) && unused(&record[2..]),
        // Target shape.
        16 => unused(&record[2..]),
        _ => false,
    }
}

fn plain_type(record: &[u32]) -> bool {
    let declaration = record[4];
    declaration <= 9
        && (type_names_another(declaration) || record[5] == 0)
        && (matches!(declaration, 1..=3) || record[6] == 0)
        && (matches!(declaration, 4 | 5 | 9) || unused(&record[7..9]))
}

/// Whether a declaration of this kind uses its named type word.
fn type_names_another(declaration: u32) -> bool {
    matches!(declaration, 2 | 4 | 6 | 7 | 8)
}

fn plain_initializer(record: &[u32]) -> bool {
    let kind = record[0];
    let inline_array = kind == 9 && record[1] == INLINE;
    kind <= 14
        && (kind != 10 || record[1] == 0)
        && (inline_array || record[2] == 0)
        && (matches!(kind, 2..=6 | 10 | 11) || record[3] == 0)
        && (matches!(kind, 7..=9) || unused(&record[4..6]))
        && match kind {
            // 1 + string length, any word; then the width.
            4 => is_flag(record[7]),
            _ => unused(&record[6..8]),
        }
}

fn plain_entry(record: &[u32]) -> bool {
    match record[0] {
        // A constant's or an expression's number.
        0 | 4 => record[3] == 0,
        // Value name and qualifier, which may be 0.
        1 => is_name(record[2]),
        // A run.
        2 | 3 => true,
        5 => unused(&record[2..]),
        // Count (any word) and link.
        6 => true,
        _ => false,
    }
}

fn plain_expression(record: &[u32]) -> bool {
    match record[0] {
        0..=3 => true,
        4..=6 => record[1] == 0,
        _ => false,
    }
}

fn plain_constant(record: &[u32]) -> bool {
    let [kind, sign, low, high, width] = record else {
        unreachable!("a constant has five words");
    };
    let signed = matches!(kind, 1 | 4) && (*low, *high) != (0, 0);
    let size_allowed = match kind {
        0 => is_flag(*low) && *high == 0,
        _ => true,
    };
    let width_allowed = match kind {
        4..=8 => is_flag(*width),
        _ => *width == 0,
    };
    *kind <= 8 && (*sign == 0 || *sign == 1 && signed) && size_allowed && width_allowed
}

// Refusal 4.

fn pointers_allowed(file: &File, section: usize, number: usize) -> bool {
    let record = file.record(section, number);
    match section {
        SHAPES => shape_pointers(file, number as u32, record),
        SHAPE_FIELDS => is_number(file, SHAPES, record[1]),
        TYPES => type_pointers(file, record),
        BLOCK_FIELDS => is_link(file, TYPES, record[1]),
        ELEMENTS => is_number(file, INITIALIZERS, record[1]),
        VARIABLES => is_link(file, TYPES, record[2]) && is_number(file, INITIALIZERS, record[3]),
        INITIALIZERS => initializer_pointers(file, record),
        ENTRIES => entry_pointers(file, number as u32, record),
        EXPRESSIONS => expression_pointers(file, number as u32, record),
        CONSTANTS => record[0] != 8 || is_run(file, CHARACTERS, record[2], record[3]),
        _ => true,
    }
}

fn is_number(file: &File, section: usize, number: u32) -> bool {
    (number as usize) < file.count(section)
}

/// A link, which may be 0 for none.
fn is_link(file: &File, section: usize, link: u32) -> bool {
    link as usize <= file.count(section)
}

fn is_run(file: &File, section: usize, first: u32, count: u32) -> bool {
    u64::from(first) + u64::from(count) <= file.count(section) as u64
}

/// Whether the run lists only records that `allowed` holds of.
fn is_run_of(
    file: &File,
    section: usize,
    first: u32,
    count: u32,
    allowed: fn(&[u32]) -> bool,
) -> bool {
    is_run(file, section, first, count)
        && (0..count).all(|place| allowed(file.record(section, (first + place) as usize)))
}

/// Whether the run lists only records of numbers below `number`.
fn is_lower_run(first: u32, count: u32, number: u32) -> bool {
    count == 0 || u64::from(first) + u64::from(count) <= u64::from(number)
}

/// A link to a record of `section` that `allowed` holds of, or 0.
fn is_link_to(file: &File, section: usize, link: u32, allowed: fn(&[u32]) -> bool) -> bool {
    link == 0 || is_link(file, section, link) && allowed(file.record(section, (link - 1) as usize))
}

/// The number of a record of `section` that `allowed` holds of.
fn is_number_of(file: &File, section: usize, number: u32, allowed: fn(&[u32]) -> bool) -> bool {
    is_number(file, section, number) && allowed(file.record(section, number as usize))
}

fn is_integer(constant: &[u32]) -> bool {
    constant[0] == 1
}

fn is_string(constant: &[u32]) -> bool {
    constant[0] == 8
}

/// An entry as it stands in a member list.
fn is_member_entry(entry: &[u32]) -> bool {
    entry[0] <= 5 && entry[1] != 0
}

/// An entry as it stands in an array or a repeat.
fn is_array_entry(entry: &[u32]) -> bool {
    matches!(entry[0], 0 | 1 | 3 | 4 | 6) && entry[1] == 0
}

/// An entry as it stands in an expression or an enumeration's value.
fn is_enumerated_entry(entry: &[u32]) -> bool {
    entry[0] == 1 && entry[1] == 0
}

/// An expression that a reference's value may be.
fn is_reference_value(expression: &[u32]) -> bool {
    matches!(expression[0], 4 | 5)
}

fn any(_: &[u32]) -> bool {
    true
}

fn shape_pointers(file: &File, number: u32, record: &[u32]) -> bool {
    match record[0] {
        10 => is_run(file, MEMBERS, record[1], record[2]) && record[4] <= number,
        11 => {
            is_run(file, SHAPE_FIELDS, record[1], record[2])
                && (0..record[2]).all(|place| {
                    let field = file.record(SHAPE_FIELDS, (record[1] + place) as usize);
                    field[1] < number
                })
        }
        12 => {
            record[1] < number && record[3] != 0 && is_run(file, DIMENSIONS, record[2], record[3])
        }
        13 => {
            record[1] < number
                && is_number_of(file, CONSTANTS, record[2], is_integer)
                && is_number_of(file, CONSTANTS, record[3], is_integer)
        }
        16 => record[1] < number,
        _ => true,
    }
}

fn type_pointers(file: &File, record: &[u32]) -> bool {
    let declaration = record[4];
    let (first, count) = (record[7], record[8]);
    is_number(file, SHAPES, record[0])
        && is_link(file, TYPES, record[1])
        && is_link(file, TYPES, record[2])
        && is_link(file, TYPES, record[3])
        && match declaration {
            2 | 4 => is_link_or_inline(file, record[5]),
            _ => is_link(file, TYPES, record[5]),
        }
        && match declaration {
            1 => record[6] != 0 && is_link(file, INITIALIZERS, record[6]),
            2 => is_link_to(file, CONSTANTS, record[6], is_integer),
            3 => is_link_to(file, CONSTANTS, record[6], is_string),
            _ => true,
        }
        && match declaration {
            4 => is_run_of(file, ENTRIES, first, count, is_array_entry),
            5 => is_run(file, ELEMENTS, first, count),
            9 => is_run(file, VARIABLES, first, count),
            _ => true,
        }
        && (is_run(file, BLOCK_FIELDS, record[9], record[10])
            || (record[9], record[10]) == (INLINE, 0))
}

fn is_link_or_inline(file: &File, link: u32) -> bool {
    link == INLINE || is_link(file, TYPES, link)
}

fn initializer_pointers(file: &File, record: &[u32]) -> bool {
    let kind = record[0];
    let (first, count) = (record[4], record[5]);
    (match kind {
        2 | 9 => is_link_or_inline(file, record[1]),
        _ => is_link(file, TYPES, record[1]),
    }) && is_link(file, TYPES, record[2])
        && match kind {
            2 => is_link_to(file, CONSTANTS, record[3], is_integer),
            3 | 11 => is_link_to(file, CONSTANTS, record[3], any),
            4 => is_link_to(file, CONSTANTS, record[3], is_string),
            5 | 6 => is_link_to(file, ENTRIES, record[3], is_enumerated_entry),
            10 => is_link_to(file, EXPRESSIONS, record[3], is_reference_value),
            _ => true,
        }
        && match kind {
            7 | 8 => is_run_of(file, ENTRIES, first, count, is_member_entry),
            9 => is_run_of(file, ENTRIES, first, count, is_array_entry),
            _ => true,
        }
}

fn entry_pointers(file: &File, number: u32, record: &[u32]) -> bool {
    let (third, fourth) = (record[2], record[3]);
    match record[0] {
        0 => is_number(file, CONSTANTS, third),
        2 => {
            is_run_of(file, ENTRIES, third, fourth, is_array_entry)
                && is_lower_run(third, fourth, number)
        }
        3 => {
            is_run_of(file, ENTRIES, third, fourth, is_member_entry)
                && is_lower_run(third, fourth, number)
        }
        4 => is_number(file, EXPRESSIONS, third),
        6 => is_link_to(file, ENTRIES, fourth, is_array_entry) && fourth <= number,
        _ => true,
    }
}

fn expression_pointers(file: &File, number: u32, record: &[u32]) -> bool {
    match record[0] {
        0 => is_number(file, CONSTANTS, record[1]),
        1 => is_number_of(file, ENTRIES, record[1], is_enumerated_entry),
        2 | 3 => record[1] < number,
        _ => true,
    }
}

// Refusal 5.

fn has_alike_shapes(file: &File) -> bool {
    let mut seen = HashSet::new();
    (0..file.count(SHAPES)).any(|number| !seen.insert(listed_shape(file, number)))
}

/// A shape's words with what its run lists in place of the run and its
/// constants' values in place of their numbers: two shapes are alike when
/// these are equal. Lower shapes keep their numbers, as no two of them are
/// alike.
fn listed_shape(file: &File, number: usize) -> Vec<u32> {
    let record = file.record(SHAPES, number);
    let mut listed = vec![record[0]];
    match record[0] {
        10 => {
            listed.extend_from_slice(&record[3..]);
            list(file, MEMBERS, record[1], record[2], &mut listed);
        }
        11 => list(file, SHAPE_FIELDS, record[1], record[2], &mut listed),
        12 => {
            listed.push(record[1]);
            list(file, DIMENSIONS, record[2], record[3], &mut listed);
        }
        13 => {
            listed.push(record[1]);
            listed.extend_from_slice(integer_value(file, record[2]));
            listed.extend_from_slice(integer_value(file, record[3]));
        }
        _ => listed.extend_from_slice(&record[1..]),
    }
    listed
}

/// Appends the words of the records that a run lists.
fn list(file: &File, section: usize, first: u32, count: u32, listed: &mut Vec<u32>) {
    for number in first..first + count {
        listed.extend_from_slice(file.record(section, number as usize));
    }
}

/// The sign and size of an integer constant.
fn integer_value<'a>(file: &File<'a>, number: u32) -> &'a [u32] {
    &file.record(CONSTANTS, number as usize)[1..4]
}

// Refusal 6.

fn has_too_many_elements(file: &File) -> bool {
    (0..file.count(SHAPES)).any(|number| {
        let record = file.record(SHAPES, number);
        record[0] == 12 && has_more_elements(file, record[2], record[3], MOST_ELEMENTS)
    })
}

/// Whether the product of the dimensions' lengths is above `most`. A length
/// is at least 1, so that the product never falls again.
fn has_more_elements(file: &File, first: u32, count: u32, most: u64) -> bool {
    let mut elements = 1u64;
    for number in first..first + count {
        let record = file.record(DIMENSIONS, number as usize);
        let length = i64::from(record[1] as i32) - i64::from(record[0] as i32) + 1;
        elements *= length as u64;
        if elements > most {
            return true;
        }
    }
    false
}

#[cfg(test)]
mod tests;
