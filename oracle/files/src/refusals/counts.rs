//! Refusal 2: a section has more records than stated, or Settings not one.

use super::case::{Base, Case};
use super::samples::{one_of_each, NO_VALUE, PLAIN_TYPE};
use crate::layout::*;
use crate::records::Records;

pub fn cases() -> Vec<Case> {
    let limits = (SHAPES..SECTIONS).flat_map(limit);
    settings().into_iter().chain(limits).collect()
}

fn settings() -> Vec<Case> {
    let empty = Base::new("one setting and nothing else");
    let whole = one_of_each();
    let second = |file: &mut Records| {
        file.push(SETTINGS, &[254]);
    };
    let two_more = |file: &mut Records| {
        file.push(SETTINGS, &[0]);
        file.push(SETTINGS, &[65_535]);
    };
    let none = |file: &mut Records| file.sections[SETTINGS].clear();
    vec![
        empty.case(2, "the setting left out: 14 words of 0", none),
        empty.case(2, "a second setting", second),
        empty.case(2, "two settings more", two_more),
        whole.case(2, "the setting left out", none),
        whole.case(2, "a second setting", second),
    ]
}

/// `section` at its limit, and one past it.
fn limit(section: usize) -> [Case; 2] {
    let most = MOST[section];
    let base = filled(section, most);
    let past = base.case(2, "one record more", |file| {
        file.push(section, &record(section, most as u32));
    });
    [base.unchanged(), past]
}

/// `count` records of `section`, the last of them in use.
fn filled(section: usize, count: usize) -> Base {
    let records: Vec<_> = (0..count as u32)
        .map(|number| record(section, number))
        .collect();
    let name = format!("{count} {}", NAMES[section]);
    user(Base::new(&name), section, count as u32).add(section, &records)
}

/// A record that may stand in `section` any number of times. Shapes differ,
/// as two alike ones are another refusal.
fn record(section: usize, number: u32) -> Vec<u32> {
    match section {
        SHAPES => vec![14, number + 1, 0, 0, 0],
        MEMBERS => vec![20],
        SHAPE_FIELDS => vec![40, 0, 0],
        DIMENSIONS => vec![0, 0],
        TYPES => PLAIN_TYPE.to_vec(),
        BLOCK_FIELDS => vec![50, 0, 0],
        ELEMENTS => vec![40, 0],
        VARIABLES => vec![50, 4, 0, 0],
        INITIALIZERS => NO_VALUE.to_vec(),
        // A repeat without an inner entry, a null and a bit string.
        ENTRIES => vec![6, 0, 1, 0],
        EXPRESSIONS => vec![4, 0],
        CONSTANTS => vec![2, 0, number, 0, 0],
        _ => vec![65],
    }
}

/// The records that use the last of `count` records of `section`, or all of
/// them, and what those need themselves.
fn user(base: Base, section: usize, count: u32) -> Base {
    let bool_shape = [0, 0, 0, 0, 0];
    match section {
        SHAPES => base.add(TYPES, &[[count - 1, 0, 0, 0, 0, 0, 0, 0, 0, INLINE, 0]]),
        MEMBERS => base.add(SHAPES, &[[10, 0, count, count - 1, 0]]),
        SHAPE_FIELDS => base.add(SHAPES, &[bool_shape, [11, 0, count, 0, 0]]),
        DIMENSIONS => base.add(SHAPES, &[bool_shape, [12, 0, 0, count, 0]]),
        TYPES => base
            .add(SHAPES, &[bool_shape])
            .add(BLOCK_FIELDS, &[[50, count, 0]]),
        BLOCK_FIELDS => base
            .add(SHAPES, &[bool_shape])
            .add(TYPES, &[[0, 0, 0, 0, 0, 0, 0, 0, 0, 0, count]]),
        ELEMENTS => base
            .add(SHAPES, &[bool_shape])
            .add(TYPES, &[[0, 0, 0, 0, 5, 0, 0, 0, count, INLINE, 0]])
            .add(INITIALIZERS, &[NO_VALUE]),
        VARIABLES => base
            .add(SHAPES, &[bool_shape])
            .add(TYPES, &[[0, 0, 0, 0, 9, 0, 0, 0, count, INLINE, 0]])
            .add(INITIALIZERS, &[NO_VALUE]),
        INITIALIZERS => base.add(ELEMENTS, &[[40, count - 1]]),
        ENTRIES => base.add(INITIALIZERS, &[[9, 0, 0, 0, 0, count, 0, 0]]),
        EXPRESSIONS => base.add(INITIALIZERS, &[[10, 0, 0, count, 0, 0, 0, 0]]),
        CONSTANTS => base.add(ENTRIES, &[[0, 0, count - 1, 0]]),
        _ => base.add(CONSTANTS, &[[8, 0, 0, count, 0]]),
    }
}
