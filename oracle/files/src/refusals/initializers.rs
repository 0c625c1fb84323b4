//! Refusals 3 and 4 in initializers.

use super::case::{Base, Case};
use super::pointers::{link, run};
use super::samples::{
    AS_ENUMERATED, CONSTANT_KINDS, ENTRY_KINDS, EVERY_CONSTANT, EVERY_EXPRESSION, EXPRESSION_KINDS,
    IN_ARRAYS, IN_MEMBER_LISTS, NO_VALUE,
};
use crate::layout::*;

pub fn cases() -> Vec<Case> {
    [
        kinds(),
        without_value(0, "initializer none"),
        without_value(1, "initializer of an interface"),
        subrange(),
        with_value(3, "simple initializer"),
        string(),
        with_value(5, "initializer of enumerated values"),
        with_value(6, "initializer of an enumerated type"),
        listing(7, "initializer of a function block"),
        listing(8, "initializer of a structure"),
        inline_array(),
        named_array(),
        reference(),
        with_value(11, "late resolved initializer"),
        without_value(12, "initializer by a call"),
        without_value(13, "initializer by an expression"),
        without_value(14, "initializer by a string expression"),
        constant_values(),
        enumerated_value(5, "value of enumerated values"),
        enumerated_value(6, "value of an enumerated type"),
        member_list(7, "members of a function block's initializer"),
        member_list(8, "members of a structure's initializer"),
        array_entries(),
    ]
    .concat()
}

/// Words of an initializer record.
const NAMED: usize = 1;
const ELEMENT: usize = 2;
const VALUE: usize = 3;
const RUN: usize = 4;
const RUN_COUNT: usize = 5;
const LENGTH: usize = 6;
const WIDTH: usize = 7;

/// The second of three initializers, in a file with two types.
fn initializer(name: &str, record: [u32; 8]) -> Base {
    Base::new(name)
        .two_types()
        .add(INITIALIZERS, &[NO_VALUE, record, NO_VALUE])
}

fn kinds() -> Vec<Case> {
    initializer("initializer", [0, 2, 0, 0, 0, 0, 0, 0])
        .also_at(INITIALIZERS, 1)
        .changes(&[
            (3, 0, &[15], "kind 15"),
            (3, 0, &[u32::MAX], "kind 4294967295"),
        ])
        .cases
}

fn without_value(kind: u32, name: &str) -> Vec<Case> {
    initializer(name, [kind, 1, 0, 0, 0, 0, 0, 0])
        .at(INITIALIZERS, 1)
        .link(NAMED, "named type", 2)
        .unused(&[ELEMENT, VALUE, RUN, RUN_COUNT, LENGTH, WIDTH])
        .cases
}

/// The named type and the unused words of the kinds that have a value link
/// and nothing else.
fn with_value(kind: u32, name: &str) -> Vec<Case> {
    initializer(name, [kind, 1, 0, 0, 0, 0, 0, 0])
        .at(INITIALIZERS, 1)
        .link(NAMED, "named type", 2)
        .unused(&UNUSED_BY_VALUE)
        .cases
}

const UNUSED_BY_VALUE: [usize; 5] = [ELEMENT, RUN, RUN_COUNT, LENGTH, WIDTH];

fn subrange() -> Vec<Case> {
    initializer("initializer of a subrange", [2, 1, 0, 0, 0, 0, 0, 0])
        .at(INITIALIZERS, 1)
        .link_or_inline(NAMED, "named type", 2)
        .unused(&UNUSED_BY_VALUE)
        .cases
}

/// The value of the only initializer, a constant: `expected` is by the
/// constant's kind. The last constant, 9, is of kind `own`, so that each
/// kind is a change.
fn constant_value(kind: u32, name: &str, own: u32, expected: [u32; 9]) -> Vec<Case> {
    Base::new(&format!("value of a {name}"))
        .add(INITIALIZERS, &[[kind, 0, 0, 10, 0, 0, 0, 0]])
        .add(CONSTANTS, &EVERY_CONSTANT)
        .add(CONSTANTS, &[[own, 0, 0, 0, 0]])
        .at(INITIALIZERS, 0)
        .kinds((VALUE, "link"), link, &CONSTANT_KINDS, &expected)
        .none_or_outside(VALUE, "link", 10)
        .cases
}

fn constant_values() -> Vec<Case> {
    let integers = [4, 0, 4, 4, 4, 4, 4, 4, 4];
    let strings = [4, 4, 4, 4, 4, 4, 4, 4, 0];
    [
        constant_value(2, "subrange initializer", 1, integers),
        constant_value(3, "simple initializer", 1, [0; 9]),
        constant_value(4, "string initializer", 8, strings),
        constant_value(11, "late resolved initializer", 1, [0; 9]),
    ]
    .concat()
}

fn string() -> Vec<Case> {
    initializer("initializer of a string", [4, 1, 0, 0, 0, 0, 11, 0])
        .at(INITIALIZERS, 1)
        .link(NAMED, "named type", 2)
        .changes(&[
            (0, LENGTH, &[0], "no length"),
            (0, LENGTH, &[1], "length 0"),
            (0, LENGTH, &[u32::MAX - 1], "length 4294967293"),
            (0, LENGTH, &[u32::MAX], "length not an integer"),
            (0, WIDTH, &[1], "wide"),
            (3, WIDTH, &[2], "width 2"),
            (3, WIDTH, &[u32::MAX], "width 4294967295"),
        ])
        .unused(&[ELEMENT, RUN, RUN_COUNT])
        .cases
}

/// Entry 14 is a second enumerated value without a name.
fn enumerated_value(kind: u32, name: &str) -> Vec<Case> {
    Base::new(name)
        .add(INITIALIZERS, &[[kind, 0, 0, 15, 0, 0, 0, 0]])
        .every_entry()
        .add(ENTRIES, &[[1, 0, 21, 9]])
        .at(INITIALIZERS, 0)
        .kinds((VALUE, "link"), link, &ENTRY_KINDS, &AS_ENUMERATED)
        .none_or_outside(VALUE, "link", 15)
        .cases
}

/// The kinds with a member list.
fn listing(kind: u32, name: &str) -> Vec<Case> {
    initializer(name, [kind, 1, 0, 0, 0, 0, 0, 0])
        .at(INITIALIZERS, 1)
        .link(NAMED, "named type", 2)
        .unused(&[ELEMENT, VALUE, LENGTH, WIDTH])
        .cases
}

fn member_list(kind: u32, name: &str) -> Vec<Case> {
    Base::new(name)
        .add(INITIALIZERS, &[[kind, 0, 0, 0, 7, 6, 0, 0]])
        .every_entry()
        .at(INITIALIZERS, 0)
        .kinds((RUN, "only one"), run, &ENTRY_KINDS, &IN_MEMBER_LISTS)
        .empty_runs(RUN, "run", 14)
        .run_outside(RUN, "run", 14)
        .changes(&[
            (0, RUN, &[6, 0], "run is empty at a nameless one"),
            (4, RUN, &[6, 7], "the first of seven has no name"),
            (4, RUN, &[7, 7], "the last of seven is a repeat"),
        ])
        .cases
}

fn inline_array() -> Vec<Case> {
    initializer(
        "initializer of an inline array",
        [9, INLINE, 1, 0, 0, 0, 0, 0],
    )
    .at(INITIALIZERS, 1)
    .link(ELEMENT, "element type", 2)
    .changes(&[
        (3, NAMED, &[1], "an element type although the type is named"),
        (
            3,
            NAMED,
            &[0],
            "an element type although the type is unknown",
        ),
        (
            3,
            NAMED,
            &[u32::MAX - 1],
            "an element type with a link outside",
        ),
    ])
    .unused(&[VALUE, LENGTH, WIDTH])
    .cases
}

fn named_array() -> Vec<Case> {
    initializer("initializer of a named array", [9, 1, 0, 0, 0, 0, 0, 0])
        .at(INITIALIZERS, 1)
        .any_link(NAMED, "named type", 2)
        .change(3, ELEMENT, &[2], "an element type")
        .change(3, ELEMENT, &[INLINE], "element type 4294967295")
        .unused(&[VALUE, LENGTH, WIDTH])
        .cases
}

fn array_entries() -> Vec<Case> {
    Base::new("entries of an array's initializer")
        .add(INITIALIZERS, &[[9, INLINE, 0, 0, 3, 2, 0, 0]])
        .every_entry()
        .at(INITIALIZERS, 0)
        .kinds((RUN, "only one"), run, &ENTRY_KINDS, &IN_ARRAYS)
        .empty_runs(RUN, "run", 14)
        .run_outside(RUN, "run", 14)
        .changes(&[
            (4, RUN, &[2, 2], "the first of two is an array"),
            (4, RUN, &[1, 2], "the second of two is an array"),
            (4, RUN, &[4, 3], "the second of three is late bound"),
            (4, RUN, &[6, 2], "the second of two has a name"),
        ])
        .cases
}

/// Expression 7 is a second null. A reference has no named type.
fn reference() -> Vec<Case> {
    let values = [4, 4, 4, 4, 0, 0, 4];
    Base::new("initializer of a reference")
        .two_types()
        .add(INITIALIZERS, &[[10, 0, 0, 8, 0, 0, 0, 0]])
        .add(ENTRIES, &[[5, 0, 0, 0], [1, 0, 20, 0]])
        .add(EXPRESSIONS, &EVERY_EXPRESSION)
        .add(EXPRESSIONS, &[[4, 0]])
        .add(CONSTANTS, &[[1, 0, 5, 0, 0]])
        .at(INITIALIZERS, 0)
        .kinds((VALUE, "value"), link, &EXPRESSION_KINDS, &values)
        .none_or_outside(VALUE, "value", 8)
        .change(3, NAMED, &[INLINE], "unused named type is inline")
        .unused(&[NAMED])
        .unused(&UNUSED_BY_VALUE)
        .cases
}
