//! Refusals 3 and 4 in types, block fields, elements and variables.

use super::case::{Base, Case, Spot};
use super::pointers::{link, run};
use super::samples::{
    CONSTANT_KINDS, ENTRY_KINDS, EVERY_CONSTANT, IN_ARRAYS, NO_VALUE, PLAIN_TYPE,
};
use crate::layout::*;

pub fn cases() -> Vec<Case> {
    [
        undeclared(),
        simple(),
        subrange(),
        subrange_start(),
        string(),
        string_start(),
        array(),
        array_entries(),
        structure(),
        naming_another(6, "type declared as a reference"),
        naming_another(7, "type declared as an enumeration"),
        naming_another(8, "type declared late bound"),
        function_block(),
        last_type(),
        block_fields(),
        elements(),
        variables(),
    ]
    .concat()
}

/// Words of a type record.
const SHAPE: usize = 0;
const ALIAS_BASE: usize = 1;
const ELEMENT: usize = 2;
const REFERENCED: usize = 3;
const DECLARATION: usize = 4;
const NAMED: usize = 5;
const START: usize = 6;
const RUN: usize = 7;
const RUN_COUNT: usize = 8;
const BLOCK: usize = 9;

/// The first of two types, in a file with three shapes and four block
/// fields. `declared` are the words from the declaration to the run.
fn type_of(name: &str, declared: [u32; 5]) -> Base {
    let [declaration, named, start, first, count] = declared;
    let record = [0, 1, 1, 1, declaration, named, start, first, count, 1, 1];
    Base::new(name)
        .add(
            SHAPES,
            &[[0, 0, 0, 0, 0], [1, 16, 0, 0, 0], [2, 8, 0, 0, 0]],
        )
        .add(TYPES, &[record, PLAIN_TYPE])
        .add(
            BLOCK_FIELDS,
            &[[50, 0, 0], [51, 0, 0], [52, 0, 0], [53, 0, 0]],
        )
}

/// The only type, without a block record, in a file with one shape.
fn only_type(name: &str, declared: [u32; 5]) -> Base {
    let [declaration, named, start, first, count] = declared;
    let record = [
        0,
        0,
        0,
        0,
        declaration,
        named,
        start,
        first,
        count,
        INLINE,
        0,
    ];
    Base::new(name).add(SHAPES, &[[0; 5]]).add(TYPES, &[record])
}

/// The changes that have one answer whatever the declaration is.
fn any_declaration(spot: Spot) -> Spot {
    spot.changes(&[
        (4, SHAPE, &[3], "shape one past the last"),
        (4, ALIAS_BASE, &[3], "alias base one past the last"),
        (4, ELEMENT, &[3], "element type one past the last"),
        (4, REFERENCED, &[3], "referenced type one past the last"),
        (4, BLOCK, &[1, 4], "block fields end one past the section"),
        (0, BLOCK, &[INLINE, 0], "no block record"),
        (4, BLOCK, &[INLINE, 1], "no block record, but count 1"),
    ])
}

/// A named type that the declaration doesn't use.
fn unused_name(spot: Spot) -> Spot {
    spot.unused(&[NAMED])
        .change(3, NAMED, &[INLINE], "unused named type is inline")
}

fn undeclared() -> Vec<Case> {
    let base = type_of("type without a declaration", [0, 0, 0, 0, 0]);
    let spot = base
        .at(TYPES, 0)
        .number(SHAPE, "shape", 3)
        .link(ALIAS_BASE, "alias base", 2)
        .link(ELEMENT, "element type", 2)
        .link(REFERENCED, "referenced type", 2);
    let spot = unused_name(block_record(spot)).unused(&[START, RUN, RUN_COUNT]);
    let spot = spot.changes(&[
        (3, DECLARATION, &[10], "declaration 10"),
        (3, DECLARATION, &[u32::MAX], "declaration 4294967295"),
        (3, START, &[99], "unused start value is 99"),
        (
            3,
            RUN,
            &[1, u32::MAX],
            "unused run of words whose sum is 2^32",
        ),
    ]);
    let mut cases = spot.cases;
    cases.push(shapeless());
    cases
}

fn block_record(spot: Spot) -> Spot {
    spot.empty_runs(BLOCK, "run of block fields", 4)
        .run_outside(BLOCK, "run of block fields", 4)
        .changes(&[
            (
                0,
                BLOCK,
                &[0, 4],
                "run of block fields is the whole section",
            ),
            (0, BLOCK, &[INLINE, 0], "no block record"),
            (4, BLOCK, &[INLINE, 2], "no block record, but count 2"),
            (
                4,
                BLOCK,
                &[INLINE - 1, 0],
                "run of block fields is empty at 4294967294",
            ),
        ])
}

fn shapeless() -> Case {
    Base::new("one setting and nothing else").case(4, "a type without shapes", |file| {
        file.push(TYPES, &PLAIN_TYPE);
    })
}

fn simple() -> Vec<Case> {
    let base = type_of("type declared simple", [1, 0, 1, 0, 0]).add(INITIALIZERS, &[NO_VALUE; 5]);
    let spot = any_declaration(base.at(TYPES, 0)).changes(&[
        (4, START, &[0], "start value none"),
        (0, START, &[5], "start value the last initializer"),
        (4, START, &[6], "start value one past the last initializer"),
        (4, START, &[u32::MAX], "start value 4294967295"),
    ]);
    unused_name(spot).unused(&[RUN, RUN_COUNT]).cases
}

fn subrange() -> Vec<Case> {
    let base = type_of("type declared as a subrange", [2, 1, 0, 0, 0]);
    any_declaration(base.at(TYPES, 0))
        .link_or_inline(NAMED, "named type", 2)
        .unused(&[RUN, RUN_COUNT])
        .cases
}

/// Constant 9 is a second integer, so that each kind is a change.
fn subrange_start() -> Vec<Case> {
    let integers = [4, 0, 4, 4, 4, 4, 4, 4, 4];
    only_type("start value of a subrange type", [2, INLINE, 10, 0, 0])
        .add(CONSTANTS, &EVERY_CONSTANT)
        .add(CONSTANTS, &[[1, 0, 7, 0, 0]])
        .at(TYPES, 0)
        .kinds((START, "link"), link, &CONSTANT_KINDS, &integers)
        .none_or_outside(START, "link", 10)
        .cases
}

fn string() -> Vec<Case> {
    let base = type_of("type declared as a string", [3, 0, 0, 0, 0]);
    let spot = any_declaration(base.at(TYPES, 0));
    unused_name(spot).unused(&[RUN, RUN_COUNT]).cases
}

/// Constant 9 is a second string.
fn string_start() -> Vec<Case> {
    let strings = [4, 4, 4, 4, 4, 4, 4, 4, 0];
    only_type("start value of a string type", [3, 0, 10, 0, 0])
        .add(CONSTANTS, &EVERY_CONSTANT)
        .add(CONSTANTS, &[[8, 0, 0, 0, 1]])
        .at(TYPES, 0)
        .kinds((START, "link"), link, &CONSTANT_KINDS, &strings)
        .none_or_outside(START, "link", 10)
        .cases
}

fn array() -> Vec<Case> {
    let base = type_of("type declared as an array", [4, 1, 0, 0, 0]);
    any_declaration(base.at(TYPES, 0))
        .link_or_inline(NAMED, "named type", 2)
        .unused(&[START])
        .cases
}

fn array_entries() -> Vec<Case> {
    only_type("entries of an array type", [4, INLINE, 0, 3, 2])
        .every_entry()
        .at(TYPES, 0)
        .kinds((RUN, "only one"), run, &ENTRY_KINDS, &IN_ARRAYS)
        .empty_runs(RUN, "run", 14)
        .run_outside(RUN, "run", 14)
        .changes(&[
            (0, RUN, &[0, 2], "a constant and an enumerated value"),
            (0, RUN, &[2, 0], "run is empty at an array"),
            (4, RUN, &[1, 2], "the second of two is an array"),
            (4, RUN, &[2, 2], "the first of two is an array"),
            (4, RUN, &[4, 3], "the second of three is late bound"),
            (4, RUN, &[6, 2], "the second of two has a name"),
        ])
        .cases
}

fn structure() -> Vec<Case> {
    let base = type_of("type declared as a structure", [5, 0, 0, 1, 1])
        .add(ELEMENTS, &[[40, 0]; 5])
        .add(INITIALIZERS, &[NO_VALUE]);
    let spot = any_declaration(base.at(TYPES, 0)).run(RUN, "run of elements", 5);
    unused_name(spot).unused(&[START]).cases
}

/// The declarations that use their named type alone, and never inline.
fn naming_another(declaration: u32, name: &str) -> Vec<Case> {
    let base = type_of(name, [declaration, 1, 0, 0, 0]);
    any_declaration(base.at(TYPES, 0))
        .link(NAMED, "named type", 2)
        .unused(&[START, RUN, RUN_COUNT])
        .cases
}

fn function_block() -> Vec<Case> {
    let base = type_of("type declared as a function block", [9, 0, 0, 1, 1])
        .add(VARIABLES, &[[50, 4, 0, 0]; 6])
        .add(INITIALIZERS, &[NO_VALUE]);
    let spot = any_declaration(base.at(TYPES, 0)).run(RUN, "run of variables", 6);
    unused_name(spot).unused(&[START]).cases
}

/// The last record of the section is held against the rules too.
fn last_type() -> Vec<Case> {
    Base::new("last of three types")
        .add(SHAPES, &[[0; 5]])
        .add(TYPES, &[PLAIN_TYPE, PLAIN_TYPE, PLAIN_TYPE])
        .at(TYPES, 2)
        .changes(&[
            (0, ALIAS_BASE, &[3], "alias base is the type itself"),
            (4, ALIAS_BASE, &[4], "alias base one past the last"),
            (4, SHAPE, &[1], "shape one past the last"),
            (3, START, &[1], "unused start value is 1"),
        ])
        .cases
}

fn block_fields() -> Vec<Case> {
    Base::new("block field")
        .two_types()
        .add(BLOCK_FIELDS, &[[50, 0, 0], [51, 1, 0], [52, 0, 0]])
        .at(BLOCK_FIELDS, 1)
        .link(1, "type", 2)
        .changes(&[
            (3, 0, &[0], "name 0"),
            (0, 0, &[u32::MAX], "name 4294967295"),
            (0, 2, &[1], "Output"),
            (0, 2, &[2], "InOut"),
            (0, 2, &[3], "Internal"),
            (3, 2, &[4], "kind 4"),
            (3, 2, &[u32::MAX], "kind 4294967295"),
        ])
        .cases
}

fn elements() -> Vec<Case> {
    let base = Base::new("element")
        .add(ELEMENTS, &[[40, 0], [41, 0]])
        .add(INITIALIZERS, &[NO_VALUE; 3]);
    let lacking = base.case(4, "initializer 0 in a file without any", |file| {
        file.sections[INITIALIZERS].clear();
    });
    let mut cases = base
        .at(ELEMENTS, 1)
        .number(1, "initializer", 3)
        .changes(&[
            (3, 0, &[0], "name 0"),
            (0, 0, &[u32::MAX], "name 4294967295"),
        ])
        .cases;
    cases.push(lacking);
    cases
}

fn variables() -> Vec<Case> {
    let base = Base::new("variable")
        .two_types()
        .add(VARIABLES, &[[50, 0, 1, 0]; 4])
        .add(INITIALIZERS, &[NO_VALUE; 3]);
    let lacking = base.case(4, "initializer 0 in a file without any", |file| {
        file.sections[INITIALIZERS].clear();
    });
    let mut cases = base
        .at(VARIABLES, 3)
        .link(2, "type", 2)
        .number(3, "initializer", 3)
        .changes(&[
            (0, 0, &[0], "no name"),
            (0, 0, &[u32::MAX], "name 4294967295"),
            (0, 1, &[1], "Output"),
            (0, 1, &[2], "InOut"),
            (0, 1, &[3], "External"),
            (0, 1, &[4], "Var"),
            (0, 1, &[5], "another kind"),
            (3, 1, &[6], "kind 6"),
            (3, 1, &[u32::MAX], "kind 4294967295"),
        ])
        .cases;
    cases.push(lacking);
    cases
}
