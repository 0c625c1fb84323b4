//! Refusals 3 and 4 in entries and expressions.

use super::case::{Base, Case};
use super::pointers::{link, number, run};
use super::samples::{
    AS_ENUMERATED, ENTRY_KINDS, EVERY_EXPRESSION, EXPRESSION_KINDS, IN_ARRAYS, IN_MEMBER_LISTS,
};
use crate::layout::*;

pub fn cases() -> Vec<Case> {
    [
        constant_entry(),
        enumerated_entry(),
        array_entry(),
        structure_entry(),
        expression_entry(),
        late_bound_entry(),
        repeat_entry(),
        first_entry(),
        constant_expression(),
        enumerated_expression(),
        outer_expression(2, "parentheses"),
        outer_expression(3, "conversion"),
        plain_expression(4, "null expression"),
        plain_expression(5, "variable reference"),
        plain_expression(6, "other expression"),
        first_expression(),
    ]
    .concat()
}

fn constant_entry() -> Vec<Case> {
    Base::new("constant entry")
        .add(ENTRIES, &[[5, 0, 0, 0], [0, 0, 0, 0], [5, 0, 0, 0]])
        .add(CONSTANTS, &[[1, 0, 5, 0, 0], [1, 0, 6, 0, 0]])
        .at(ENTRIES, 1)
        .number(2, "constant", 2)
        .changes(&[
            (0, 1, &[1], "name 1"),
            (0, 1, &[u32::MAX], "name 4294967295"),
            (3, 0, &[7], "kind 7"),
            (3, 0, &[u32::MAX], "kind 4294967295"),
        ])
        .unused(&[3])
        .cases
}

fn enumerated_entry() -> Vec<Case> {
    Base::new("enumerated entry")
        .add(ENTRIES, &[[1, 0, 20, 0]])
        .at(ENTRIES, 0)
        .changes(&[
            (3, 2, &[0], "value name 0"),
            (3, 2, &[0, 5], "value name 0 with a qualifier"),
            (0, 2, &[u32::MAX], "value name 4294967295"),
            (0, 3, &[5], "a qualifier"),
            (0, 3, &[u32::MAX], "qualifier 4294967295"),
            (0, 1, &[7], "a name"),
        ])
        .cases
}

/// Entry 15 is changed. Before it are an entry of each kind and `beside`,
/// behind it is `beside` again.
fn entry(name: &str, record: [u32; 4], beside: [u32; 4]) -> Base {
    Base::new(name)
        .every_entry()
        .add(ENTRIES, &[beside, record, beside])
}

fn array_entry() -> Vec<Case> {
    entry("array entry", [2, 70, 3, 2], [0, 0, 0, 0])
        .at(ENTRIES, 15)
        .kinds((2, "only entry"), run, &ENTRY_KINDS, &IN_ARRAYS)
        .empty_runs(2, "run", 17)
        .run_outside(2, "run", 17)
        .changes(&[
            (0, 1, &[0], "no name"),
            (0, 2, &[0, 2], "a constant and an enumerated value"),
            (0, 2, &[15, 0], "run is empty at the entry itself"),
            (0, 2, &[16, 0], "run is empty behind the entry"),
            (0, 2, &[14, 1], "only entry is a constant just before"),
            (4, 2, &[15, 1], "only entry is the entry itself"),
            (4, 2, &[16, 1], "only entry is a constant just behind"),
            (4, 2, &[1, 2], "the second of two entries is an array"),
            (4, 2, &[5, 2], "the first of two entries is late bound"),
        ])
        .cases
}

fn structure_entry() -> Vec<Case> {
    entry("structure entry", [3, 70, 7, 6], [0, 71, 0, 0])
        .at(ENTRIES, 15)
        .kinds((2, "only entry"), run, &ENTRY_KINDS, &IN_MEMBER_LISTS)
        .empty_runs(2, "run", 17)
        .run_outside(2, "run", 17)
        .changes(&[
            (0, 1, &[0], "no name"),
            (0, 2, &[16, 0], "run is empty behind the entry"),
            (0, 2, &[14, 1], "only entry is a constant just before"),
            (4, 2, &[15, 1], "only entry is the entry itself"),
            (4, 2, &[16, 1], "only entry is a constant just behind"),
            (4, 2, &[14, 2], "run ends with the entry itself"),
            (4, 2, &[15, 2], "run begins with the entry itself"),
            (4, 2, &[6, 3], "the first of three entries has no name"),
            (4, 2, &[11, 3], "the last of three entries is a repeat"),
        ])
        .cases
}

fn expression_entry() -> Vec<Case> {
    Base::new("expression entry")
        .add(ENTRIES, &[[4, 0, 0, 0], [5, 0, 0, 0]])
        .add(EXPRESSIONS, &[[6, 0], [6, 0], [6, 0]])
        .at(ENTRIES, 0)
        .number(2, "expression", 3)
        .change(0, 1, &[7], "a name")
        .unused(&[3])
        .cases
}

fn late_bound_entry() -> Vec<Case> {
    Base::new("late bound entry")
        .add(ENTRIES, &[[5, 7, 0, 0]])
        .at(ENTRIES, 0)
        .change(0, 1, &[0], "no name where nothing points at it")
        .unused(&[2, 3])
        .cases
}

fn repeat_entry() -> Vec<Case> {
    entry("repeat entry", [6, 0, 2, 0], [0, 0, 0, 0])
        .at(ENTRIES, 15)
        .kinds((3, "inner entry"), link, &ENTRY_KINDS, &IN_ARRAYS)
        .changes(&[
            (0, 1, &[7], "a name where nothing points at it"),
            (0, 2, &[0], "count 0"),
            (0, 2, &[0, 7], "count 0 with an inner entry"),
            (0, 2, &[u32::MAX], "count 4294967295"),
            (0, 3, &[15], "inner entry is the one just before"),
            (4, 3, &[16], "inner entry is the entry itself"),
            (4, 3, &[17], "inner entry is the one just behind"),
            (4, 3, &[18], "inner entry one past the last"),
            (4, 3, &[u32::MAX], "inner entry's link 4294967295"),
        ])
        .cases
}

/// The first entry has none below it.
fn first_entry() -> Vec<Case> {
    Base::new("first entry")
        .add(ENTRIES, &[[5, 70, 0, 0]])
        .at(ENTRIES, 0)
        .changes(&[
            (0, 0, &[2, 70, 0, 0], "an array without entries"),
            (0, 0, &[2, 70, 1, 0], "an array without entries at the end"),
            (4, 0, &[2, 70, 0, 1], "an array with itself in it"),
            (0, 0, &[3, 70, 0, 0], "a structure without entries"),
            (4, 0, &[3, 70, 0, 1], "a structure with itself in it"),
            (0, 0, &[6, 0, 3, 0], "a repeat without an inner entry"),
            (4, 0, &[6, 0, 3, 1], "a repeat of itself"),
            (4, 0, &[0, 70, 0, 0], "a constant in a file without any"),
            (4, 0, &[4, 70, 0, 0], "an expression in a file without any"),
        ])
        .cases
}

fn constant_expression() -> Vec<Case> {
    Base::new("constant expression")
        .add(EXPRESSIONS, &[[0, 0]])
        .add(CONSTANTS, &[[1, 0, 5, 0, 0], [1, 0, 6, 0, 0]])
        .at(EXPRESSIONS, 0)
        .number(1, "constant", 2)
        .changes(&[
            (3, 0, &[7], "kind 7"),
            (3, 0, &[u32::MAX], "kind 4294967295"),
        ])
        .cases
}

/// Entry 14 is a second enumerated value without a name; expression 3 is
/// changed.
fn enumerated_expression() -> Vec<Case> {
    Base::new("enumerated expression")
        .every_entry()
        .add(ENTRIES, &[[1, 0, 21, 9]])
        .add(EXPRESSIONS, &[[1, 14]])
        .at(EXPRESSIONS, 3)
        .kinds((1, "entry"), number, &ENTRY_KINDS, &AS_ENUMERATED)
        .number_outside(1, "entry", 15)
        .cases
}

/// Expression 8 is changed, behind one of each kind, and before another.
fn outer_expression(kind: u32, name: &str) -> Vec<Case> {
    Base::new(name)
        .add(ENTRIES, &[[5, 0, 0, 0], [1, 0, 20, 0]])
        .add(EXPRESSIONS, &EVERY_EXPRESSION)
        .add(EXPRESSIONS, &[[6, 0], [kind, 7], [6, 0]])
        .add(CONSTANTS, &[[1, 0, 5, 0, 0]])
        .at(EXPRESSIONS, 8)
        .kinds((1, "inner"), number, &EXPRESSION_KINDS, &[0; 7])
        .changes(&[
            (4, 1, &[8], "inner is the expression itself"),
            (4, 1, &[9], "inner is the one just behind"),
        ])
        .number_outside(1, "inner", 10)
        .cases
}

fn plain_expression(kind: u32, name: &str) -> Vec<Case> {
    Base::new(name)
        .add(EXPRESSIONS, &[[6, 0], [kind, 0], [6, 0]])
        .at(EXPRESSIONS, 1)
        .unused(&[1])
        .change(3, 1, &[u32::MAX], "unused word 1 is 4294967295")
        .cases
}

/// The first expression has none below it.
fn first_expression() -> Vec<Case> {
    Base::new("first expression")
        .add(EXPRESSIONS, &[[6, 0]])
        .at(EXPRESSIONS, 0)
        .changes(&[
            (4, 0, &[2, 0], "parentheses around itself"),
            (4, 0, &[3, 0], "a conversion of itself"),
            (4, 0, &[0, 0], "a constant in a file without any"),
            (
                4,
                0,
                &[1, 0],
                "an enumerated value in a file without entries",
            ),
        ])
        .cases
}
