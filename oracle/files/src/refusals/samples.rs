//! Records of each kind, for cases in which the kind of a record decides
//! whether it may be pointed at.

use super::case::Base;
use crate::layout::*;

/// A constant of each kind; its number is its kind.
pub const EVERY_CONSTANT: [[u32; 5]; 9] = [
    [0, 0, 1, 0, 0],
    [1, 0, 5, 0, 0],
    [2, 0, 5, 0, 0],
    [3, 0, 5, 0, 0],
    [4, 0, 5, 0, 0],
    [5, 0, 5, 0, 0],
    [6, 0, 5, 0, 0],
    [7, 0, 5, 0, 0],
    [8, 0, 0, 0, 0],
];

pub const CONSTANT_KINDS: [&str; 9] = [
    "a boolean",
    "an integer",
    "a bit string",
    "a real",
    "a duration",
    "a time of day",
    "a date",
    "a date and time",
    "a string",
];

/// An entry of each kind without a name, its number its kind, then one of
/// each kind with a name. They use constant 0 and expression 0.
pub const EVERY_ENTRY: [[u32; 4]; 14] = [
    [0, 0, 0, 0],
    [1, 0, 20, 0],
    [2, 0, 0, 0],
    [3, 0, 0, 0],
    [4, 0, 0, 0],
    [5, 0, 0, 0],
    [6, 0, 2, 0],
    [0, 60, 0, 0],
    [1, 61, 20, 0],
    [2, 62, 0, 0],
    [3, 63, 0, 0],
    [4, 64, 0, 0],
    [5, 65, 0, 0],
    [6, 66, 2, 0],
];

pub const ENTRY_KINDS: [&str; 14] = [
    "a nameless constant",
    "a nameless enumerated value",
    "a nameless array",
    "a nameless structure",
    "a nameless expression",
    "a nameless late bound value",
    "a nameless repeat",
    "a named constant",
    "a named enumerated value",
    "a named array",
    "a named structure",
    "a named expression",
    "a named late bound value",
    "a named repeat",
];

/// Which of `EVERY_ENTRY` may stand in an array's run or in a repeat.
pub const IN_ARRAYS: [u32; 14] = [0, 0, 4, 0, 0, 4, 0, 4, 4, 4, 4, 4, 4, 4];

/// Which of them may stand in a member list.
pub const IN_MEMBER_LISTS: [u32; 14] = [4, 4, 4, 4, 4, 4, 4, 0, 0, 0, 0, 0, 0, 4];

/// Which of them an enumeration's value may be.
pub const AS_ENUMERATED: [u32; 14] = [4, 0, 4, 4, 4, 4, 4, 4, 4, 4, 4, 4, 4, 4];

/// An expression of each kind; its number is its kind. They use constant 0
/// and entry 1.
pub const EVERY_EXPRESSION: [[u32; 2]; 7] =
    [[0, 0], [1, 1], [2, 0], [3, 0], [4, 0], [5, 0], [6, 0]];

pub const EXPRESSION_KINDS: [&str; 7] = [
    "a constant",
    "an enumerated value",
    "parentheses",
    "a conversion",
    "null",
    "a variable reference",
    "another expression",
];

/// A type without a declaration, of shape 0.
pub const PLAIN_TYPE: [u32; 11] = [0, 0, 0, 0, 0, 0, 0, 0, 0, INLINE, 0];

/// An initializer of kind 0 without a named type.
pub const NO_VALUE: [u32; 8] = [0; 8];

impl Base {
    /// Two types of one shape.
    pub fn two_types(self) -> Self {
        self.add(SHAPES, &[[0; 5]])
            .add(TYPES, &[PLAIN_TYPE, PLAIN_TYPE])
    }

    /// The entries of each kind with what they use.
    pub fn every_entry(self) -> Self {
        self.add(ENTRIES, &EVERY_ENTRY)
            .add(EXPRESSIONS, &[[6, 0], [6, 0], [6, 0]])
            .add(CONSTANTS, &[[1, 0, 5, 0, 0], [1, 0, 6, 0, 0]])
    }
}

/// A file with one record in every section.
pub fn one_of_each() -> Base {
    Base::new("one record in every section")
        .add(SHAPES, &[[0; 5]])
        .add(MEMBERS, &[[20]])
        .add(SHAPE_FIELDS, &[[40, 0, 0]])
        .add(DIMENSIONS, &[[1, 3]])
        .add(TYPES, &[PLAIN_TYPE])
        .add(BLOCK_FIELDS, &[[50, 1, 0]])
        .add(ELEMENTS, &[[40, 0]])
        .add(VARIABLES, &[[50, 4, 1, 0]])
        .add(INITIALIZERS, &[[3, 1, 0, 1, 0, 0, 0, 0]])
        .add(ENTRIES, &[[0, 0, 0, 0]])
        .add(EXPRESSIONS, &[[0, 0]])
        .add(CONSTANTS, &[[1, 0, 5, 0, 0]])
        .add(CHARACTERS, &[[65]])
}
