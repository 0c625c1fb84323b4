//! Refusals 3 and 4 in constants and characters.

use super::case::{Base, Case, Spot};
use crate::layout::*;

pub fn cases() -> Vec<Case> {
    [
        boolean(),
        integer(),
        unsigned(2, "bit string", false),
        unsigned(3, "real", false),
        duration(),
        unsigned(5, "time of day", true),
        unsigned(6, "date", true),
        unsigned(7, "date and time", true),
        string(),
        characters(),
    ]
    .concat()
}

/// Words of a constant.
const SIGN: usize = 1;
const SIZE: usize = 2;
const HIGH: usize = 3;
const WIDTH: usize = 4;

/// The second of three constants.
fn constant(name: &str, record: [u32; 5]) -> Base {
    let other = [2, 0, 0, 0, 0];
    Base::new(name).add(CONSTANTS, &[other, record, other])
}

fn boolean() -> Vec<Case> {
    constant("boolean constant", [0, 0, 1, 0, 0])
        .at(CONSTANTS, 1)
        .changes(&[
            (0, SIZE, &[0], "FALSE"),
            (3, SIZE, &[2], "low word 2"),
            (3, SIZE, &[u32::MAX], "low word 4294967295"),
            (3, SIGN, &[1], "sign 1"),
            (3, SIGN, &[2], "sign 2"),
            (3, 0, &[9], "kind 9"),
            (3, 0, &[u32::MAX], "kind 4294967295"),
        ])
        .unused(&[HIGH, WIDTH])
        .cases
}

/// The kinds that may have sign 1.
fn signed(spot: Spot) -> Spot {
    spot.changes(&[
        (0, SIGN, &[1], "sign 1"),
        (3, SIGN, &[2], "sign 2"),
        (3, SIGN, &[u32::MAX], "sign 4294967295"),
        (0, SIZE, &[0, 0], "size 0"),
        (3, SIGN, &[1, 0, 0], "sign 1 with size 0"),
        (0, SIGN, &[1, 0, 1], "sign 1 with low word 0"),
        (0, SIGN, &[1, 1, 0], "sign 1 with size 1"),
        (0, SIZE, &[u32::MAX, u32::MAX], "the greatest size"),
        (
            0,
            SIGN,
            &[1, u32::MAX, u32::MAX],
            "sign 1, the greatest size",
        ),
        (
            0,
            SIGN,
            &[1, 1, u32::MAX],
            "sign 1, size words with sum 2^32",
        ),
    ])
}

/// The kinds that are short or long, narrow or wide.
fn wide(spot: Spot) -> Spot {
    spot.changes(&[
        (0, WIDTH, &[1], "width 1"),
        (3, WIDTH, &[2], "width 2"),
        (3, WIDTH, &[u32::MAX], "width 4294967295"),
    ])
}

fn integer() -> Vec<Case> {
    let base = constant("integer constant", [1, 0, 5, 0, 0]);
    signed(base.at(CONSTANTS, 1)).unused(&[WIDTH]).cases
}

fn duration() -> Vec<Case> {
    let base = constant("duration constant", [4, 0, 5, 0, 0]);
    wide(signed(base.at(CONSTANTS, 1))).cases
}

fn unsigned(kind: u32, name: &str, has_width: bool) -> Vec<Case> {
    let base = constant(&format!("{name} constant"), [kind, 0, 5, 0, 0]);
    let spot = base.at(CONSTANTS, 1).changes(&[
        (3, SIGN, &[1], "sign 1"),
        (3, SIGN, &[2], "sign 2"),
        (0, SIZE, &[0, 0], "size 0"),
        (0, SIZE, &[u32::MAX, u32::MAX], "the greatest size"),
    ]);
    match has_width {
        true => wide(spot).cases,
        false => spot.unused(&[WIDTH]).cases,
    }
}

fn string() -> Vec<Case> {
    let base =
        constant("string constant", [8, 0, 1, 1, 0]).add(CHARACTERS, &[[65], [66], [67], [68]]);
    let spot = base
        .at(CONSTANTS, 1)
        .run(SIZE, "run of characters", 4)
        .changes(&[(3, SIGN, &[1], "sign 1"), (3, SIGN, &[2], "sign 2")]);
    let mut cases = wide(spot).cases;
    let last = base.also_at(CONSTANTS, 2).changes(&[
        (0, 0, &[8, 0, 4, 0, 0], "an empty one behind it"),
        (4, 0, &[8, 0, 4, 1, 0], "one behind it past the characters"),
    ]);
    cases.extend(last.cases);
    cases
}

/// A character may be any word.
fn characters() -> Vec<Case> {
    Base::new("character")
        .add(CHARACTERS, &[[65], [66]])
        .at(CHARACTERS, 1)
        .changes(&[
            (0, 0, &[0], "0"),
            (0, 0, &[256], "256"),
            (0, 0, &[0x11_0000], "past the last code point"),
            (0, 0, &[u32::MAX], "4294967295"),
        ])
        .cases
}
