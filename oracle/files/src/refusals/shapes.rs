//! Refusals 3 and 4 in settings, shapes, members, shape fields and
//! dimensions.

use super::case::{Base, Case};
use super::pointers::number;
use super::samples::{CONSTANT_KINDS, EVERY_CONSTANT};
use crate::layout::*;

const BOOL: [u32; 5] = [0, 0, 0, 0, 0];
const INT: [u32; 5] = [1, 16, 0, 0, 0];
const UINT: [u32; 5] = [2, 8, 0, 0, 0];

pub fn cases() -> Vec<Case> {
    [
        settings(),
        bool_shape(),
        sized_shapes(),
        string_shape(),
        enumeration_shape(),
        members(),
        structure_shape(),
        shape_fields(),
        array_shape(),
        dimensions(),
        subrange_shape(),
        over_any_shape(),
        named_shapes(),
        reference_shape(),
        first_shape(),
    ]
    .concat()
}

fn settings() -> Vec<Case> {
    let base = Base::new("default string length");
    base.also_at(SETTINGS, 0)
        .changes(&[
            (0, 0, &[0], "0"),
            (0, 0, &[1], "1"),
            (0, 0, &[65_535], "65535"),
            (3, 0, &[65_536], "65536"),
            (3, 0, &[1 << 31], "2147483648"),
            (3, 0, &[u32::MAX], "4294967295"),
        ])
        .cases
}

fn bool_shape() -> Vec<Case> {
    Base::new("Bool shape")
        .add(SHAPES, &[BOOL])
        .at(SHAPES, 0)
        .unused(&[1, 2, 3, 4])
        .changes(&[
            (3, 1, &[16], "16 bits, which it does not have"),
            (3, 1, &[1, u32::MAX], "unused words whose sum is 2^32"),
            (3, 0, &[17], "kind 17"),
            (3, 0, &[256], "kind 256"),
            (3, 0, &[u32::MAX], "kind 4294967295"),
        ])
        .cases
}

const SIZED: [&str; 8] = [
    "Int",
    "UInt",
    "Real",
    "Bytes",
    "Time",
    "Date",
    "TimeOfDay",
    "DateAndTime",
];

fn sized_shapes() -> Vec<Case> {
    let mut every = Vec::new();
    let mut cases = Vec::new();
    for (kind, name) in (1..).zip(SIZED) {
        every.extend([8, 16, 32, 64].map(|bits| [kind, bits, 0, 0, 0]));
        cases.extend(sized_shape(kind, name));
    }
    let every = Base::new("each of 8 kinds with 8, 16, 32 and 64 bits").add(SHAPES, &every);
    cases.push(every.unchanged());
    cases
}

fn sized_shape(kind: u32, name: &str) -> Vec<Case> {
    Base::new(&format!("{name} shape"))
        .add(SHAPES, &[[kind, 16, 0, 0, 0]])
        .at(SHAPES, 0)
        .changes(&[
            (0, 1, &[8], "8 bits"),
            (0, 1, &[32], "32 bits"),
            (0, 1, &[64], "64 bits"),
            (3, 1, &[0], "0 bits"),
            (3, 1, &[1], "1 bit"),
            (3, 1, &[7], "7 bits"),
            (3, 1, &[24], "24 bits"),
            (3, 1, &[65], "65 bits"),
            (3, 1, &[128], "128 bits"),
            (3, 1, &[u32::MAX], "4294967295 bits"),
        ])
        .unused(&[2, 3, 4])
        .cases
}

fn string_shape() -> Vec<Case> {
    Base::new("String shape")
        .add(SHAPES, &[[9, 4, 0, 0, 0]])
        .at(SHAPES, 0)
        .changes(&[
            (0, 1, &[0], "no length"),
            (0, 1, &[1], "length 0"),
            (0, 1, &[65_536], "length 65535"),
            (0, 1, &[65_537], "length 65536"),
            (0, 1, &[u32::MAX], "length 4294967294"),
            (0, 2, &[1], "wide"),
            (3, 2, &[2], "width 2"),
            (3, 2, &[u32::MAX], "width 4294967295"),
        ])
        .unused(&[3, 4])
        .cases
}

/// Shape 2 of four is changed: two lower ones, and one behind it.
fn enumeration_shape() -> Vec<Case> {
    Base::new("Enumeration shape")
        .add(SHAPES, &[BOOL, INT, [10, 1, 1, 0, 1], UINT])
        .add(MEMBERS, &[[20], [21], [22]])
        .at(SHAPES, 2)
        .run(1, "run of members", 3)
        .changes(&[
            (0, 3, &[1], "default's place just past the members"),
            (0, 3, &[u32::MAX], "default's place 4294967295"),
            (0, 4, &[0], "no underlying shape"),
            (0, 4, &[2], "underlying shape just before"),
            (4, 4, &[3], "underlying shape is the shape itself"),
            (4, 4, &[4], "underlying shape just behind"),
            (4, 4, &[5], "underlying shape one past the last"),
            (4, 4, &[u32::MAX], "underlying shape's link 4294967295"),
        ])
        .cases
}

fn members() -> Vec<Case> {
    let base = Base::new("member")
        .add(SHAPES, &[[10, 0, 2, 0, 0]])
        .add(MEMBERS, &[[20], [21], [22]]);
    let listed = base.at(MEMBERS, 0).changes(&[
        (3, 0, &[0], "name 0"),
        (0, 0, &[u32::MAX], "name 4294967295"),
        (0, 0, &[21], "name of the next member"),
    ]);
    let unlisted =
        base.also_at(MEMBERS, 2)
            .changes(&[(3, 0, &[0], "name 0 in a member that no shape lists")]);
    [listed.cases, unlisted.cases].concat()
}

/// Shape 2 of four is a structure with this run of the three fields.
fn structure(name: &str, first: u32, count: u32) -> Base {
    Base::new(name)
        .add(SHAPES, &[BOOL, INT, [11, first, count, 0, 0], UINT])
        .add(SHAPE_FIELDS, &[[40, 1, 0], [41, 0, 1], [42, 1, 0]])
}

fn structure_shape() -> Vec<Case> {
    structure("Structure shape", 1, 1)
        .at(SHAPES, 2)
        .run(1, "run of fields", 3)
        .unused(&[3, 4])
        .cases
}

fn shape_fields() -> Vec<Case> {
    [listed_field(), unlisted_field(), outer_fields()].concat()
}

fn listed_field() -> Vec<Case> {
    structure("field of a structure", 1, 1)
        .also_at(SHAPE_FIELDS, 1)
        .lower_number(1, "shape", 2, 4)
        .changes(&[
            (3, 0, &[0], "name 0"),
            (0, 0, &[u32::MAX], "name 4294967295"),
            (0, 2, &[0], "has_default 0"),
            (3, 2, &[2], "has_default 2"),
            (3, 2, &[u32::MAX], "has_default 4294967295"),
        ])
        .cases
}

/// A field that no structure lists may be of any shape in the file.
fn unlisted_field() -> Vec<Case> {
    let shapeless = Base::new("field that no structure lists");
    let mut cases = structure("field that no structure lists", 1, 1)
        .also_at(SHAPE_FIELDS, 2)
        .number(1, "shape", 4)
        .changes(&[
            (0, 1, &[2], "shape is a structure just before the last"),
            (3, 0, &[0], "name 0"),
            (3, 2, &[2], "has_default 2"),
        ])
        .cases;
    cases.push(shapeless.case(4, "in a file without shapes", |file| {
        file.push(SHAPE_FIELDS, &[40, 0, 0]);
    }));
    cases
}

/// The first and the last field of a run are held against the rule too.
fn outer_fields() -> Vec<Case> {
    let base = structure("structure of three fields", 0, 3);
    let first = base.also_at(SHAPE_FIELDS, 0).change(
        4,
        1,
        &[2],
        "the first is of the structure's own shape",
    );
    let last = base.also_at(SHAPE_FIELDS, 2).change(
        4,
        1,
        &[2],
        "the last is of the structure's own shape",
    );
    [first.cases, last.cases].concat()
}

fn array_shape() -> Vec<Case> {
    Base::new("Array shape")
        .add(SHAPES, &[BOOL, INT, [12, 0, 1, 1, 0], UINT])
        .add(DIMENSIONS, &[[1, 3], [1, 2], [0, 0]])
        .at(SHAPES, 2)
        .lower_number(1, "element shape", 2, 4)
        .run_outside(2, "run of dimensions", 3)
        .changes(&[
            (0, 2, &[0, 3], "run of dimensions is the whole section"),
            (0, 2, &[2, 1], "run of dimensions is the last record"),
            (4, 2, &[1, 0], "run of dimensions is empty"),
            (4, 2, &[0, 0], "run of dimensions is empty at 0"),
            (
                4,
                2,
                &[3, 0],
                "run of dimensions is empty where the section ends",
            ),
            (
                4,
                2,
                &[4, 0],
                "run of dimensions is empty one past the section's end",
            ),
            (
                4,
                2,
                &[u32::MAX, 0],
                "run of dimensions is empty at 4294967295",
            ),
        ])
        .unused(&[4])
        .cases
}

/// Bounds are two's complement; no array uses these.
fn dimensions() -> Vec<Case> {
    const LEAST: u32 = 1 << 31;
    const GREATEST: u32 = i32::MAX as u32;
    const MINUS_1: u32 = u32::MAX;
    const MINUS_2: u32 = u32::MAX - 1;
    let base = Base::new("dimension").add(DIMENSIONS, &[[1, 3], [1, 3]]);
    let first = base.at(DIMENSIONS, 0).changes(&[
        (0, 0, &[3, 3], "3..3"),
        (3, 0, &[4, 3], "4..3"),
        (0, 0, &[MINUS_1, 0], "-1..0"),
        (3, 0, &[0, MINUS_1], "0..-1"),
        (0, 0, &[MINUS_2, MINUS_1], "-2..-1"),
        (3, 0, &[MINUS_1, MINUS_2], "-1..-2"),
        (0, 0, &[LEAST, LEAST], "-2147483648..-2147483648"),
        (0, 0, &[GREATEST, GREATEST], "2147483647..2147483647"),
        (0, 0, &[LEAST, GREATEST], "-2147483648..2147483647"),
        (3, 0, &[GREATEST, LEAST], "2147483647..-2147483648"),
        (3, 0, &[0, LEAST], "0..-2147483648"),
        (0, 0, &[LEAST, 0], "-2147483648..0"),
    ]);
    let last = base
        .also_at(DIMENSIONS, 1)
        .changes(&[(3, 0, &[4, 3], "4..3 in the last one")]);
    [first.cases, last.cases].concat()
}

/// Constant 9 is a second integer, so that each kind is a change.
fn subrange_shape() -> Vec<Case> {
    let integers = [4, 0, 4, 4, 4, 4, 4, 4, 4];
    Base::new("Subrange shape")
        .add(SHAPES, &[BOOL, INT, [13, 0, 9, 9, 0], UINT])
        .add(CONSTANTS, &EVERY_CONSTANT)
        .add(CONSTANTS, &[[1, 0, 7, 0, 0]])
        .at(SHAPES, 2)
        .lower_number(1, "base shape", 2, 4)
        .kinds((2, "least"), number, &CONSTANT_KINDS, &integers)
        .number_outside(2, "least", 10)
        .kinds((3, "greatest"), number, &CONSTANT_KINDS, &integers)
        .number_outside(3, "greatest", 10)
        .unused(&[4])
        .cases
}

/// What a subrange and an enumeration stand on may be of any kind, and a
/// least value may be above the greatest.
fn over_any_shape() -> Vec<Case> {
    let file = |name: &str, shape: [u32; 5]| {
        Base::new(name)
            .add(SHAPES, &[[9, 0, 0, 0, 0], [12, 0, 0, 1, 0], shape])
            .add(DIMENSIONS, &[[1, 2]])
            .add(CONSTANTS, &[[1, 0, 9, 0, 0], [1, 1, 9, 0, 0]])
            .unchanged()
    };
    vec![
        file("Subrange shape over a String", [13, 0, 1, 0, 0]),
        file("Subrange shape over an Array", [13, 1, 1, 0, 0]),
        file("Subrange shape from 9 to -9", [13, 1, 0, 1, 0]),
        file("Enumeration shape over a String", [10, 0, 0, 0, 1]),
        file("Enumeration shape over an Array", [10, 0, 0, 0, 2]),
        file("Reference shape to an Array", [16, 1, 0, 0, 0]),
    ]
}

fn named_shapes() -> Vec<Case> {
    let shape = |kind: u32, name: &str| {
        Base::new(name)
            .add(SHAPES, &[[kind, 30, 0, 0, 0]])
            .at(SHAPES, 0)
            .changes(&[
                (3, 1, &[0], "name 0"),
                (0, 1, &[1], "name 1"),
                (0, 1, &[u32::MAX], "name 4294967295"),
            ])
            .unused(&[2, 3, 4])
            .cases
    };
    [
        shape(14, "FunctionBlock shape"),
        shape(15, "Interface shape"),
    ]
    .concat()
}

fn reference_shape() -> Vec<Case> {
    Base::new("Reference shape")
        .add(SHAPES, &[BOOL, INT, [16, 0, 0, 0, 0], UINT])
        .at(SHAPES, 2)
        .lower_number(1, "target shape", 2, 4)
        .unused(&[2, 3, 4])
        .cases
}

/// The first shape has none below it.
fn first_shape() -> Vec<Case> {
    Base::new("first shape")
        .add(SHAPES, &[[14, 30, 0, 0, 0]])
        .add(SHAPE_FIELDS, &[[40, 0, 0]])
        .add(DIMENSIONS, &[[1, 3]])
        .add(CONSTANTS, &[[1, 0, 1, 0, 0]])
        .at(SHAPES, 0)
        .changes(&[
            (0, 0, &[10, 0, 0, 0, 0], "an Enumeration over nothing"),
            (4, 0, &[10, 0, 0, 0, 1], "an Enumeration over itself"),
            (0, 0, &[11, 0, 0, 0, 0], "a Structure without fields"),
            (
                4,
                0,
                &[11, 0, 1, 0, 0],
                "a Structure with itself as a field",
            ),
            (4, 0, &[12, 0, 0, 1, 0], "an Array of itself"),
            (4, 0, &[13, 0, 0, 0, 0], "a Subrange of itself"),
            (4, 0, &[16, 0, 0, 0, 0], "a Reference to itself"),
        ])
        .cases
}
