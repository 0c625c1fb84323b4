//! Refusal 5: two shapes are alike, runs compared by what they list and
//! constants by value.

use super::case::{Base, Case};
use crate::layout::*;

pub fn cases() -> Vec<Case> {
    [
        scalars(),
        enumerations(),
        empty_enumerations(),
        underlying_shapes(),
        defaults_past_members(),
        structures(),
        empty_structures(),
        arrays(),
        subranges(),
        references(),
        far_apart(),
    ]
    .concat()
}

const BOOL: [u32; 5] = [0, 0, 0, 0, 0];
const INT: [u32; 5] = [1, 16, 0, 0, 0];
const UINT: [u32; 5] = [2, 8, 0, 0, 0];

/// The file as it is, and with each of these shapes behind the others.
fn with_each(base: Base, shapes: &[(u32, [u32; 5], &str)]) -> Vec<Case> {
    let mut cases = vec![base.unchanged()];
    for (expected, shape, what) in shapes {
        cases.push(base.case(*expected, what, |file| {
            file.push(SHAPES, shape);
        }));
    }
    cases
}

fn scalars() -> Vec<Case> {
    let base = Base::new("shapes without runs").add(
        SHAPES,
        &[
            BOOL,
            INT,
            [2, 16, 0, 0, 0],
            [3, 32, 0, 0, 0],
            [4, 16, 0, 0, 0],
            [5, 32, 0, 0, 0],
            [6, 32, 0, 0, 0],
            [7, 32, 0, 0, 0],
            [8, 32, 0, 0, 0],
            [9, 0, 0, 0, 0],
            [9, 4, 1, 0, 0],
            [14, 30, 0, 0, 0],
            [15, 31, 0, 0, 0],
        ],
    );
    let shapes = [
        (5, BOOL, "a second Bool"),
        (5, INT, "a second Int of 16 bits"),
        (0, [1, 32, 0, 0, 0], "an Int of 32 bits"),
        (5, [2, 16, 0, 0, 0], "a second UInt of 16 bits"),
        (5, [3, 32, 0, 0, 0], "a second Real of 32 bits"),
        (0, [3, 64, 0, 0, 0], "a Real of 64 bits"),
        (5, [4, 16, 0, 0, 0], "a second Bytes of 16 bits"),
        (5, [5, 32, 0, 0, 0], "a second Time of 32 bits"),
        (5, [6, 32, 0, 0, 0], "a second Date of 32 bits"),
        (5, [7, 32, 0, 0, 0], "a second TimeOfDay of 32 bits"),
        (5, [8, 32, 0, 0, 0], "a second DateAndTime of 32 bits"),
        (5, [9, 0, 0, 0, 0], "a second String without length"),
        (0, [9, 1, 0, 0, 0], "a String of length 0"),
        (0, [9, 0, 1, 0, 0], "a wide String without length"),
        (5, [9, 4, 1, 0, 0], "a second wide String of length 3"),
        (0, [9, 4, 0, 0, 0], "a narrow String of length 3"),
        (0, [9, 5, 1, 0, 0], "a wide String of length 4"),
        (5, [14, 30, 0, 0, 0], "a second FunctionBlock 30"),
        (
            0,
            [14, 31, 0, 0, 0],
            "a FunctionBlock with the Interface's name",
        ),
        (5, [15, 31, 0, 0, 0], "a second Interface 31"),
        (
            0,
            [15, 30, 0, 0, 0],
            "an Interface with the FunctionBlock's name",
        ),
    ];
    with_each(base, &shapes)
}

/// Names 20 and 21 at 0 and at 2, then 22, then 21 and 20.
const NAMED_MEMBERS: [[u32; 1]; 7] = [[20], [21], [20], [21], [22], [21], [20]];

fn enumerations() -> Vec<Case> {
    let base = Base::new("Enumeration of 20 and 21")
        .add(SHAPES, &[BOOL, INT, [10, 0, 2, 0, 0]])
        .add(MEMBERS, &NAMED_MEMBERS);
    let shapes = [
        (5, [10, 0, 2, 0, 0], "another by the same run"),
        (5, [10, 2, 2, 0, 0], "another by the same names elsewhere"),
        (0, [10, 5, 2, 0, 0], "the names in the other order"),
        (0, [10, 3, 2, 0, 0], "other names"),
        (0, [10, 2, 1, 0, 0], "one name fewer"),
        (0, [10, 2, 3, 0, 0], "one name more"),
        (0, [10, 2, 2, 1, 0], "another default"),
        (0, [10, 2, 2, 0, 1], "with an underlying shape"),
    ];
    with_each(base, &shapes)
}

fn empty_enumerations() -> Vec<Case> {
    let base = Base::new("Enumeration without members")
        .add(SHAPES, &[[10, 0, 0, 0, 0]])
        .add(MEMBERS, &NAMED_MEMBERS);
    let shapes = [
        (5, [10, 0, 0, 0, 0], "another by the same run"),
        (5, [10, 3, 0, 0, 0], "another by an empty run elsewhere"),
        (5, [10, 7, 0, 0, 0], "another by an empty run at the end"),
        (0, [10, 3, 0, 1, 0], "another default"),
        (0, [10, 3, 1, 0, 0], "one member"),
    ];
    with_each(base, &shapes)
}

fn underlying_shapes() -> Vec<Case> {
    let base = Base::new("Enumeration over Bool")
        .add(SHAPES, &[BOOL, INT, [10, 0, 2, 1, 1]])
        .add(MEMBERS, &NAMED_MEMBERS);
    let shapes = [
        (5, [10, 2, 2, 1, 1], "another by the same names elsewhere"),
        (0, [10, 2, 2, 1, 2], "the same over Int"),
        (0, [10, 2, 2, 1, 0], "the same over nothing"),
        (0, [10, 2, 2, 1, 3], "the same over the first one"),
    ];
    with_each(base, &shapes)
}

/// Neither gives a default, but the words differ.
fn defaults_past_members() -> Vec<Case> {
    let base = Base::new("Enumeration with default's place 8 of 2")
        .add(SHAPES, &[[10, 0, 2, 8, 0]])
        .add(MEMBERS, &NAMED_MEMBERS);
    let shapes = [
        (5, [10, 2, 2, 8, 0], "another by the same names elsewhere"),
        (0, [10, 2, 2, 9, 0], "the same with default's place 9"),
    ];
    with_each(base, &shapes)
}

fn structures() -> Vec<Case> {
    let base = Base::new("Structure of two fields")
        .add(SHAPES, &[BOOL, INT, UINT, [11, 0, 2, 0, 0]])
        // The same twice, in the other order, then with another name, shape
        // and has_default in the second field.
        .add(SHAPE_FIELDS, &[[40, 0, 0], [41, 1, 1]])
        .add(SHAPE_FIELDS, &[[40, 0, 0], [41, 1, 1]])
        .add(SHAPE_FIELDS, &[[41, 1, 1], [40, 0, 0]])
        .add(SHAPE_FIELDS, &[[40, 0, 0], [42, 1, 1]])
        .add(SHAPE_FIELDS, &[[40, 0, 0], [41, 2, 1]])
        .add(SHAPE_FIELDS, &[[40, 0, 0], [41, 1, 0]]);
    let shapes = [
        (5, [11, 0, 2, 0, 0], "another by the same run"),
        (5, [11, 2, 2, 0, 0], "another by the same fields elsewhere"),
        (0, [11, 4, 2, 0, 0], "the fields in the other order"),
        (0, [11, 6, 2, 0, 0], "another name in the second field"),
        (0, [11, 8, 2, 0, 0], "another shape in the second field"),
        (
            0,
            [11, 10, 2, 0, 0],
            "another has_default in the second field",
        ),
        (0, [11, 2, 1, 0, 0], "one field fewer"),
        (0, [11, 2, 3, 0, 0], "one field more"),
        (0, [11, 2, 0, 0, 0], "no fields"),
    ];
    with_each(base, &shapes)
}

fn empty_structures() -> Vec<Case> {
    let base = Base::new("Structure without fields")
        .add(SHAPES, &[BOOL, [11, 0, 0, 0, 0]])
        .add(SHAPE_FIELDS, &[[40, 0, 0], [41, 0, 0]]);
    let shapes = [
        (5, [11, 1, 0, 0, 0], "another by an empty run elsewhere"),
        (5, [11, 2, 0, 0, 0], "another by an empty run at the end"),
        (0, [11, 1, 1, 0, 0], "one field"),
    ];
    with_each(base, &shapes)
}

fn arrays() -> Vec<Case> {
    let base = Base::new("Array [1..3, 0..1] of Int")
        .add(SHAPES, &[BOOL, INT, [12, 1, 0, 2, 0]])
        .add(DIMENSIONS, &[[1, 3], [0, 1]])
        .add(DIMENSIONS, &[[1, 3], [0, 1]])
        .add(DIMENSIONS, &[[1, 4], [0, 1]])
        .add(DIMENSIONS, &[[0, 3], [0, 1]])
        .add(DIMENSIONS, &[[0, 1], [1, 3]])
        .add(DIMENSIONS, &[[1, 6]]);
    let shapes = [
        (5, [12, 1, 0, 2, 0], "another by the same run"),
        (5, [12, 1, 2, 2, 0], "another by the same bounds elsewhere"),
        (0, [12, 0, 2, 2, 0], "the same of Bool"),
        (0, [12, 2, 2, 2, 0], "the same of the first one"),
        (0, [12, 1, 4, 2, 0], "another upper bound"),
        (0, [12, 1, 6, 2, 0], "another lower bound"),
        (0, [12, 1, 8, 2, 0], "the dimensions in the other order"),
        (0, [12, 1, 2, 1, 0], "one dimension fewer"),
        (0, [12, 1, 0, 3, 0], "one dimension more"),
        (0, [12, 1, 10, 1, 0], "as many elements in one dimension"),
    ];
    with_each(base, &shapes)
}

fn subranges() -> Vec<Case> {
    let base = Base::new("Subrange 1..9 of Int")
        .add(SHAPES, &[BOOL, INT, UINT, [13, 1, 0, 1, 0]])
        // 1 and 9 twice, -1, -9, then 1 and 9 with 1 in the high word.
        .add(CONSTANTS, &[[1, 0, 1, 0, 0], [1, 0, 9, 0, 0]])
        .add(CONSTANTS, &[[1, 0, 1, 0, 0], [1, 0, 9, 0, 0]])
        .add(CONSTANTS, &[[1, 1, 1, 0, 0], [1, 1, 9, 0, 0]])
        .add(CONSTANTS, &[[1, 0, 1, 1, 0], [1, 0, 9, 1, 0]]);
    let shapes = [
        (5, [13, 1, 0, 1, 0], "another by the same constants"),
        (5, [13, 1, 2, 3, 0], "another by the same values elsewhere"),
        (5, [13, 1, 2, 1, 0], "another by the least value elsewhere"),
        (
            5,
            [13, 1, 0, 3, 0],
            "another by the greatest value elsewhere",
        ),
        (0, [13, 2, 2, 3, 0], "the same of UInt"),
        (0, [13, 1, 3, 2, 0], "from 9 to 1"),
        (0, [13, 1, 4, 3, 0], "from -1"),
        (0, [13, 1, 2, 5, 0], "to -9"),
        (0, [13, 1, 6, 3, 0], "from 2^32 + 1"),
        (0, [13, 1, 2, 7, 0], "to 2^32 + 9"),
    ];
    with_each(base, &shapes)
}

fn references() -> Vec<Case> {
    let base = Base::new("Reference to Int").add(SHAPES, &[BOOL, INT, [16, 1, 0, 0, 0]]);
    let shapes = [
        (5, [16, 1, 0, 0, 0], "a second one"),
        (0, [16, 0, 0, 0, 0], "a Reference to Bool"),
        (0, [16, 2, 0, 0, 0], "a Reference to the Reference"),
    ];
    with_each(base, &shapes)
}

/// Every pair is compared: the first with the last of the most shapes that
/// there may be.
fn far_apart() -> Vec<Case> {
    let names: Vec<_> = (1..MOST[SHAPES] as u32)
        .map(|name| [14, name, 0, 0, 0])
        .collect();
    let base = Base::new("1023 FunctionBlock shapes").add(SHAPES, &names);
    let last = base.case(5, "the name of the first again", |file| {
        file.push(SHAPES, &[14, 1, 0, 0, 0]);
    });
    vec![last]
}
